#!/usr/bin/env python3
"""Compares what LLVM's `llvm-xray` reads in sled maps with what the model reads in them, and reports where they differ.

usage: tools/compare/llvm_maps.py [PROGRAM] [--images N] [--seed N] [--llvm-xray NAME]
    PROGRAM: a built program, which prints the same maps by `extract`, and is compared too; without it only the model is
    --images: how many images, 200 if left out
    --seed: the seed of everything random, 1 if left out
    --llvm-xray: LLVM's program, llvm-xray-14 if left out

Debian's package llvm-14 has LLVM's program. If it is missing, this reports that and passes.

LLVM reads a map in a section of an ELF file. So the code and the map of an image are put into one, at the addresses
that they have. The maps are of versions 0, 1 and 2, and many are of several. For each entry LLVM has to say the same
addresses, function id, kind and version. If a function is at address 0, it gives this function and the next one the
same id. A difference is reported, and then the status is 1.
"""
import pathlib
import random
import re
import shutil
import struct
import subprocess
import sys
import tempfile

sys.dont_write_bytecode = True  # the modules are in the repository, and their compiled forms aren't
sys.path.insert(0, str(pathlib.Path(__file__).resolve().parents[1]))
from command_line import CommandLine  # noqa: E402
from inputs.random_images import assembled_draft, units_draft  # noqa: E402
from model import image_container as container  # noqa: E402
from model import image_model as model  # noqa: E402

# LLVM's words for the kinds of sleds.
KINDS = ["function-enter", "function-exit", "tail-exit", "log-args-enter"]
SAID = re.compile(
    r"- \{ id: (\d+), address: (\w+), function: (\w+), kind: ([\w-]+), always-instrument: (\w+), function-name: '[^']*'"
    r"(?:, version: (\d+))? \}"
)

# ---- A file that LLVM reads

NAMES = b"\0.text\0xray_instr_map\0.shstrtab\0"
HEADER_LENGTH = 64
SECTION_LENGTH = 64
X86_64 = 62
EXECUTABLE = 2
CONTENT, STRINGS = 1, 3
ALLOCATED, CODE = 2, 6


def section(name, kind, flags, address, at, length):
    return struct.pack("<IIQQQQIIQQ", NAMES.index(name), kind, flags, address, at, length, 0, 0, 1, 0)


def elf_of(image):
    """An ELF file with the code of an image file and, above it, with its map."""
    head = container.header_of(image)
    base = head.base
    code = image[container.HEADER_LENGTH : container.HEADER_LENGTH + head.length]
    sled_map = image[len(image) - container.ENTRY_LENGTH * head.sleds :]
    at = [HEADER_LENGTH]
    for part in (code, sled_map, NAMES):
        at.append(at[-1] + len(part))
    sections = [
        bytes(SECTION_LENGTH),
        section(b".text", CONTENT, CODE, base, at[0], len(code)),
        section(b"xray_instr_map", CONTENT, ALLOCATED, base + container.MAP_DISTANCE, at[1], len(sled_map)),
        section(b".shstrtab", STRINGS, 0, 0, at[2], len(NAMES)),
    ]
    header = b"\x7fELF\x02\x01\x01".ljust(16, b"\0") + struct.pack(
        "<HHIQQQIHHHHHH", EXECUTABLE, X86_64, 1, base, 0, at[3], 0, HEADER_LENGTH, 0, 0, SECTION_LENGTH, len(sections), 3
    )
    return header + code + sled_map + NAMES + b"".join(sections)


# ---- The comparison


def llvm_rows(text):
    """The entries that `llvm-xray extract` prints."""
    return [
        (int(number), int(address, 16), int(function, 16), kind, always == "true", int(version or 0))
        for number, address, function, kind, always, version in SAID.findall(text)
    ]


def model_rows(image):
    """What LLVM has to print of an image."""
    counts_from_0 = image.entries[0].function == 0
    return [
        (
            max(number - 1, 1) if counts_from_0 else number,
            entry.address, entry.function, KINDS[entry.kind], entry.always, entry.version,
        )
        for number, entry in zip(image.ids, image.entries)
    ]  # fmt: skip


def accepted_image(draw):
    """A random image file that has sleds and isn't refused, and the image."""
    while True:
        file = draw.choice([assembled_draft, units_draft])(draw).file()
        try:
            image = model.image_of(file)
        except model.Refused:
            continue
        if image.entries:
            return file, image


def differences(given, folder, file, image):
    (folder / "m").write_bytes(elf_of(file))
    done = subprocess.run([given.llvm_xray, "extract", "m"], cwd=folder, capture_output=True, text=True)
    if llvm_rows(done.stdout) != model_rows(image):
        yield f"expected {model_rows(image)}, LLVM says {done.stdout}{done.stderr}"
    if given.program is not None:
        (folder / "i").write_bytes(file)
        done = subprocess.run([given.program, "extract", "i"], cwd=folder, capture_output=True, text=True)
        if done.stdout != model.sled_map_text(image):
            yield f"expected {model.sled_map_text(image)}, came {done.stdout}{done.stderr}"


def main():
    parser = CommandLine(__doc__)
    parser.add_program(default=None)
    parser.add_argument("--images", type=int, default=200, metavar="N")
    parser.add_argument("--seed", type=int, default=1, metavar="N")
    parser.add_argument("--llvm-xray", default="llvm-xray-14", metavar="NAME")
    given = parser.parse_args()
    if shutil.which(given.llvm_xray) is None:
        print(f"{given.llvm_xray} is missing, so nothing is compared")
        return
    differ, versions, mixed = 0, [0, 0, 0], 0
    for number in range(given.images):
        file, image = accepted_image(random.Random(f"map {given.seed} {number}"))
        found = {entry.version for entry in image.entries}
        mixed += len(found) > 1
        for version in found:
            versions[version] += 1
        with tempfile.TemporaryDirectory(prefix="llvm_maps.") as folder:
            for line in differences(given, pathlib.Path(folder), file, image):
                differ += 1
                print(f"image {number}: {line}")
    said = ", ".join(f"{count} with version {version}" for version, count in enumerate(versions))
    print(f"{given.images} maps, {said}, {mixed} with several, {differ} differences")
    sys.exit(1 if differ else 0)


if __name__ == "__main__":
    main()
