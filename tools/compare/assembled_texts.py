#!/usr/bin/env python3
"""Compares `xray asm` with a model of it on random texts, and reports where they differ.

usage: tools/compare/assembled_texts.py [PROGRAM] [--texts N] [--seed N]
    PROGRAM: the built program, crates/xray/out/xray if left out
    --texts: how many texts, 1000 if left out
    --seed: the seed of the texts and options, 1 if left out

The model is asm_model.py, with statuses and lines on standard error from the manual. Most texts are small programs with
all lines of the language, written in all allowed ways, and many have a fault. The others are at a limit of the language
or one past it.

For each text all bytes of the image are compared; or the refusal's line on standard error, the status, and that no
image was made. `extract` and `plain` have to accept each image. The last line says how many texts became images, and
how often each refusal came up. A difference is reported with what was expected and what was found. Then the text and
its images are kept, in the folder that the work is done in, and the status is 1.
"""
import collections
import dataclasses
import os.path
import pathlib
import random
import subprocess
import sys
import tempfile

sys.dont_write_bytecode = True  # the modules are in the repository, and their compiled forms aren't
sys.path.insert(0, str(pathlib.Path(__file__).resolve().parents[1]))
from command_line import CommandLine  # noqa: E402
from inputs.random_texts import LIMIT_EVERY, LIMIT_TURNS, MAP_VERSIONS, THRESHOLDS, small_text  # noqa: E402
from model import image_container as container  # noqa: E402
from model.asm_model import WITHOUT_THRESHOLD, Refusal, TextRefused, assembled  # noqa: E402

SHOWN_LENGTH = 12


@dataclasses.dataclass(frozen=True)
class Case:
    """A text, a threshold and a version of the sled map, and the names of their files."""

    number: int
    text: bytes
    threshold: int | None
    map_version: int | None

    @property
    def text_name(self):
        return f"text-{self.number}.asm"

    @property
    def image_name(self):
        return f"text-{self.number}.xrim"

    @property
    def expected_name(self):
        return f"text-{self.number}.expected.xrim"

    @property
    def options(self):
        threshold = [] if self.threshold is None else ["--threshold", str(self.threshold)]
        return threshold + ([] if self.map_version is None else [f"--map-version={self.map_version}"])


@dataclasses.dataclass(frozen=True)
class Outcome:
    """What a run leaves. The image is None if there is no such file."""

    status: int
    output: bytes
    error: bytes
    image: bytes | None


def random_case(draw, number):
    """The text with a number: a small one, or at times one at a limit."""
    turn, rest = divmod(number, LIMIT_EVERY)
    if rest == 0:
        kind, past = LIMIT_TURNS[turn % len(LIMIT_TURNS)]
        text = kind(draw, past)
    else:
        text = small_text(draw)
    return Case(number, text, draw.choice(THRESHOLDS), draw.choice(MAP_VERSIONS))


def expected(case):
    """By the model: why the text is refused, or None, and what a run has to leave."""
    threshold = WITHOUT_THRESHOLD if case.threshold is None else case.threshold
    try:
        return None, Outcome(0, b"", b"", assembled(case.text, threshold, case.map_version == container.RELATIVE_VERSION))
    except TextRefused as refused:
        refusal = refused.refusal
        if refusal is Refusal.TOO_LONG:
            status, told = 6, refusal.value
        else:
            status, told = 2, f"text {refusal.value} {refused.line}"
        return refusal, Outcome(status, b"", f"xray: {case.text_name}: {told}\n".encode("ascii"), None)


def run(xray, folder, *words):
    """A run of the program in a folder."""
    return subprocess.run([xray, *words], cwd=folder, capture_output=True)


def came(xray, folder, case):
    """What a run of `asm` left."""
    (folder / case.text_name).write_bytes(case.text)
    done = run(xray, folder, "asm", case.text_name, case.image_name, *case.options)
    image = folder / case.image_name
    return Outcome(done.returncode, done.stdout, done.stderr, image.read_bytes() if image.exists() else None)


def differences(one, two):
    """A line for each part in which the second outcome isn't the expected one."""
    for part in ("status", "output", "error"):
        expects, comes = getattr(one, part), getattr(two, part)
        if expects != comes:
            yield f"{part}: expected {expects!r}, came {comes!r}"
    if one.image is None and two.image is not None:
        yield f"image: expected none, came one of {len(two.image):,} bytes"
    elif one.image is not None and two.image is None:
        yield f"image: expected one of {len(one.image):,} bytes, came none"
    elif one.image != two.image:
        yield from image_differences(one.image, two.image)


def image_differences(one, two):
    """A line for each part of the file in which two images differ: where the difference begins, and how each goes on."""
    others = parts_of(two)
    for part, content in parts_of(one).items():
        if content != others[part]:
            at = len(os.path.commonprefix([content, others[part]]))
            expects, comes = shown(content[at:]), shown(others[part][at:])
            yield f"image: {part}, from byte {at} on: expected {expects}, came {comes}"


def parts_of(image):
    """The parts of an image file, by the counts in its header."""
    header = container.header_of(image)
    functions = container.HEADER_LENGTH + header.length
    sled_map = max(functions, len(image) - container.ENTRY_LENGTH * header.sleds)
    return {
        "header": image[: container.HEADER_LENGTH],
        "code": image[container.HEADER_LENGTH : functions],
        "functions": image[functions:sled_map],
        "sled map": image[sled_map:],
    }


def shown(content):
    """The first of some bytes."""
    if len(content) > SHOWN_LENGTH:
        return content[:SHOWN_LENGTH].hex(" ").upper() + " and more"
    return content.hex(" ").upper() or "nothing"


def unaccepted(xray, folder, case):
    """A line for each command that doesn't take the image that was made."""
    for words in (["extract"], ["plain", "--fuel", "0"]):
        done = run(xray, folder, *words, case.image_name)
        if done.returncode != 0:
            yield f"{' '.join(words)}: expected status 0, came {done.returncode} with {done.stderr!r}"


def compared(xray, folder, case):
    """Why the text is refused, or None, and a line for each difference. If nothing differs, no file is left."""
    refusal, expects = expected(case)
    comes = came(xray, folder, case)
    told = list(differences(expects, comes))
    if comes.image is not None:
        told += unaccepted(xray, folder, case)
    if not told:
        (folder / case.text_name).unlink()
        (folder / case.image_name).unlink(missing_ok=True)
    elif expects.image is not None:
        (folder / case.expected_name).write_bytes(expects.image)
    return refusal, told


def compare_all(xray, folder, texts, seed):
    """How often each refusal came up, with None for images, and how many texts differed. All differences are printed."""
    draw = random.Random(seed)
    counts = collections.Counter()
    differ = 0
    for number in range(1, texts + 1):
        case = random_case(draw, number)
        refusal, told = compared(xray, folder, case)
        counts[refusal] += 1
        if told:
            differ += 1
            print("differs: asm", folder / case.text_name, *case.options)
            for line in told:
                print("    " + line)
    return counts, differ


def main():
    parser = CommandLine(__doc__)
    parser.add_program()
    parser.add_argument("--texts", type=int, default=1000, metavar="N")
    parser.add_argument("--seed", type=int, default=1, metavar="N")
    given = parser.parse_args()
    folder = pathlib.Path(tempfile.mkdtemp(prefix="assembled_texts."))
    try:
        counts, differ = compare_all(given.program, folder, given.texts, given.seed)
    finally:
        if not any(folder.iterdir()):
            folder.rmdir()
    refusals = ", ".join(f"{counts[refusal]:,} {refusal.value}" for refusal in Refusal)
    print(f"{given.texts:,} texts: {counts[None]:,} images; refused: {refusals}; {differ:,} differ from the model")
    sys.exit(1 if differ else 0)


if __name__ == "__main__":
    main()
