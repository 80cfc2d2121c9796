#!/usr/bin/env python3
"""Compiles programs with clang, and compares their sled maps with the model, with llvm-xray and with their own logs.

usage: tools/compare/program_maps.py [--direct] [--damaged N] [PROGRAM]
    --direct: PROGRAM is given the name of a file alone, and writes the map on its output and the counts on its error
        stream; else it is xray, and is given `map FILE MAP`
    --damaged N: compare N damaged files, too (2,000 if left out)
    PROGRAM: the built xray, crates/xray/out/xray if left out

Each clang of CLANGS that is there compiles each source with each choice of options: PIE and not, with an index of
functions and without, linked by GNU ld and by lld, with sections of functions, stripped, as a shared object. The map of
each must be that of the model, byte for byte. Where llvm-xray of the same version reads the file, and no sled is left
out, its lines must say the same ids, addresses, kinds and names. The ids in the log of a run must have the names of
functions that were called. Damaged files are files of programs with some bytes changed, or cut short; the seed is fixed.
"""
import pathlib
import random
import re
import shutil
import subprocess
import sys
import tempfile

sys.dont_write_bytecode = True
TOOLS = pathlib.Path(__file__).resolve().parents[1]
sys.path.insert(0, str(TOOLS))
from command_line import CommandLine, finish  # noqa: E402
from model.image_model import Refused  # noqa: E402
from model.program_map_model import facts_text, map_of  # noqa: E402

CLANGS = [14, 19]
XRAY = ["-fxray-instrument", "-fxray-instruction-threshold=1"]
C_SOURCE = """
static __attribute__((noinline)) int quiet(int x) { return x - 1; }
__attribute__((noinline)) int leaf(int x) { return x * 7; }
int tail(int x) { return leaf(x + 2); }
static inline int inlined(int x) { return x ^ 3; }
__attribute__((weak)) int weak_one(int x) { return x + 9; }
int target(int x) { return x + 19; }
int a_longer_alias(int x) __attribute__((alias("target")));
__attribute__((xray_log_args(1), xray_always_instrument)) int logged(int x) { return x; }
int main(int argc, char **argv) { return quiet(argc) + tail(argc) + inlined(argc) + weak_one(argc) + target(1) + logged(2) == 1; }
"""
CPP_SOURCE = """
#include <string>
#include <vector>
namespace store { struct Base { virtual ~Base() {} virtual int write(int x); int operator()(int, char); }; }
int store::Base::write(int x) { return x + 1; }
int store::Base::operator()(int x, char c) { return x * c; }
template <class T> __attribute__((noinline)) T twice(T x) { return x + x; }
namespace { __attribute__((noinline)) int hidden(int x) { return x - 1; } }
unsigned long long operator"" _x(unsigned long long v) { return v * 3; }
int main(int argc, char **) {
  store::Base base; std::vector<std::string> all; all.push_back(std::string(argc, 'x'));
  return base.write(twice(argc)) + base(1, 'c') + (int)twice(1.5) + hidden(2) + (int)7_x + (int)all.size() == 1;
}
"""
EVENT_SOURCE = """
int send(int x) { static char b[] = "hi"; __xray_customevent(b, 2); __xray_typedevent(3, b, 2); return x; }
int main(void) { return send(0); }
"""
SHARED_SOURCE = """
static __attribute__((noinline)) int inner(int x) { return x + 3; }
int outer(int x) { return inner(x) * 2; }
"""
OTHER_SOURCE = "int without_index(int x) { return x * 2; }\n"
FIRST_SOURCE = "extern int without_index(int); extern int last(int);\nint main(int c, char **v) { return without_index(c) + last(c) == 1; }\n"
LAST_SOURCE = "int last(int x) { return x * 5; }\n"


def run(words, **more):
    return subprocess.run([str(w) for w in words], capture_output=True, check=False, **more)


class Compared:
    def __init__(self, program, direct, folder):
        self.program, self.direct, self.folder = program, direct, folder
        self.differ, self.maps, self.refused, self.llvm, self.logs = [], 0, 0, 0, 0

    def ours(self, path):
        """The map and the counts, or None and the words of the refusal."""
        if self.direct:
            done = run([self.program, path])
            text, counts, error = done.stdout, done.stderr, done.stderr
        else:
            place = self.folder / "ours.map"
            done = run([self.program, "map", path, place])
            text = place.read_bytes() if done.returncode == 0 else b""
            counts, error = done.stdout, done.stderr
        if done.returncode == 0:
            return text, counts
        found = re.search(rb": program (.*)\n", error)
        return None, found.group(1).decode() if found else f"status {done.returncode}: {error[:200]!r}"

    def model(self, data):
        try:
            text, facts = map_of(data)
            return text, facts_text(facts).encode()
        except Refused as refused:
            return None, refused.reason

    def file(self, path, what):
        """Compares a file with the model. Returns our map, if there is one."""
        data = path.read_bytes()
        ours, model = self.ours(path), self.model(data)
        if ours != model:
            self.differ.append(f"{what}: ours {ours!r:.300}, model {model!r:.300}")
        if ours[0] is None:
            self.refused += 1
        else:
            self.maps += 1
        return ours

    def with_llvm(self, path, what, version, ours):
        """Compares a map with that of llvm-xray, if it reads the file."""
        text, counts = ours
        if text is None or b" 0 sleds without an id" not in counts:
            return
        done = run([f"llvm-xray-{version}", "extract", "--symbolize", "--no-demangle", path])
        if done.returncode or b"id:" not in done.stdout:
            return
        self.llvm += 1
        row = re.compile(rb"- \{ id: (\d+), address: 0x([0-9A-F]+), function: 0x([0-9A-F]+), kind: ([a-z-]+), always-instrument: (\w+), "
                         rb"function-name: (.*?), version: (\d) \}")
        left, right = row.findall(text), row.findall(done.stdout)
        if [r[:5] + r[6:] for r in left] != [r[:5] + r[6:] for r in right]:
            self.differ.append(f"{what}: other sleds than llvm-xray {version} has")
            return
        symbols = {}
        for line in run(["nm", path]).stdout.decode().splitlines():
            words = line.split()
            if len(words) == 3:
                symbols.setdefault(int(words[0], 16), set()).add(words[2])
        for one, other in zip(left, right):
            name, theirs = one[5].strip(b"'").decode(), other[5].strip(b"'\"").decode()
            # several symbols may name a function: llvm-xray takes another one then
            if name != theirs and not {name, theirs} <= symbols.get(int(one[2], 16), set()) and not theirs.startswith("#"):
                self.differ.append(f"{what}: {name} at {one[2].decode()}, and {theirs} by llvm-xray {version}")

    def with_log(self, path, what, version, ours):
        """Compares the names of the ids in a log with those that llvm-xray finds by address."""
        if ours[0] is None:
            return
        for old in self.folder.glob("xray-log.*"):
            old.unlink()
        run([path], cwd=self.folder, env={"XRAY_OPTIONS": "patch_premain=true xray_mode=xray-basic",
                                          "XRAY_BASIC_OPTIONS": "func_duration_threshold_us=0"}, timeout=60)
        logs = sorted(self.folder.glob("xray-log.*"))
        if not logs:
            return
        done = run([f"llvm-xray-{version}", "convert", "--symbolize", "--no-demangle", f"--instr_map={path}", "--output-format=yaml", logs[0]])
        called = set(re.findall(rb"func-id: (\d+), function: ([^ ,]+),", done.stdout))
        if not called:
            return
        self.logs += 1
        names = dict(re.findall(rb"- \{ id: (\d+), .*?function-name: '(.*?)', version", ours[0]))
        for id_, name in called:
            if id_ not in names:
                self.differ.append(f"{what}: id {id_.decode()} of the log, {name.decode()}, is not in the map")


def compiled(folder):
    """The files of programs: a path, what it is, the version of clang, and whether to run it."""
    sources = {"c.c": C_SOURCE, "cpp.cc": CPP_SOURCE, "event.c": EVENT_SOURCE, "shared.c": SHARED_SOURCE, "other.c": OTHER_SOURCE,
               "first.c": FIRST_SOURCE, "last.c": LAST_SOURCE}
    for name, text in sources.items():
        (folder / name).write_text(text)
    for version in CLANGS:
        c, cpp = shutil.which(f"clang-{version}"), shutil.which(f"clang++-{version}")
        if not c or not cpp:
            continue
        # the driver of version 14 turns the option round
        on, off = ("-fno-xray-function-index", "-fxray-function-index") if version < 15 else ("-fxray-function-index", "-fno-xray-function-index")
        for source, clang in [("c.c", c), ("cpp.cc", cpp), ("event.c", c)]:
            for level in [["-O0"], ["-O2", "-ffunction-sections", "-Wl,--gc-sections"]]:
                for pie in [["-fPIE", "-pie"], ["-no-pie"]]:
                    for index in [on, off]:
                        for linker in [[], ["-fuse-ld=lld"]]:
                            what = f"clang {version} {source} {' '.join([*level, *pie, index, *linker])}"
                            path = folder / f"program{abs(hash(what))}"
                            if run([clang, *XRAY, *level, *pie, index, *linker, folder / source, "-o", path], cwd=folder).returncode == 0:
                                yield path, what, version, True
                                bare = folder / "stripped"
                                if run(["strip", "-o", bare, path]).returncode == 0:
                                    yield bare, f"{what}, stripped", 0, False
                                debug = folder / "debug"
                                if run(["objcopy", "--only-keep-debug", path, debug]).returncode == 0:
                                    yield debug, f"{what}, its debug file", 0, False
        for linker in [[], ["-fuse-ld=lld"]]:
            for index in [on, off]:
                path = folder / "shared.so"
                if run([c, *XRAY, "-O1", "-fPIC", "-shared", index, *linker, folder / "shared.c", "-o", path], cwd=folder).returncode == 0:
                    yield path, f"clang {version}, a shared object {index} {linker}", version, False
        objects = []
        for source, index in [("first.c", on), ("other.c", off), ("last.c", on)]:
            objects.append(folder / f"{source}.o")
            run([c, *XRAY, "-O1", index, "-c", folder / source, "-o", objects[-1]])
        path = folder / "mixed"
        if run([c, *XRAY, *objects, "-o", path], cwd=folder).returncode == 0:
            yield path, f"clang {version}, one object without an index", 0, False


def damaged(files, count):
    """Files with some bytes changed, mostly where headers and tables are, or cut short."""
    draw = random.Random(20)
    for _ in range(count):
        data = bytearray(draw.choice(files))
        headers = int.from_bytes(data[40:48], "little")
        places = [range(64), range(headers, len(data))]
        for section in range(headers, len(data) - 63, 64):
            begin, size = (int.from_bytes(data[section + at:section + at + 8], "little") for at in (24, 32))
            kind = int.from_bytes(data[section + 4:section + 8], "little")
            if size and begin + size <= len(data) and (size < 4096 or kind in (2, 4, 11)):
                places.append(range(begin, begin + size))
        for _ in range(draw.choice([1, 1, 1, 2, 4])):
            place = draw.choice(draw.choice(places))
            data[place] = draw.choice([0, 1, 255, draw.randrange(256), data[place] ^ 1 << draw.randrange(8)])
        if draw.randrange(12) == 0:
            del data[draw.randrange(len(data)):]
        yield bytes(data)


def main():
    parser = CommandLine(__doc__)
    parser.add_argument("--direct", action="store_true")
    parser.add_argument("--damaged", type=int, default=2000)
    parser.add_program()
    words = parser.parse_args()
    with tempfile.TemporaryDirectory() as name:
        folder = pathlib.Path(name)
        compared = Compared(words.program, words.direct, folder)
        kept = []
        for path, what, version, runs in compiled(folder):
            ours = compared.file(path, what)
            if version:
                compared.with_llvm(path, what, version, ours)
            if runs:
                compared.with_log(path, what, version, ours)
            if len(kept) < 40 or "shared" in what or "one object" in what:
                kept.append(path.read_bytes())
        place = folder / "damaged"
        for number, data in enumerate(damaged(kept, words.damaged) if kept else []):
            place.write_bytes(data)
            compared.file(place, f"damaged file {number}")
    finish(compared.differ, f"{compared.maps} maps and {compared.refused} refusals compared with the model, {compared.llvm} maps with "
           f"llvm-xray, {compared.logs} with the ids of logs")


if __name__ == "__main__":
    main()
