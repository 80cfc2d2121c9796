#!/usr/bin/env python3
"""Runs `xray run` again and again on examples that were worked by hand, and reports where a run differs from them.

usage: tools/compare/worked_threads.py [PROGRAM] [--times N] [--step N]
    PROGRAM: the built program, crates/xray/out/xray if left out
    --times: how often each example is run, 100 if left out
    --step: only each Nth size at which outputs fail, 1 if left out

Threads of the system run in a different order each time. The scripts of most examples put them in order by holds and
awaits, so each run has to leave the same bytes. A program that ran its threads one after the other, or patched only
before or after them, would hang on some examples, or leave other marks. Then each output fails: names that can't be
created or written, and files that may not grow past a size, for every size up to that of the whole file. A difference
is reported, and then the status is 1.
"""
import functools
import pathlib
import resource
import signal
import subprocess
import sys
import tempfile

sys.dont_write_bytecode = True  # the modules are in the repository, and their compiled forms aren't
sys.path.insert(0, str(pathlib.Path(__file__).resolve().parents[1]))
from command_line import CommandLine, finish  # noqa: E402
from worked_runs import CALL, REGISTERS, STRAIGHT_LINE, TRACED, lines  # noqa: E402
from worked_traces import (  # noqa: E402
    CSV_HEAD, FIBONACCI, SETUP, Programmed, Row, Run, audited, block, header, run_differences,
)  # fmt: skip

LONGEST_RUN = 120  # the seconds after which a run counts as endless
PART = 4096  # how many bytes of an output are written at once
RECORDED_CALL = [
    "10 00 00 00 00 00 00 00", "20 00 00 00 01 00 00 00", "22 00 00 00 00 00 00 00", "12 00 00 00 01 00 00 00",
]  # fmt: skip


def beside(shows, *reports, file=CALL, script=TRACED, options="", **comes):
    """An example whose first run is a `run`. `comes` says what it leaves, which `check` accepts."""
    words = f"run i s t a --wall 0 {options}".strip()
    return Row(shows, {"i": file, "s": lines(script)}, (Run(words, **comes), Run("check i s t a", "yes"), *reports))


def setup(**options):
    """The second line of an audit with these options."""
    words = dict(word.split("=") for word in SETUP.split())
    words |= {name.replace("_", "-"): str(value) for name, value in options.items()}
    return " ".join(f"{name}={value}" for name, value in words.items())


# ---- Threads that are ordered by their script

# The thread finds two sleds unpatched and waits for the patcher, which waits for it before it patches.
HELD = beside(
    "a held thread passes its sleds once they are patched",
    script="set_handler / init / hold 1 2 / go / await 1 2 / patch / release 1",
    has=("marks .2 +2",),
    leaves={
        "t": header() + block("05 00 00 01", *("22 00 00 00 00 00 00 00", "12 00 00 00 01 00 00 00")),
        "a": audited("thread 1 returned passings 4 recorded 2 segments 1 first 0", "marks .2 +2"),
    },
    sizes={"t": 128},
)


ORDERED = [
    HELD,
    beside(
        "each of two threads waits until the other has made a passing",
        file=STRAIGHT_LINE,
        script="patch / set_handler / init / hold 1 1 / hold 2 1 / go / await 1 1 / await 2 1 / release 1 / release 2",
        options="--threads 2",
        leaves={
            "t": header()
            + block("05", "10 00 00 00 00 00 00 00", "12 00 00 00 02 00 00 00")
            + block("05", "10 00 00 00 00 00 00 00", "12 00 00 00 02 00 00 00", thread="02"),
        },
        has=("marks +2",),
    ),
    beside(
        "a thread runs to its end between two passings of another, and the patcher between them",
        script="set_handler / init / hold 1 1 / hold 2 3 / go / await 1 1 / await 2 3 / patch / "
        "release 1 / await 1 4 / release 2",
        options="--threads 2",
        leaves={
            "t": header()
            + block("05 00 00 01", "20 00 00 00 00 00 00 00", "22 00 00 00 00 00 00 00", "12 00 00 00 01 00 00 00")
            + block("05 00 00 02", "12 00 00 00 00 00 00 00", thread="02"),
            "a": lines(
                f"xray-audit 1 / {setup(threads=2)} / "
                "thread 1 returned passings 4 recorded 3 segments 1 first 0 / marks .1 +3 / "
                "thread 2 returned passings 4 recorded 1 segments 1 first 0 / marks .3 +1 / recycled 0"
            ),
        },
    ),
    beside(
        "the sleds are unpatched and patched again while a thread is held",
        script="patch / set_handler / init / hold 1 1 / go / await 1 1 / unpatch / patch_function 1 / release 1",
        has=("marks +1 .2 +1",),
        leaves={"t": header() + block("05", RECORDED_CALL[0], "12 00 00 00 02 00 00 00")},
    ),
    beside(
        "the log is finalized while a thread is held",
        script="patch / set_handler / init / hold 1 3 / go / await 1 3 / finalize / release 1",
        has=("marks +3 f1",),
        leaves={"t": header() + block("05", *RECORDED_CALL[:3])},
    ),
    beside(
        "a thread that has ended lets the patcher go on",
        script="set_handler / init / go / await 1 4294967295 / patch",
        file=STRAIGHT_LINE,
        leaves={"t": header()},
        has=("marks .2",),
    ),
    beside(
        "a thread that ends before its hold is never held",
        script="patch / set_handler / init / hold 1 2 / go / await 1 2 / unpatch / release 1",
        file=STRAIGHT_LINE,
        sizes={"t": 128},
        has=("marks +2",),
    ),
]


def sixteen_holds():
    """Sixteen threads, each held, that run to their ends one at a time: by turns with patched and with unpatched sleds.

    Thread t is held before its passing t mod 4. The last thread goes first.
    """
    threads = range(1, 17)
    holds = {thread: thread % 4 for thread in threads}
    script = ["set_handler", "init", *(f"hold {thread} {passing}" for thread, passing in holds.items()), "go"]
    script += [f"await {thread} {passing}" for thread, passing in holds.items()]
    said, kept = [], header()
    for thread in reversed(threads):
        script += ["patch" if thread % 2 == 0 else "unpatch", f"release {thread}", f"await {thread} 4"]
    for thread, passing in holds.items():
        recorded = 4 - passing if thread % 2 == 0 else 0
        marks = ".4" if recorded == 0 else "+4" if passing == 0 else f".{passing} +{recorded}"
        counts = f"recorded {recorded} segments {min(1, recorded)} first 0"
        said.append(f"thread {thread} returned passings 4 {counts} / marks {marks}")
        if recorded:
            # The counter is 0 at the first passing, 1 at the two of the callee, and 2 at the last.
            base = f"05 00 00 {[0, 1, 1, 2][passing]:02X}"
            first = RECORDED_CALL[passing][:11] + " 00 00 00 00"
            kept += block(base, first, *RECORDED_CALL[passing + 1 :], thread=f"{thread:02X}")
    audit = lines(f"xray-audit 1 / {setup(threads=16)} / {' / '.join(said)} / recycled 0")
    shows = "sixteen threads are held, and go to their ends one after the other"
    return beside(shows, script=" / ".join(script), options="--threads 16", leaves={"t": kept, "a": audit})


# ---- Threads that nothing orders, and the buffers that they share

FIBONACCI_ACCOUNT = f"{CSV_HEAD} / 1,87564,3,7,142,1719,213128,11532192,0,0,fib"
FIBONACCI_STATE = "rax=1a6d rcx=0 rdx=0 " + REGISTERS.format(0).replace("zf=0", "zf=1")


def recursion(options, recycled, size, *reports):
    """A recursion on four threads, each with 22 segments: 21 of 2,040 events and one of 942."""
    threads = range(1, 5)
    has = [f"thread {thread} returned instructions 213132 passings 43782" for thread in threads]
    has += [FIBONACCI_STATE, "marks +43782", f"recycled {recycled}"]
    if recycled == 0:
        has += [f"thread {thread} returned passings 43782 recorded 43782 segments 22 first 0" for thread in threads]
    shows, options = "a recursion on four threads", f"--threads 4 {options}".strip()
    return beside(shows, *reports, file=FIBONACCI, options=options, has=tuple(has), sizes={"t": size})


def wrapped(options, recycled, kept):
    """Threads that each fill four buffers of one event, since each passing is on another CPU than the one before. This many
    are lost, and this many are left."""
    size = len(header()) + kept * (16 + 72)
    has = (f"recycled {recycled}",)
    return beside("buffers are used again", options=f"--buffer-size 88 --cpus 2 --migrate 1 {options}", has=has, sizes={"t": size})


UNORDERED = [
    recursion("", 0, 1_408_096, Run("account t i --format csv", FIBONACCI_ACCOUNT)),
    # Four buffers are in hands, and of the 84 segments that are sealed the other 60 buffers keep 60.
    recursion("--buffer-max 64", 24, 1_014_496),
    # Each thread seals three segments, and one buffer is spare.
    wrapped("--threads 2 --buffer-max 3", 5, 3),
    wrapped("--threads 1 --buffer-max 2", 2, 2),
    # No buffer is spare: each thread takes its own again, or one that another thread has just sealed.
    wrapped("--threads 4 --buffer-max 4", 12, 4),
    wrapped("--threads 16 --buffer-max 16", 48, 16),
    wrapped("--threads 16 --buffer-max 17", 47, 17),
    wrapped("--threads 16 --buffer-max 63", 1, 63),
    wrapped("--threads 16 --buffer-max 64", 0, 64),
]

# ---- Words that say no command, and inputs that are refused


def refused(words, line, status):
    return Run(words, f"xray: {line}", status, sizes={"t": 0, "a": 0})


BAD_LINES = [
    "run i s", "run i s t", "run i s t a b", "run i s t t", "run i s i a", "run i s t s", "run i i t i",
    "run i s t a --threads 4 --buffer-max 3", "run i s t a --threads 17", "run i s t a --threads 0",
    "run i s t a --threads 1 --threads 1", "run i s t a --thread 1", "run i s t a --buffer-size 87",
    "run i s t a --buffer-max 1024 --buffer-size 65520", "run i s t a --format csv", "run i s t a --threads",
]  # fmt: skip
REFUSED = [
    Row(
        "no command",
        {"i": CALL, "s": lines(TRACED)},
        tuple(refused(words, "bad command line", 1) for words in BAD_LINES),
    ),
    Row(
        "no script",
        {"i": CALL, "s": lines("hold 1 3 / go / await 1 4 / release 1"), "g": lines("go"), "x": CALL[:63]},
        (
            refused("run i s t a", "s: script SelfWait 3", 2),
            refused("run x s t a", "x: image Short", 2),
            refused("run x missing t a", "x: image Short", 2),
            refused("run i missing t a", "missing: read fault", 3),
            refused("run missing s t a", "missing: read fault", 3),
        ),
    ),
]

# ---- Outputs that fail


def limited(size):
    """Lets no file grow past a size. A write that would do so fails."""
    resource.setrlimit(resource.RLIMIT_FSIZE, (size, size))
    signal.signal(signal.SIGXFSZ, signal.SIG_IGN)


class Failing:
    """Runs of an example whose outputs may fail, in a folder for each run."""

    def __init__(self, program, row, folder):
        self.program = program
        self.row = row
        self.folder = pathlib.Path(folder)

    def run(self, words, size=None, output="out"):
        """The status, the line on standard error, and the files that are there at the end."""
        with tempfile.TemporaryDirectory(dir=self.folder) as name:
            here = pathlib.Path(name)
            (here / "folder").mkdir()
            for file, content in self.row.files.items():
                (here / file).write_bytes(content)
            with open(here / output, "wb") as out:
                before = None if size is None else functools.partial(limited, size)
                done = subprocess.run([self.program, *words.split()], cwd=here, stdout=out, stderr=subprocess.PIPE,
                                      preexec_fn=before, timeout=LONGEST_RUN)  # fmt: skip
            files = {path.name: path.read_bytes() for path in here.iterdir() if path.is_file()}
        return done.returncode, done.stderr.decode(), files

    def whole(self):
        return self.run(self.row.runs[0].words)[2]


def output_differences(failing):
    """Names that can't be created or written, each of the outputs in turn."""
    whole = failing.whole()
    words = failing.row.runs[0].words
    untouched = {name: whole[name] for name in ("i", "s")} | {"out": b""}
    cases = [
        (words.replace(" t a", " /dev/full a"), "/dev/full", "out", untouched),
        (words.replace(" t a", " folder a"), "folder", "out", untouched),
        (words.replace(" t a", " no/such a"), "no/such", "out", untouched),
        (words.replace(" t a", " t /dev/full"), "/dev/full", "out", untouched | {"t": whole["t"]}),
        (words.replace(" t a", " t folder"), "folder", "out", untouched | {"t": whole["t"]}),
        (words, "output", "/dev/full", {name: whole[name] for name in ("i", "s", "t", "a")}),
    ]
    for said, name, output, left in cases:
        came = failing.run(said, output=output)
        if came != (4, f"xray: {name}: write fault\n", left):
            yield f"{said} > {output}: {came}"


def size_differences(failing, step):
    """For each of these sizes, a run in which no output may grow past it. The first output that is longer keeps its prefix."""
    whole = failing.whole()
    words = failing.row.runs[0].words
    for size in sizes_of(max(len(whole[name]) for name in ("t", "a", "out")))[::step]:
        failed = next((name for name in ("t", "a", "out") if len(whole[name]) > size), None)
        came = failing.run(words, size)
        if came != left_by(whole, failed, size):
            yield f"{words}, no file past {size} bytes: {came}"


def sizes_of(longest):
    """All sizes of a short file, and those near the ends of the parts in which a longer one is written."""
    if longest < 3000:
        return range(longest + 1)
    return [*range(100), *(part + by for part in range(PART, longest, PART) for by in (-1, 0, 1)), longest - 1, longest]


def left_by(whole, failed, size):
    """What a run leaves if this output, or none, is cut at a size."""
    if failed is None:
        return 0, "", whole
    names = ("i", "s", "t", "a", "out")
    cut = names.index(failed)
    left = {name: whole[name] for name in names[:cut]} | {failed: whole[failed][:size], "out": b""}
    if failed == "out":
        left["out"] = whole["out"][:size]
    return 4, f"xray: {'output' if failed == 'out' else failed}: write fault\n", left


# For each of the trace, the audit and what is printed, an example in which it is longest. The trace of the last has many
# parts.
LONGEST = [
    HELD,
    beside("nothing is recorded", script="go"),
    beside("nothing is recorded on sixteen threads", script="go", options="--threads 16"),
    beside("a trace of some buffers", file=FIBONACCI, options="--passings 5000"),
]


def failure_differences(program, step):
    with tempfile.TemporaryDirectory(prefix="worked_threads.") as folder:
        for row in (HELD, ORDERED[1]):
            yield from output_differences(Failing(program, row, folder))
        for row in LONGEST:
            yield from size_differences(Failing(program, row, folder), step)


# ---- The comparison


def row_differences(program, row):
    with tempfile.TemporaryDirectory(prefix="worked_threads.") as folder:
        world = Programmed(program, folder, row.files)
        for run in row.runs:
            yield from (f"{row.shows}: {run.words}: {line}" for line in run_differences(world, run))


def main():
    parser = CommandLine(__doc__)
    parser.add_program()
    parser.add_argument("--times", type=int, default=100, metavar="N")
    parser.add_argument("--step", type=int, default=1, metavar="N")
    given = parser.parse_args()
    program = given.program
    again = [*ORDERED, sixteen_holds(), *UNORDERED]
    differ = [line for row in REFUSED for line in row_differences(program, row)]
    for row in again:
        for time in range(1, given.times + 1):
            differ += (f"time {time}: {line}" for line in row_differences(program, row))
    differ += failure_differences(program, given.step)
    finish(differ, f"{len(again)} examples, {given.times} times each, and outputs that fail")


if __name__ == "__main__":
    main()
