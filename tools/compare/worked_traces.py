#!/usr/bin/env python3
"""Compares the model of `xray` with traces, audits and reports that were worked by hand, and reports where they differ.

usage: tools/compare/worked_traces.py [PROGRAM] [--with COMMANDS]
    PROGRAM: a built program, which is compared with the same results; without it only the model is
    --with: which of sim, run, account, stack, convert and soak PROGRAM has, with commas between them; all if left out

Each row begins with some files and goes through runs over them, in order. A replay leaves a trace t and an audit a,
which later reports read. A run has what it prints, or some of these lines, and which files it leaves. Traces are
written as hexadecimal bytes, record by record. A difference is reported, and then the status is 1.
"""
import dataclasses
import pathlib
import random
import subprocess
import sys
import tempfile

sys.dont_write_bytecode = True  # the modules are in the repository, and their compiled forms aren't
sys.path.insert(0, str(pathlib.Path(__file__).resolve().parents[1]))
from command_line import finish  # noqa: E402
from model import image_model, replay_model, trace_model  # noqa: E402
from model import xray_model as model  # noqa: E402
from worked_runs import CALL, STRAIGHT_LINE, TAIL_JUMP, TRACED, given_words, image, lines  # noqa: E402

EMPTY_FUNCTION = image("fn main always / out 0 / ret")
FIBONACCI = image(
    "entry main / fn main never / mov edi, 20 / call fib / ret / fn fib always / mov ecx, 0 / add rdi, rcx / jnz nz / ret / "
    "nz: / mov ecx, 1 / sub rdi, rcx / jnz big / add rax, rcx / ret / big: / push rdi / call fib / pop rdi / mov ecx, 1 / "
    "sub rdi, rcx / call fib / ret"
)

# ---- Traces by hand


def padded(said):
    """A metadata record whose first bytes are these."""
    return bytes.fromhex(said).ljust(16, b"\0")


def header(size="00 40 00 00", version="03"):
    return bytes.fromhex(f"{version} 00 01 00 03 00 00 00 {'00' * 8} {size} {'00' * 12}")


def extents(size):
    return padded("0F" + size.to_bytes(8, "little").hex())


def block(*records, thread="01", pid="01"):
    """A block of a thread with a wall time of 0. A record is given by its first bytes. A function record has eight."""
    used = padded(f"01 {thread}") + padded("09") + padded(f"13 {pid}")
    for said in records:
        raw = bytes.fromhex(said)
        used += raw if raw[0] % 2 == 0 else padded(said)
    return extents(len(used)) + used


def counted(action, function, delta):
    """A function record in hexadecimal digits."""
    return (function * 16 + action * 2).to_bytes(4, "little").hex() + delta.to_bytes(4, "little").hex()


ENTERED, LEFT, JUMPED = 0, 1, 2


def calls(*events, thread="01"):
    """A block of events on CPU 0, each an action, a function and how far the counter has advanced from 0."""
    return block("05", *(counted(*event) for event in events), thread=thread)


def calls_of(durations):
    """A block of calls of function 1, one after the other, that take this long."""
    return calls(*(event for duration in durations for event in ((ENTERED, 1, 0), (LEFT, 1, duration))))


# ---- The rows


@dataclasses.dataclass(frozen=True)
class Run:
    """The outcome of a run: lines with ` / ` between them, on standard error unless the status is 0.

    `has` are some of the lines on standard output or in the audit. `leaves` are bytes of files, and `sizes` their
    lengths.
    """

    words: str
    comes: str | None = None
    status: int = 0
    has: tuple = ()
    leaves: dict = dataclasses.field(default_factory=dict)
    sizes: dict = dataclasses.field(default_factory=dict)


@dataclasses.dataclass(frozen=True)
class Row:
    shows: str
    files: dict
    runs: tuple


def replayed(shows, *runs, file=STRAIGHT_LINE, script=TRACED, schedule="", options="", **comes):
    """A row whose first run is a replay. `comes` says what it leaves."""
    words = f"sim i s c t a --wall 0 {options}".strip()
    return Row(shows, {"i": file, "s": lines(script), "c": lines(schedule)}, (Run(words, **comes), *runs))


def reported(shows, trace, *runs, file=STRAIGHT_LINE):
    return Row(shows, {"t": trace, "i": file}, runs)


def refused(words, line, status=2):
    return Run(words, f"xray: {line}", status)


CSV_HEAD = "funcid,count,min,med,90p,99p,max,sum,entries,exits,function"
TEXT_HEAD = (
    "    funcid      count        min        med        90p        99p        max        sum    entries      exits function"
)
STACK_HEAD = "     count        sum       self stack"
SETUP = (
    "threads=1 buffer-size=16384 buffer-max=100 fuel=10000000 passings=1048576 tick=1 tsc=0 cpus=1 migrate=1048576 pid=1 "
    "wall=0.0 frequency=0"
)


def audited(thread, marks, setup=SETUP, recycled=0):
    return lines(f"xray-audit 1 / {setup} / {thread} / {marks} / recycled {recycled}")


STRAIGHT_TRACE = header() + block("05", "10 00 00 00 00 00 00 00", "12 00 00 00 02 00 00 00")
YAML_HEAD = "--- / header: /   version: 3 /   type: 1 /   constant-tsc: true /   nonstop-tsc: true /   cycle-frequency: 0"
YAML_ITEM = "  - {{ type: 0, func-id: 1, function: 'main', cpu: 0, thread: 1, process: 1, kind: function-{}, tsc: {} }}"
STRAIGHT_YAML = f"{YAML_HEAD} / records: / {YAML_ITEM.format('enter', 0)} / {YAML_ITEM.format('exit', 2)} / ..."

EVENTS_OF_ONE = (
    '{"traceEvents":[{"cpu":0,"name":"main","ph":"B","pid":1,"tid":1,"ts":0},'
    '{"cpu":0,"name":"main","ph":"E","pid":1,"tid":1,"ts":2}]}'
)

# The same call in a basic log.
STRAIGHT_LOG = bytes.fromhex(f"""
    03 00 00 00 03 00 00 00 {'00' * 24}
    00 00 00 00 01 00 00 00 00 00 00 00 00 00 00 00 01 00 00 00 01 00 00 00 {'00' * 8}
    00 00 00 01 01 00 00 00 02 00 00 00 00 00 00 00 01 00 00 00 01 00 00 00 {'00' * 8}
""")

# The same call in a trace of version 2, whose blocks name no process.
HEADER_2 = header(version="02")
STRAIGHT_TRACE_2 = HEADER_2 + bytes.fromhex(f"""
    0F 40 {'00' * 14}
    01 01 {'00' * 14}
    09 {'00' * 15}
    05 {'00' * 15}
    10 00 00 00 00 00 00 00
    12 00 00 00 02 00 00 00
""")
STRAIGHT_YAML_2 = STRAIGHT_YAML.replace("version: 3", "version: 2").replace("process: 1", "process: 0")
ACCOUNT_OF_ONE = f"{CSV_HEAD} / 1,1,2,2,2,2,2,2,0,0,main"

REPLAYS = [
    replayed(
        "a call is recorded, and all reports print it",
        Run("account t i", " / ".join([
            "Functions with latencies: 1", TEXT_HEAD,
            "         1          1" + 6 * "          2" + "          0          0 main",
        ])),
        Run("account t --format csv", f"{CSV_HEAD} / 1,1,2,2,2,2,2,2,0,0,#1"),
        Run("stack t i", f"{STACK_HEAD} /          1          2          2 main"),
        Run("stack t --format=flame", "#1 2"),
        Run("convert t i", STRAIGHT_YAML),
        leaves={
            "t": STRAIGHT_TRACE,
            "a": audited("thread 1 returned passings 2 recorded 2 segments 1 first 0", "marks +2"),
        },
        comes="thread 1 returned instructions 3 passings 2 / rax=41 rcx=0 rdx=0 rbx=0 rbp=0 rsi=0 rdi=1 r8=0 r9=0 r11=0 r12=0 "
        "r13=0 r14=0 r15=0 zf=0 / output 41 / marks +2",
    ),
    replayed(
        "nothing is recorded without patching",
        Run("account t", f"Functions with latencies: 0 / {TEXT_HEAD}"),
        Run("stack t", STACK_HEAD),
        Run("stack t --format flame", ""),
        Run("convert t i", f"{YAML_HEAD} / records: [] / ..."),
        script="go",
        has=("marks .2",),
        leaves={"t": header(), "a": audited("thread 1 returned passings 2 recorded 0 segments 0 first 0", "marks .2")},
    ),
    replayed(
        "a passing that has begun is recorded, although its sled is unpatched meanwhile",
        script=TRACED + " / unpatch",
        schedule="t 1 1 / p 2",
        has=("marks +1 .1", "thread 1 returned passings 2 recorded 1 segments 1 first 0"),
        leaves={"t": header() + block("05", "10 00 00 00 00 00 00 00")},
        sizes={"t": 120},
    ),
    replayed(
        "a sled of which all but the head is stored is unpatched",
        script="set_handler / init / go / patch",
        schedule="p 3 / t 1 1",
        has=("marks .2",),
        sizes={"t": 32},
    ),
    replayed(
        "an exit is recorded without its entry",
        Run("account t i --format csv", f"{CSV_HEAD} / 1,0,-,-,-,-,-,-,0,1,main"),
        script="set_handler / init / go / patch",
        schedule="p 3 / t 1 1 / p 5",
        has=("marks .1 +1",),
        leaves={"t": header() + block("05 00 00 02", "12 00 00 00 00 00 00 00")},
        sizes={"t": 120},
    ),
    replayed("nothing is recorded without a handler", script="patch / init / go", has=("marks n2",), sizes={"t": 32}),
    replayed(
        "nothing is recorded in a log that is finalized",
        script="patch / set_handler / init / finalize / go",
        has=("marks f2",),
        sizes={"t": 32},
    ),
    replayed(
        "a delta has 32 bits",
        file=EMPTY_FUNCTION,
        options="--tick 4294967295",
        leaves={"t": header() + block("05", "10 00 00 00 00 00 00 00", "12 00 00 00 FF FF FF FF")},
        sizes={"t": 128},
    ),
    replayed(
        "a counter that is further on gets a TSCWrap",
        file=EMPTY_FUNCTION,
        options="--tick 4294967296",
        leaves={"t": header() + block("05", "10 00 00 00 00 00 00 00", "07 00 00 00 00 01 00 00 00", "12 00 00 00 00 00 00 00")},
        sizes={"t": 144},
    ),
    replayed(
        "a counter that wraps gets a TSCWrap, and the duration goes on over it",
        Run("account t i --format csv", f"{CSV_HEAD} / 1,1,1,1,1,1,1,1,0,0,main"),
        file=EMPTY_FUNCTION,
        options="--tsc 18446744073709551615",
        leaves={
            "t": header() + block("05 00 00 FFFFFFFFFFFFFFFF", "10 00 00 00 00 00 00 00", "07", "12 00 00 00 00 00 00 00"),
        },
        sizes={"t": 144},
    ),
    *(
        replayed(
            f"a buffer of {size} bytes has room for three events on one CPU",
            file=CALL,
            options=f"--buffer-size {size}",
            leaves={
                "t": header(f"{size:02X} 00 00 00")
                + block("05", "10 00 00 00 00 00 00 00", "20 00 00 00 01 00 00 00", "22 00 00 00 00 00 00 00")
                + block("05 00 00 02", "12 00 00 00 00 00 00 00"),
            },
            has=("thread 1 returned passings 4 recorded 4 segments 2 first 0",),
            sizes={"t": 224},
        )
        for size in (88, 95)
    ),
    replayed(
        "a buffer of 96 bytes has room for four",
        file=CALL,
        options="--buffer-size 96",
        leaves={
            "t": header("60 00 00 00")
            + block(
                "05", "10 00 00 00 00 00 00 00", "20 00 00 00 01 00 00 00", "22 00 00 00 00 00 00 00", "12 00 00 00 01 00 00 00",
            ),
        },  # fmt: skip
        sizes={"t": 144},
    ),
    replayed(
        "threads take each other's oldest segments",
        file=CALL,
        options="--threads 2 --buffer-size 88 --cpus 2 --migrate 1 --buffer-max 3",
        has=(
            "thread 1 returned passings 4 recorded 4 segments 4 first 3",
            "thread 2 returned passings 4 recorded 4 segments 4 first 2",
            "recycled 5",
        ),
        leaves={
            "t": header("58 00 00 00")
            + block("05 00 00 02", "12 00 00 00 00 00 00 00")
            + block("05 00 00 01", "22 00 00 00 00 00 00 00", thread="02")
            + block("05 01 00 02", "12 00 00 00 00 00 00 00", thread="02"),
        },
        sizes={"t": 296},
    ),
    replayed(
        "a thread that moves to another CPU says so",
        options="--cpus 2 --migrate 1",
        leaves={"t": header() + block("05 01 00", "10 00 00 00 00 00 00 00", "05 00 00 02", "12 00 00 00 00 00 00 00")},
        sizes={"t": 144},
    ),
    replayed(
        "a tail jump is a tail exit",
        Run("stack t i --format flame", "a 0 / b 0"),
        file=TAIL_JUMP,
        has=("marks +4",),
        leaves={
            "t": header() + block(
                "05", "10 00 00 00 00 00 00 00", "14 00 00 00 00 00 00 00",
                "20 00 00 00 01 00 00 00", "22 00 00 00 00 00 00 00",
            ),
        },
    ),
    replayed(
        "a call is below its caller",
        Run("stack t i --format flame", "main 2 / main;f 0"),
        file=CALL,
        has=("marks +4",),
    ),
    replayed(
        "four threads of a recursive function",
        Run("account t i --format csv", f"{CSV_HEAD} / 1,87564,3,7,142,1719,213128,11532192,0,0,fib"),
        file=FIBONACCI,
        options="--threads 4",
        has=("recycled 0", *(f"thread {at} returned passings 43782 recorded 43782 segments 22 first 0" for at in range(1, 5))),
        sizes={"t": 1_408_096},
    ),
    replayed(
        "four threads of a recursive function with too few buffers",
        file=FIBONACCI,
        options="--threads 4 --buffer-max 64",
        has=("recycled 24",),
        sizes={"t": 1_014_496},
    ),
]  # fmt: skip

CUT = STRAIGHT_TRACE
EMPTY_BLOCK_2 = extents(32) + STRAIGHT_TRACE_2[48:80]
ONES = [counted(ENTERED, 1, 0)]
RECURSION = header() + calls((ENTERED, 1, 0), (ENTERED, 1, 10), (ENTERED, 1, 10), (LEFT, 1, 10), (LEFT, 1, 15))
# Function 1 at 0, 2 at 1 and left at 3, 3 at 3 and left at 6, 1 left at 10.
NESTED = calls((ENTERED, 1, 0), (ENTERED, 2, 1), (LEFT, 2, 2), (ENTERED, 3, 0), (LEFT, 3, 3), (LEFT, 1, 4))
LONG_NAME = "n" * 255

REPORTS = [
    # Cut anywhere, the header is short, or the first block is. Cut between them, only the header is left.
    *(
        reported(f"a trace of {size} bytes", CUT[:size], refused("account t", f"t: trace Short {0 if size < 32 else 32}"))
        for size in range(len(CUT)) if size != 32
    ),
    *(
        reported(f"a trace of version 2 of {size} bytes", STRAIGHT_TRACE_2[:size],
                 refused("convert t", f"t: trace Short {0 if size < 32 else 32}"))
        for size in range(len(STRAIGHT_TRACE_2)) if size != 32
    ),
    reported(
        "one call in further forms",
        STRAIGHT_TRACE,
        Run("convert t i --format trace-event", EVENTS_OF_ONE),
        Run("fdr-dump t", "0 header version 3 type 1 / 32 extents 80 / 48 new-buffer 1 / 64 wall-time 0.0 / 80 pid 1 / "
            "96 new-cpu 0 0 / 112 function enter 1 delta 0 / 120 function exit 1 delta 2 / end 128"),
    ),
    reported(
        "a basic log",
        STRAIGHT_LOG,
        Run("convert t i --input basic", STRAIGHT_YAML),
        Run("convert t i --input basic --format trace-event", EVENTS_OF_ONE),
        refused("convert t", "t: trace Form 0"),
    ),
    reported("a basic log that is cut", STRAIGHT_LOG[:95], refused("convert t --input basic", "t: trace Short 64")),
    reported("a dump of 100 bytes", STRAIGHT_TRACE[:100], Run("fdr-dump t", "0 header version 3 type 1 / stop 32 Short 32")),
    reported(
        "a trace of version 2 names no process",
        STRAIGHT_TRACE_2,
        Run("convert t i", STRAIGHT_YAML_2),
        Run("account t i --format csv", ACCOUNT_OF_ONE),
        Run("stack t i --format flame", "main 2"),
    ),
    reported(
        "a block of version 2 that has only its preamble",
        HEADER_2 + EMPTY_BLOCK_2,
        Run("convert t i", f"{YAML_HEAD.replace('version: 3', 'version: 2')} / records: [] / ..."),
        Run("account t", f"Functions with latencies: 0 / {TEXT_HEAD}"),
    ),
    reported(
        "blocks of version 2 behind one that has only its preamble",
        HEADER_2 + EMPTY_BLOCK_2 + STRAIGHT_TRACE_2[32:],
        Run("convert t i", STRAIGHT_YAML_2),
    ),
    reported(
        "an entry of version 2 has its argument",
        HEADER_2 + extents(96) + STRAIGHT_TRACE_2[48:96] + bytes.fromhex("16 00 00 00 00 00 00 00") + padded("0D 07")
        + padded("0D 09") + bytes.fromhex("12 00 00 00 02 00 00 00"),
        Run("convert t i", STRAIGHT_YAML_2.replace("function-enter,", "function-enter-arg, args: [ 7 ],")),
    ),
    reported(
        "a header of version 2 alone",
        HEADER_2,
        Run("account t", f"Functions with latencies: 0 / {TEXT_HEAD}"),
    ),
    reported("a header alone", CUT[:32], Run("account t", f"Functions with latencies: 0 / {TEXT_HEAD}")),
    reported(
        "a function that calls itself",
        RECURSION,
        Run("account t --format csv", f"{CSV_HEAD} / 1,2,10,35,35,35,35,45,1,0,#1"),
        Run("stack t --format flame", "#1;#1 25 / #1;#1;#1 10"),
        Run("stack t", f"{STACK_HEAD} /          1         35         25 #1;#1 /          1         10         10 #1;#1;#1"),
    ),
    reported(
        "items of ten durations",
        header() + calls_of(range(1, 11)),
        Run("account t --format csv", f"{CSV_HEAD} / 1,10,1,6,10,10,10,55,0,0,#1"),
    ),
    reported(
        "items of a hundred durations, in whatever order they come",
        header() + calls_of([*range(51, 101), *range(50, 0, -1)]),
        Run("account t --format csv", f"{CSV_HEAD} / 1,100,1,51,91,100,100,5050,0,0,#1"),
    ),
    reported(
        "items of one duration",
        header() + calls_of([4]),
        Run("account t i --format csv", f"{CSV_HEAD} / 1,1,4,4,4,4,4,4,0,0,main"),
    ),
    reported(
        "an exit closes all entries above its own, which are in no pair",
        header() + calls((ENTERED, 1, 0), (ENTERED, 2, 1), (ENTERED, 3, 1), (JUMPED, 1, 1), (LEFT, 2, 1)),
        Run("account t i --format csv",
            f"{CSV_HEAD} / 1,1,3,3,3,3,3,3,0,0,main / 2,0,-,-,-,-,-,-,1,1,#2 / 3,0,-,-,-,-,-,-,1,0,#3"),
        Run("account t", " / ".join([
            "Functions with latencies: 1", TEXT_HEAD,
            "         1          1          3          3          3          3          3          3          0          0 #1",
            "         2          0          -          -          -          -          -          -          1          1 #2",
            "         3          0          -          -          -          -          -          -          1          0 #3",
        ])),
        Run("account t --sort=min --sortorder=desc --top 2 --format csv",
            f"{CSV_HEAD} / 1,1,3,3,3,3,3,3,0,0,#1 / 2,0,-,-,-,-,-,-,1,1,#2"),
        Run("account t --top 0", f"Functions with latencies: 1 / {TEXT_HEAD}"),
        Run("account t --sort count --top 4294967295 --format=csv",
            f"{CSV_HEAD} / 2,0,-,-,-,-,-,-,1,1,#2 / 3,0,-,-,-,-,-,-,1,0,#3 / 1,1,3,3,3,3,3,3,0,0,#1"),
        Run("stack t --format flame", "#1 3"),
    ),
    reported(
        "own time is without the direct children's, and those of two threads add up",
        header() + NESTED + NESTED.replace(padded("01 01"), padded("01 02")),
        Run("stack t --format flame", "#1 10 / #1;#2 4 / #1;#3 6"),
        Run("account t --format csv", f"{CSV_HEAD} / 1,2,10,10,10,10,10,20,0,0,#1 / 2,2,2,2,2,2,2,4,0,0,#2 / "
            "3,2,3,3,3,3,3,6,0,0,#3"),
    ),
    reported(
        "a counter that goes back makes own time negative, which is printed as 0",
        header() + block("05", counted(ENTERED, 1, 0), counted(ENTERED, 2, 0), "05 00 00 64", counted(LEFT, 2, 0),
                         "05 00 00 0A", counted(LEFT, 1, 0)),
        Run("stack t --format flame", "#1 0 / #1;#2 100"),
        Run("stack t", f"{STACK_HEAD} /          1         10          0 #1 /          1        100        100 #1;#2"),
    ),
    reported(
        "two long calls sum up past 64 bits, and a long number stands whole",
        header() + 2 * block("05 00 00 01", counted(ENTERED, 1, 0), "05", counted(LEFT, 1, 0)),
        Run("account t --format csv", f"{CSV_HEAD} / 1,2" + 5 * f",{2**64 - 1}" + f",{2**65 - 2},0,0,#1"),
        Run("stack t", f"{STACK_HEAD} /          2 {2**65 - 2} {2**65 - 2} #1"),
    ),
    reported(
        "a block of another thread parts no call",
        header() + calls((ENTERED, 1, 0)) + calls((LEFT, 1, 5), thread="02") + calls((LEFT, 1, 7)),
        Run("account t --format csv", f"{CSV_HEAD} / 1,1,7,7,7,7,7,7,0,1,#1"),
    ),
    reported(
        "a name of 255 characters, and an image that is refused after a good trace",
        header() + calls_of([4]),
        Run("stack t i --format flame", f"{LONG_NAME} 4"),
        refused("stack t t", "t: image Magic"),
        refused("stack t missing", "missing: read fault", 3),
        refused("stack t i i", "bad command line", 1),
        refused("stack", "bad command line", 1),
        refused("stack t --format csv", "bad command line", 1),
        refused("stack t --format flame --format=flame", "bad command line", 1),
        refused("convert t --format yaml --top 1", "bad command line", 1),
        refused("account t --sort Count", "bad command line", 1),
        refused("account t --sortorder=dsc", "bad command line", 1),
        file=image(f"fn {LONG_NAME} always / ret"),
    ),
    reported(
        "an entry has the first argument that stands behind it, and 0 without one",
        header() + block(
            "05", "16 00 00 00 01 00 00 00", "0D 07", "0D 09", "16 00 00 00 02 00 00 00", "12 00 00 00 03 00 00 00",
            "26 00 00 00 04 00 00 00", "0D FF FF FF FF FF FF FF FF",
        ),
        Run("convert t i", " / ".join([
            YAML_HEAD, "records:",
            *(f"  - {{ type: 0, func-id: {number}, function: '{name}', cpu: 0, thread: 1, process: 1, kind: {kind}, tsc: {tsc} }}"
              for number, name, kind, tsc in [
                (1, "main", "function-enter-arg, args: [ 7 ]", 1), (1, "main", "function-enter-arg, args: [ 0 ]", 3),
                (1, "main", "function-exit", 6), (2, "#2", f"function-enter-arg, args: [ {2**64 - 1} ]", 10),
              ]),
            "...",
        ])),
        Run("account t --format csv", f"{CSV_HEAD} / 1,1,3,3,3,3,3,3,1,0,#1 / 2,0,-,-,-,-,-,-,1,0,#2"),
        Run("stack t --format flame", "#1;#1 3"),
    ),
    reported("4,096 open calls", header() + block("05", *4096 * ONES), Run("stack t --format flame", "")),
    reported("4,097 open calls", header() + block("05", *4097 * ONES), refused("stack t", "t: trace Deep 1")),
    reported(
        "the least of two threads that get too deep",
        header() + block("05", *4097 * ONES, thread="03") + block("05", *4097 * ONES, thread="02"),
        refused("stack t i", "t: trace Deep 2"),
    ),
]  # fmt: skip


# Refusals, each with a file that is refused for it.
PREAMBLE = [padded("01 01"), padded("09"), padded("13 01")]


def filled(*records):
    raw = b"".join(records)
    return extents(len(raw)) + raw


CALLED = bytes.fromhex("10 00 00 00 00 00 00 00")
LOGGED = bytes.fromhex("16 00 00 00 00 00 00 00")
REFUSALS = [
    ("Version 1", header(version="01")),
    ("Version 4", header(version="04")),
    ("Version 258", bytes.fromhex("02 01") + header()[2:]),
    ("Version 65535", bytes.fromhex("FF FF 00") + header()[3:]),
    ("Form 0", bytes.fromhex("03 00 00 00") + header()[4:]),
    ("Short 32", header() + bytes(15)),
    ("Bad 32 Kind 1", header() + padded("03")),
    ("Bad 32 Kind 5", header() + padded("0B")),
    ("Bad 32 Kind 127", header() + padded("FF")),
    ("Bad 32 Action 4", header() + padded("18")),
    ("Bad 32 Action 7", header() + padded("1E")),
    ("Order 32", header() + padded("01 01")),
    ("Order 32", header() + padded("10")),
    ("Order 32", header() + padded("0D")),
    ("Order 32", header() + padded("16")),
    ("Extents 32", header() + extents(47) + bytes(47)),
    ("Short 32", header() + extents(49) + bytes(48)),
    ("Short 32", header() + extents(2**64 - 1) + bytes(48)),
    ("Order 64", header() + filled(PREAMBLE[0], PREAMBLE[2], PREAMBLE[1])),
    ("Order 48", header() + filled(PREAMBLE[1], *PREAMBLE)),
    ("Order 48", header() + filled(CALLED, *PREAMBLE)),
    ("NoBase 96", header() + filled(*PREAMBLE, CALLED)),
    ("NoBase 96", header() + filled(*PREAMBLE, padded("07 01"))),
    ("Order 112", header() + filled(*PREAMBLE, padded("05"), padded("13 01"))),
    ("Order 96", header() + filled(*PREAMBLE, extents(48))),
    ("Extents 96", header() + filled(*PREAMBLE, padded("05")[:15])),
    ("Extents 112", header() + filled(*PREAMBLE, padded("05"), CALLED[:7])),
    ("Extents 112", header() + filled(*PREAMBLE, padded("05"), padded("FF")[:8])),
    ("Bad 112 Action 4", header() + filled(*PREAMBLE, padded("05"), bytes.fromhex("18 00 00 00 00 00 00 00"))),
    ("Order 80", header() + filled(*PREAMBLE[:2], padded("0D"))),
    ("Order 96", header() + filled(*PREAMBLE, padded("0D"))),
    ("Order 112", header() + filled(*PREAMBLE, padded("05"), padded("0D"))),
    ("Order 120", header() + filled(*PREAMBLE, padded("05"), CALLED, padded("0D"))),
    ("Order 136", header() + filled(*PREAMBLE, padded("05"), LOGGED, padded("07"), padded("0D"))),
    ("NoBase 96", header() + filled(*PREAMBLE, LOGGED, padded("0D"))),
    ("Extents 120", header() + filled(*PREAMBLE, padded("05"), LOGGED, padded("0D")[:15])),
    ("Bad 112 Kind 8", header() + filled(*PREAMBLE, padded("05"), padded("11"))),
    ("Bad 112 Kind 5", header() + filled(*PREAMBLE, padded("05"), padded("0B"))),
    ("Short 128", STRAIGHT_TRACE + bytes(1)),
    ("Order 128", STRAIGHT_TRACE + STRAIGHT_TRACE[48:]),
    # Traces of version 2, and each version with the blocks of the other.
    ("Order 80", HEADER_2 + STRAIGHT_TRACE[32:]),
    ("Order 80", header() + STRAIGHT_TRACE_2[32:]),
    ("Form 0", bytes.fromhex("02 00 00 00") + header()[4:]),
    ("Short 32", HEADER_2 + bytes(15)),
    ("Bad 32 Kind 5", HEADER_2 + padded("0B")),
    ("Order 32", HEADER_2 + PREAMBLE[0]),
    ("Order 32", HEADER_2 + PREAMBLE[2]),
    ("Extents 32", HEADER_2 + extents(31) + STRAIGHT_TRACE_2[48:]),
    ("Extents 32", HEADER_2 + extents(31) + bytes(31)),
    ("Short 32", HEADER_2 + extents(33) + bytes(32)),
    ("Short 32", HEADER_2 + extents(2**64 - 1) + bytes(32)),
    ("Order 48", HEADER_2 + filled(PREAMBLE[1], PREAMBLE[0])),
    ("Order 64", HEADER_2 + filled(PREAMBLE[0], PREAMBLE[2], PREAMBLE[1])),
    ("Order 80", HEADER_2 + filled(*PREAMBLE)),
    ("Order 96", HEADER_2 + filled(*PREAMBLE[:2], padded("05"), PREAMBLE[2])),
    ("Order 80", HEADER_2 + filled(*PREAMBLE[:2], extents(32))),
    ("Order 80", HEADER_2 + filled(*PREAMBLE[:2], padded("0D"))),
    ("Order 104", HEADER_2 + filled(*PREAMBLE[:2], padded("05"), CALLED, padded("0D"))),
    ("NoBase 80", HEADER_2 + filled(*PREAMBLE[:2], CALLED)),
    ("NoBase 80", HEADER_2 + filled(*PREAMBLE[:2], padded("07 01"))),
    ("Extents 80", HEADER_2 + filled(*PREAMBLE[:2], padded("05")[:15])),
    ("Extents 96", HEADER_2 + filled(*PREAMBLE[:2], padded("05"), CALLED[:7])),
    ("Bad 96 Action 4", HEADER_2 + filled(*PREAMBLE[:2], padded("05"), bytes.fromhex("18 00 00 00 00 00 00 00"))),
    ("Bad 96 Kind 8", HEADER_2 + filled(*PREAMBLE[:2], padded("05"), padded("11"))),
    ("Short 112", STRAIGHT_TRACE_2 + bytes(1)),
]  # fmt: skip
ROWS = REPLAYS + REPORTS + [
    reported(f"refused: {line}", content, *(refused(f"{report} t", f"t: trace {line}") for report in model.REPORTS))
    for line, content in REFUSALS
]  # fmt: skip

# ---- The comparison


class Modelled:
    """Runs of the model over files in memory."""

    def __init__(self, files):
        self.files = dict(files)

    def run(self, words):
        outcome = model.outcome([word.encode() for word in words.split()], model.World(self.files))
        self.files |= outcome.written
        return outcome

    def get(self, name):
        return self.files.get(name, b"")


class Programmed:
    """Runs of a program in a folder of its own."""

    def __init__(self, program, folder, files):
        self.program = program
        self.folder = pathlib.Path(folder)
        for name, content in files.items():
            (self.folder / name).write_bytes(content)

    def run(self, words):
        done = subprocess.run([self.program, *words.split()], cwd=self.folder, capture_output=True)
        return model.Outcome(done.returncode, done.stdout, done.stderr)

    def get(self, name):
        path = self.folder / name
        return path.read_bytes() if path.is_file() else b""


def said(text):
    """A text in the form in which `comes` says it."""
    return " / ".join(text.decode(errors="replace").splitlines())


def run_differences(world, run):
    """What a run does that it shouldn't."""
    outcome = world.run(run.words)
    if outcome.status != run.status:
        yield f"status {outcome.status}, {said(outcome.error)}"
        return
    text = said(outcome.error if run.status else outcome.output)
    if run.comes is not None and text != run.comes:
        yield f"expected {run.comes}\n    came {text}"
    among = said(outcome.output + world.get("a")).split(" / ")
    yield from (f"no line {line!r}" for line in run.has if line not in among)
    for name, content in run.leaves.items():
        if world.get(name) != content:
            yield f"{name}: expected {content.hex()}\n    came {world.get(name).hex()}"
    for name, size in run.sizes.items():
        if len(world.get(name)) != size:
            yield f"{name} has {len(world.get(name))} bytes"


def row_differences(name, world, row, commands):
    for run in row.runs:
        command, *_ = run.words.split()
        if command in commands:
            yield from (f"{name}: {row.shows}: {run.words}: {line}" for line in run_differences(world, run))


def unpatched_exit_differences():
    """The bytes of an exit sled that was patched and unpatched: a return, and the rest of the patched sled."""
    straight = image_model.image_of(STRAIGHT_LINE)
    words = replay_model.Words(straight, 1)
    list(words.stores(replay_model.commands_of(lines("patch / unpatch / go"), straight, 1)))
    head, number, opcode, distance = words.values[4:8]
    left = head.to_bytes(2, "little") + number.to_bytes(4, "little") + bytes([opcode]) + distance.to_bytes(4, "little")
    if left != bytes.fromhex("C3 BA 01 00 00 00 E9 F3 FF 1F 00"):
        yield f"model: an unpatched exit sled is {left.hex()}"


def segment_differences():
    """Segments that grow event by event are those of all events at once."""
    draw = random.Random(1)
    for _ in range(200):
        size, tsc, events = draw.choice([88, 89, 96, 97, 104, 120, 200, 400]), 0, []
        grown = trace_model.Recorded(size)
        for _ in range(draw.randrange(40)):
            tsc = draw.choice([tsc, tsc + 1, tsc + draw.randrange(1 << 33), draw.randrange(1 << 64)]) % (1 << 64)
            events.append(trace_model.Event(draw.choice([0, 0, 0, 1]), 1, ENTERED, tsc))
            grown.add(events[-1])
        if grown.segments != trace_model.segments_of(events, size):
            yield f"model: {grown.segments} are no segments of {events} for {size} bytes"


def main():
    program, commands = given_words(__doc__)
    differ = [*unpatched_exit_differences(), *segment_differences()]
    for row in ROWS:
        differ += row_differences("model", Modelled(row.files), row, model.LATER)
        if program is not None:
            with tempfile.TemporaryDirectory(prefix="worked_traces.") as folder:
                world = Programmed(program, folder, row.files)
                differ += row_differences(str(program), world, row, commands)
    finish(differ, f"{len(ROWS)} rows, {sum(len(row.runs) for row in ROWS)} runs")


if __name__ == "__main__":
    main()
