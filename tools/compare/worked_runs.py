#!/usr/bin/env python3
"""Compares the model of `xray` with results that were worked by hand, and reports where they differ.

usage: tools/compare/worked_runs.py [PROGRAM] [--with COMMANDS]
    PROGRAM: a built program, which is compared with the same results; without it only the model is
    --with: which of sim, run, account, stack, convert and soak PROGRAM has, with commas between them; all if left out.
        Without sim, a replay has three files and writes no trace

The images are made from assembler texts by the assembler's own model. Each run has its words, its inputs i (image), s
(script) and c (schedule), and what is expected: the status, and standard output or its lines of marks, or the line on
standard error. The stores that scripts make are compared too. A difference is reported, and then the status is 1.
worked_traces.py does the same with traces and the reports on them.
"""
import dataclasses
import pathlib
import subprocess
import sys
import tempfile

sys.dont_write_bytecode = True  # the modules are in the repository, and their compiled forms aren't
sys.path.insert(0, str(pathlib.Path(__file__).resolve().parents[1]))
from command_line import CommandLine, finish  # noqa: E402
from model import image_container, image_model, replay_model  # noqa: E402
from model import xray_model as model  # noqa: E402
from model.asm_model import assembled  # noqa: E402


def lines(said):
    """A text with `/` between its lines, as bytes."""
    return "".join(line.strip() + "\n" for line in said.split("/") if line.strip()).encode("ascii")


def image(said):
    return assembled(lines(f"base 0x1000 / {said}"), 1)


STRAIGHT_TEXT = "fn main always / mov eax, 65 / out 1 / ret"
STRAIGHT_LINE = image(STRAIGHT_TEXT)
CALL = image("fn main always / call f / ret / fn f always / ret")
TAIL_JUMP = image("fn a always / tailjmp b / fn b always / ret")

TRACED = "patch / set_handler / init / go"
REGISTERS = "rbx=0 rbp=0 rsi=0 rdi={} r8=0 r9=0 r11=0 r12=0 r13=0 r14=0 r15=0 zf=0"
LETTER_STATE = f"""thread 1 returned instructions 3 passings 2
rax=41 rcx=0 rdx=0 {REGISTERS.format(1)}
output 41
"""


@dataclasses.dataclass(frozen=True)
class Run:
    """A run. `comes` is standard output, or its lines of marks with ` / ` between them, or the line on standard error."""

    comes: str
    image: bytes = STRAIGHT_LINE
    script: str = "go"
    schedule: str = ""
    words: str = "sim i s c t a"
    status: int = 0


def marked(marks, script, schedule=""):
    return Run(f"marks {marks}", script=script, schedule=schedule)


def refused(line, script="go", schedule="", image=STRAIGHT_LINE):
    return Run(f"xray: {line}", image, script, schedule, status=2)


def bad(words):
    return Run("xray: bad command line", words=words, status=1)


REGISTER_10 = (
    STRAIGHT_LINE[:16] + (7).to_bytes(4, "little") + STRAIGHT_LINE[20:24] + bytes(4) + STRAIGHT_LINE[28:64]
    + bytes.fromhex("41BA01000000C3") + STRAIGHT_LINE[64 + 29 : 64 + 29 + 13]
)  # fmt: skip
PAST_A_START = CALL[: 64 + 12] + b"\x0D" + CALL[64 + 13 :]
FAR = STRAIGHT_LINE[:32] + (0x200000000).to_bytes(8, "little") + STRAIGHT_LINE[40:]


def mapped(*entries):
    """The straight line with these entries in its map: a version, and the fields of the sled and of the function."""
    return STRAIGHT_LINE[:-64] + b"".join(
        image_container.ENTRY.pack(sled % (1 << 64), function % (1 << 64), kind, 1, version, b"")
        for kind, (version, sled, function) in enumerate(entries)
    )


# The entries of the straight line, which are at 0x101000 and 0x101020, in version 0 and in version 2.
FIRST, SECOND = (0, 0x1000, 0x1000), (0, 0x1012, 0x1000)
FIRST_2, SECOND_2 = (2, -0x100000, -0x100008), (2, -0x10000E, -0x100028)
STRAIGHT_MAP = """---
- { id: 1, address: 0x0000000000001000, function: 0x0000000000001000, kind: function-enter, always-instrument: true, function-name: 'main' }
- { id: 1, address: 0x0000000000001012, function: 0x0000000000001000, kind: function-exit, always-instrument: true, function-name: 'main' }
...
"""  # noqa: E501


def bad_map(line, *entries):
    return Run(f"xray: i: image {line}", mapped(*entries), words="extract i", status=2)


RUNS = [
    # Both sleds are patched, the handler set and the log initialized before the thread starts.
    Run(LETTER_STATE + "marks +2\n", script=TRACED),
    marked(".2", "go"),
    # Unpatching in the middle of a passing.
    marked("+1 .1", TRACED + " / unpatch", "t 1 1 / p 2"),
    # Patching in the middle of a passing: all except the head, and then the head.
    marked(".2", "set_handler / init / go / patch", "p 3 / t 1 1"),
    marked(".1 +1", "set_handler / init / go / patch", "p 3 / t 1 1 / p 5"),
    # Without a handler, and with a finalized log.
    marked("n2", "patch / init / go"),
    marked("f2", "patch / set_handler / init / finalize / go"),
    marked("n1 .1", "patch / go / unpatch", "t 1 1 / p 2"),
    marked("n2", "patch / go / unpatch"),
    marked(".2", "patch / go / unpatch", "p 2"),
    # A tail sled, and two threads.
    Run(
        "thread 1 returned instructions 2 passings 4\n"
        f"rax=0 rcx=0 rdx=0 {REGISTERS.format(1)}\noutput -\nmarks +4\n",
        TAIL_JUMP,
        TRACED,
    ),
    Run(
        LETTER_STATE + "marks .1 +1\n"
        + LETTER_STATE.replace("thread 1", "thread 2").replace("rdi=1", "rdi=2") + "marks +2\n",
        script="set_handler / init / go / patch",
        schedule="t 1 1 / p 8",
        words="sim i s c t a --threads 2",
    ),
    # Scripts that wait, and one that waits for itself.
    refused("s: script Waits 3", "set_handler / init / hold 1 2 / go / await 1 2 / patch / release 1", image=CALL),
    refused("s: script SelfWait 3", "hold 1 3 / go / await 1 5 / release 1"),
    refused("s: script Waits 1", "hold 1 3 / go / await 1 3 / release 1"),
    # Other scripts that are refused.
    refused("s: script Go 1", ""),
    refused("s: script Go 2", "go / go"),
    refused("s: script Function 1", "patch_function 2 / go"),
    refused("s: script Thread 2", "go / release 2"),
    refused("s: script Hold 2", "go / release 1"),
    refused("s: script Hold 3", "hold 1 0 / go"),
    refused("s: script Log 2", "init / init / go"),
    refused("s: script Log 1", "finalize / go"),
    refused("s: script Syntax 1", "patch 1"),
    refused("s: script Limit 1025", "patch / " * 1025),
    # Schedules that are refused.
    refused("c: schedule Syntax 1", schedule="p 0"),
    refused("c: schedule Syntax 1", schedule="t 1"),
    refused("c: schedule Thread 1", schedule="t 2 1"),
    # Images that are refused.
    refused("i: image Code 0 Register 10", image=REGISTER_10),
    refused("i: image Target 11", image=PAST_A_START),
    refused("i: image Far 0", image=FAR),
    # Maps of version 2, and of several versions, are those of version 0.
    *(
        Run(comes, file, script=TRACED, words=words)
        for file in (STRAIGHT_LINE, mapped(FIRST_2, SECOND_2), mapped(FIRST, SECOND_2), mapped(FIRST_2, (1, *SECOND[1:])))
        for words, comes in [("extract i", STRAIGHT_MAP), ("sim i s c t a", LETTER_STATE + "marks +2\n")]
    ),
    # Versions that aren't known, and fields of another version.
    bad_map("Odd 1", FIRST, (3, *SECOND[1:])),
    bad_map("Odd 0", (255, *FIRST[1:]), SECOND),
    bad_map("MapOrder 1", FIRST, (3, *SECOND_2[1:])),
    bad_map("MapOrder 0", (2, *FIRST[1:]), SECOND),
    bad_map("MapOrder 1", FIRST_2, (0, *SECOND_2[1:])),
    bad_map("Odd 1", FIRST_2, (2, SECOND_2[1], SECOND_2[1])),
    # A function field that counts from the entry, and one that counts from the other entry.
    bad_map("Odd 0", (2, -0x100000, -0x100000), SECOND_2),
    bad_map("Odd 1", FIRST_2, (2, -0x10000E, -0x100008)),
    # Relative addresses wrap: a sled and functions below 0, and a function at 2^64 - 1.
    bad_map("MapOrder 0", (2, -0x101010, -0x100008), SECOND_2),
    bad_map("Odd 0", (2, -0x100000, -0x101010), SECOND_2),
    bad_map("Odd 1", FIRST_2, (2, -0x10000E, -0x101029)),
    # Plain runs.
    Run(LETTER_STATE, words="plain i"),
    Run(
        f"thread 1 fuel instructions 1 passings 1\nrax=41 rcx=0 rdx=0 {REGISTERS.format(1)}\noutput -\n",
        words="plain i --fuel 1",
    ),
    Run(
        f"thread 1 passings instructions 2 passings 1\nrax=41 rcx=0 rdx=0 {REGISTERS.format(1)}\noutput 41\n",
        words="plain i --passings 1",
    ),
    # Bad command lines.
    bad(""), bad("sim i s"), bad("sim i s c t t"), bad("plain i --threads 17"), bad("plain i --threads 1 --threads 1"),
    bad("plain i --thread 1"), bad("run i s t a --threads 4 --buffer-max 3"), bad("sim i s c t"),
]  # fmt: skip

# Scripts for the straight line, how many micro steps come before `go`, and the first or the last stores, as (word, value).
STORES = [
    (TRACED, 11, [(1, 1), (2, 0xE8), (3, 0x1FFFF5), (0, 0xBA41), (5, 1), (6, 0xE9), (7, 0x1FFFF3), (4, 0xBA41)]),
    ("go / unpatch", 0, [(0, 0x09EB), (4, 0x2EC3)]),
    ("patch / unpatch / go", 10, [(0, 0x09EB), (4, 0xBAC3)]),
]  # fmt: skip


# The files that `sim` writes, in the words of a run.
OUTPUTS = "sim i s c t a"
REPLAY = "sim i s c"


def model_leaves(run, commands):
    files = {"i": run.image, "s": lines(run.script), "c": lines(run.schedule)}
    words = [word.encode() for word in words_of(run, commands).split()]
    return model.outcome(words, model.World(files), model.forms_with(commands))


def words_of(run, commands):
    """The words of a run for a program with these commands."""
    return run.words if "sim" in commands else run.words.replace(OUTPUTS, REPLAY)


def program_leaves(program, run, commands):
    with tempfile.TemporaryDirectory(prefix="worked_runs.") as name:
        folder = pathlib.Path(name)
        for file, content in (("i", run.image), ("s", lines(run.script)), ("c", lines(run.schedule))):
            (folder / file).write_bytes(content)
        done = subprocess.run([program, *words_of(run, commands).split()], cwd=folder, capture_output=True)
    return model.Outcome(done.returncode, done.stdout, done.stderr)


def said(outcome, run):
    """What a run leaves, in the form in which `comes` says it."""
    if outcome.status != 0:
        return outcome.error.decode().removesuffix("\n")
    output = outcome.output.decode()
    if run.comes.startswith("marks"):
        return " / ".join(line for line in output.splitlines() if line.startswith("marks "))
    return output


def run_differences(name, leaves):
    for run in RUNS:
        outcome = leaves(run)
        if outcome.status != run.status or said(outcome, run) != run.comes:
            yield f"{name}: {run.words}, script {run.script[:60]!r}, schedule {run.schedule!r}: {outcome}"


# The options of `asm`, and the image of the straight line that it makes.
ASSEMBLED = [
    ((), STRAIGHT_LINE),
    (("--map-version=0",), STRAIGHT_LINE),
    (("--map-version", "2"), mapped(FIRST_2, SECOND_2)),
]


def model_image(options):
    words = [b"asm", b"t", b"i", *(option.encode() for option in options)]
    files = {"t": lines(f"base 0x1000 / {STRAIGHT_TEXT}")}
    return model.outcome(words, model.World(files)).written.get("i")


def program_image(program, options):
    with tempfile.TemporaryDirectory(prefix="worked_runs.") as name:
        folder = pathlib.Path(name)
        (folder / "t").write_bytes(lines(f"base 0x1000 / {STRAIGHT_TEXT}"))
        subprocess.run([program, "asm", "t", "i", *options], cwd=folder, capture_output=True)
        made = folder / "i"
        return made.read_bytes() if made.is_file() else None


def image_differences(name, made):
    for options, expected in ASSEMBLED:
        came = made(options)
        if came != expected:
            yield f"{name}: asm {options}: {came.hex() if came else came}"


def store_differences():
    straight = image_model.image_of(STRAIGHT_LINE)
    for script, start, expected in STORES:
        commands = replay_model.commands_of(lines(script), straight, 1)
        go = next(number for number, command in enumerate(commands) if command.name == "go")
        before = list(replay_model.Words(straight, 1).stores(commands[:go]))
        stores = list(replay_model.Words(straight, 1).stores(commands))
        if len(before) != start or expected not in (stores[: len(expected)], stores[-len(expected) :]):
            yield f"model: script {script!r}: {len(before)} micro steps before go, stores {stores}"


def given_words(text):
    """The program, if there is one, and the commands of which results are compared. `text` says how to call this."""
    parser = CommandLine(text)
    parser.add_program(default=None)
    parser.add_argument("--with", dest="commands", default=",".join(model.LATER), metavar="COMMANDS")
    given = parser.parse_args()
    return given.program, given.commands.split(",")


def main():
    program, commands = given_words(__doc__)
    differ = [*run_differences("model", lambda run: model_leaves(run, commands)), *store_differences()]
    differ += image_differences("model", model_image)
    if program is not None:
        differ += run_differences(str(program), lambda run: program_leaves(program, run, commands))
        differ += image_differences(str(program), lambda options: program_image(program, options))
    finish(differ, f"{len(RUNS)} runs, {len(STORES)} scripts and {len(ASSEMBLED)} images")


if __name__ == "__main__":
    main()
