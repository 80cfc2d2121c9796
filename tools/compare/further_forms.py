#!/usr/bin/env python3
"""Compares further forms of random traces with a model, with Python's json and with what `llvm-xray` reads.

usage: tools/compare/further_forms.py [PROGRAM] [--traces N] [--seed N] [--llvm-xray NAME]
    PROGRAM: the built program, crates/xray/out/xray if left out
    --traces: how many random traces, 1700 if left out, of which more than 1000 have trace events
    --seed: the seed of everything random, 1 if left out
    --llvm-xray: LLVM's program, llvm-xray-14 if left out; without it only the others are compared

About half of the traces are damaged. Each is given to `convert` with `--format trace-event` and `--format basic`, and to `fdr-dump`.
A basic log is given to `convert --input basic`, and so is a damaged one. Two more traces have as many trace events as there may
be, and one more. The status, both streams and the text have to be those of the model. Then what was printed is read again:
    trace events   Python's json gives the events of the trace, in order, each with its fields
    basic log      `llvm-xray convert` gives the same events, except for arguments, which it reads from records of another kind
    dump           `llvm-xray fdr-dump` gives the same records; of a damaged trace, the records up to the line `stop` come first
A difference is reported, and then the status is 1.
"""
import collections
import dataclasses
import pathlib
import random
import re
import shutil
import subprocess
import sys
import tempfile

sys.dont_write_bytecode = True  # the modules are in the repository, and their compiled forms aren't
sys.path.insert(0, str(pathlib.Path(__file__).resolve().parents[1]))
import llvm_agrees  # noqa: E402
from command_line import ROOT, CommandLine  # noqa: E402
from inputs.random_traces import other_file, random_trace  # noqa: E402
from model import forms_model, map_model, report_model, trace_model  # noqa: E402
from model import xray_model as model  # noqa: E402
from model.image_model import image_of  # noqa: E402

IMAGE = ROOT / "examples/first-run/main.xrim"
ACTIONS = {word: action for action, word in enumerate(forms_model.ACTION_WORDS)}
SPELLINGS = {
    kind: re.compile(re.escape(line).replace(r"\{\}", r"(\d+)").replace("{}", r"(\d+)")) for kind, line in forms_model.RECORD_LINES.items()
}
FUNCTION_LINE = re.compile(r"function ([a-z-]+) (\d+) delta (\d+)")


class Differs(Exception):
    """What the program makes of a trace isn't what it should be."""


# ---- The program


class Program:
    """A built program, in a folder of files."""

    def __init__(self, path, folder):
        self.path = path
        self.folder = folder
        self.runs = 0

    def prints(self, words, files):
        """What a run prints, or None if it refuses an input. Either has to be what the model says."""
        for name, content in files.items():
            (self.folder / name).write_bytes(content)
        run = subprocess.run([self.path, *words], cwd=self.folder, capture_output=True)
        expected = model.outcome([word.encode() for word in words], model.World(files))
        self.runs += 1
        came = run.returncode, run.stdout, run.stderr
        if came != (expected.status, expected.output, expected.error):
            raise Differs(f"{' '.join(words)}: {shortened(came)}, expected {shortened((expected.status, expected.output, expected.error))}")
        return run.stdout if run.returncode == 0 else None


def shortened(came):
    return str(came)[:2000]


# ---- The forms


def check_events(text, content, image):
    """Python's json reads the text as the events of the trace."""
    names = {} if image is None else report_model.names_of_image(image)
    name_of = report_model.namer(names, map_model.plain)
    expected = [
        (
            thread,
            pid,
            name_of(event.function),
            event.cpu,
            event.action in trace_model.ENTRIES,
            event.tsc,
            event.arg if event.action == trace_model.ENTRY_ARGS else None,
        )
        for thread, pid, event in forms_model.with_threads(trace_model.trace_of(content))
    ]
    if forms_model.events_read(text) != expected:
        raise Differs("json reads other events")


def check_log(path, log, llvm_xray):
    """LLVM reads a basic log as its events. It refuses one without events."""
    expected = [
        ((pid, thread), dataclasses.replace(event, arg=0))
        for thread, pid, event in forms_model.with_threads(forms_model.basic_trace(log))
    ]
    _, came = llvm_agrees.Llvm(llvm_xray, path).events()
    if came != expected:
        raise Differs(f"{llvm_xray} reads {came}, expected {expected}")


def record_of(line):
    """The kind and the fields of the record that a line of a dump has after its place."""
    function = FUNCTION_LINE.fullmatch(line)
    if function:
        word, number, delta = function.groups()
        return trace_model.FUNCTION, (int(number), ACTIONS[word], int(delta))
    for kind, spelling in SPELLINGS.items():
        fields = spelling.fullmatch(line)
        if fields:
            return kind, tuple(map(int, fields.groups()))
    raise Differs(f"no record: {line}")


def check_dump(text, path, llvm_xray):
    """LLVM's dump begins with the same records, and has no others if all of the file is a trace."""
    _, *lines, last = text.splitlines()
    expected = [llvm_agrees.dumped(*record_of(line.split(" ", 1)[1])) for line in lines]
    came = llvm_agrees.Llvm(llvm_xray, path).records()
    if not lines and not came:
        return "no record"
    if last.startswith("stop") and not came:
        return "LLVM reads nothing of a damaged trace"
    if came[: len(expected)] != expected or (last.startswith("end") and came != expected):
        raise Differs(f"{llvm_xray} dumps {came}, expected {expected}")
    return "the whole trace" if last.startswith("end") else "up to the damage"


def check_trace(draw, program, content, llvm_xray):
    """Compares all forms of a trace. Counts what was compared."""
    counted = collections.Counter()
    named = draw.choice([[], ["i"]])
    files = {"t": content, "i": IMAGE.read_bytes()}
    image = image_of(files["i"]) if named else None
    events = program.prints(["convert", "t", *named, "--format", "trace-event"], files)
    if events is not None:
        check_events(events, content, image)
        counted["trace events read by json"] += 1
    log = program.prints(["convert", "t", *named, "--format=basic"], files)
    if log is not None:
        check_basic(draw, program, log, llvm_xray, counted)
    dump = program.prints(["fdr-dump", "t"], files)
    if dump is not None and llvm_xray:
        counted[f"dumps compared with LLVM's: {check_dump(dump.decode('ascii'), program.folder / 't', llvm_xray)}"] += 1
    return counted


def check_limit(program):
    """Compares the trace events of a trace with as many events as there may be, and of one with one event more."""
    events = [trace_model.Event(0, 1 + tsc % 2, trace_model.ENTRY, tsc) for tsc in range(forms_model.MOST_EVENTS)]
    for more, is_printed in ([], True), ([trace_model.Event(0, 1, trace_model.EXIT, forms_model.MOST_EVENTS)], False):
        trace = trace_model.Trace(trace_model.Header(0, 1_048_576), [trace_model.Block(1, (0, 0), 1, events + more)])
        text = program.prints(["convert", "t", "--format", "trace-event"], {"t": trace_model.file_bytes(trace)})
        if (text is not None) != is_printed:
            raise Differs(f"{len(events + more):,} trace events: printed is {text is not None}")


def check_basic(draw, program, log, llvm_xray, counted):
    """Reads a basic log again, and a damaged one."""
    again = program.prints(["convert", "log", "--input", "basic", "--format", "basic"], {"log": log})
    if again != log:
        raise Differs("the log of a log is another one")
    program.prints(["convert", "log", "--input=basic"], {"log": log})
    program.prints(["convert", "log", "--input=basic"], {"log": other_file(draw, log)})
    counted["basic logs read again"] += 1
    if llvm_xray and len(log) > trace_model.HEADER_LENGTH:
        (program.folder / "log").write_bytes(log)
        check_log(program.folder / "log", log, llvm_xray)
        counted["basic logs read by LLVM"] += 1


# ---- The script


def arguments():
    parser = CommandLine(__doc__)
    parser.add_program()
    parser.add_argument("--traces", type=int, default=1700, metavar="N")
    parser.add_argument("--seed", type=int, default=1, metavar="N")
    parser.add_argument("--llvm-xray", default="llvm-xray-14", metavar="NAME")
    return parser.parse_args()


def main():
    given = arguments()
    llvm_xray = given.llvm_xray if shutil.which(given.llvm_xray) else None
    counted, differ = collections.Counter(), 0
    with tempfile.TemporaryDirectory(prefix="further_forms.") as folder:
        program = Program(given.program, pathlib.Path(folder))
        try:
            check_limit(program)
        except Differs as differs:
            differ += 1
            print(f"differs: {differs}")
        for number in range(1, given.traces + 1):
            draw = random.Random(f"{given.seed} {number}")
            content = random_trace(draw)
            try:
                counted += check_trace(draw, program, content, llvm_xray)
            except Differs as differs:
                differ += 1
                kept = pathlib.Path(tempfile.gettempdir()) / f"further_forms-{given.seed}-{number}"
                kept.write_bytes(content)
                print(f"differs: {kept}: {differs}")
    for what, count in sorted(counted.items()):
        print(f"{what}: {count:,}")
    if llvm_xray is None:
        print(f"nothing was compared with LLVM: there is no {given.llvm_xray} (Debian's package llvm-14 has it)")
    print(f"{given.traces:,} traces, {program.runs:,} runs: {differ:,} differ")
    sys.exit(1 if differ else 0)


if __name__ == "__main__":
    main()
