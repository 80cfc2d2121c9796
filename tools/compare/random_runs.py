#!/usr/bin/env python3
"""Compares `xray` with a model of it on random inputs and command lines, and reports where they differ.

usage: tools/compare/random_runs.py [PROGRAM] [--with COMMANDS] [--of COMMAND] [--lines] [--loops] [--runs N] [--seed N]
           [--jobs N]
    PROGRAM: the built program, crates/xray/out/xray if left out
    --with: which of sim, run, account, calls, stack, convert, check, soak and profile PROGRAM has, with commas between them; all
        if left out. Without sim, a replay has three files and writes no trace
    --of: only this command
    --lines: only random command lines, over sound files (random_lines.py)
    --loops: runs of long loops that are patched all the time (random_loops.py)
    --runs: how many runs, 1000 if left out
    --seed: the seed of everything random, 1 if left out
    --jobs: how many runs at a time, 2 if left out

The model is xray_model.py, written from docs/formats and docs/commands alone. The images are of random programs, by
the assembler's own model, of random units, or of functions that call each other. Many are damaged in one place or two:
a field of the header, the code, a function, a name, a map entry, a trampoline, a branch, or the file's length. Traces
are random blocks in any spelling that the format allows, many of them damaged too. Assembler texts, scripts, schedules
and command lines are written in all allowed ways, and many are wrong. Inputs are files, pipes or folders, or don't
exist. An output may exist already, and it or standard output may refuse everything. Some runs are at a limit, or one
past it. The status, standard output, standard error, and all files at the end are compared. Each report that the
program has is then run on a trace that the program wrote, and `check` has to accept the trace with its audit.

Nobody states the order of a `run` or a `profile`. So the audit's marks and lost segments are taken as given, and the
marks that `profile` prints. The marks of each thread have to follow the script, and the losses have to be possible. The
trace, the rest of the audit and standard output have to be what follows from these marks and losses, byte by byte. If
no audit could be written, TRACE has to be a trace.

The last lines say how often each answer, each end of a thread and each mark came up; how many runs have passings of
patched and of unpatched sleds; how many lost segments; and how many reports on written traces there were, and how many
checks of them. A difference is reported with the folder in which its files are kept, and then the status is 1.
"""
import collections
import concurrent.futures
import dataclasses
import pathlib
import random
import re
import shutil
import subprocess
import sys
import tempfile
import time

sys.dont_write_bytecode = True  # the modules are in the repository, and their compiled forms aren't
sys.path.insert(0, str(pathlib.Path(__file__).resolve().parents[1]))
from command_line import CommandLine  # noqa: E402
from inputs.limit_cases import limit_cases  # noqa: E402
from inputs.random_cases import STDIN, random_case  # noqa: E402
from inputs.random_lines import line_case  # noqa: E402
from inputs.random_loops import loop_case  # noqa: E402
from model import run_model, trace_model  # noqa: E402
from model import xray_model as model  # noqa: E402
from model.image_model import Refused  # noqa: E402

# One run in this many is at a limit or one past it, by turns.
LIMIT_EVERY = 40
# A run that takes more seconds than this counts as endless.
LONGEST_RUN = 300


class Cases:
    """The cases of a program with these commands, or of one of them, by their numbers."""

    def __init__(self, forms, seed, command=None):
        self.forms = forms
        self.seed = seed
        self.command = command
        self.limits = limit_cases(forms)
        if command is not None:
            self.limits = [limit for limit in self.limits if limit().words[0] == command.encode()]

    def get(self, number):
        turn, rest = divmod(number, LIMIT_EVERY)
        if rest == 0 and self.limits:
            return self.limits[turn % len(self.limits)]()
        return random_case(random.Random(f"{self.seed} {number}"), self.forms, self.command)


class Lines:
    """Command lines for a program with these commands, by their numbers."""

    def __init__(self, forms, seed):
        self.forms = forms
        self.seed = seed

    def get(self, number):
        return line_case(random.Random(f"{self.seed} {number}"), self.forms)


class Loops:
    """Runs of long loops, by their numbers."""

    def __init__(self, forms, seed):
        self.forms = forms
        self.seed = seed

    def get(self, number):
        return loop_case(random.Random(f"{self.seed} {number}"))


# ---- What is expected, and what is found


def world_of(case, shows):
    """What a run of a case finds."""
    named = {name.decode(): content for name, content in case.files.items()}
    unwritable = frozenset(name.decode() for name in case.unwritable)
    return model.World(named, unwritable, case.is_output_full, shows.wall, shows.threads, shows.marks)


def files_expected(case, expects):
    """The files at the end: those of the start, with what was written."""
    written = {name.encode(): content for name, content in expects.written.items()}
    return {name.removeprefix(b"./"): content for name, content in {**case.files, **written}.items() if name != STDIN}


def is_as_expected(content, expected):
    """Whether a file has these bytes. None means the bytes of any trace."""
    if expected is not None or content is None:
        return content == expected
    try:
        trace_model.trace_of(content)
    except Refused:
        return False
    return True


def run(xray, folder, words, given=b"", is_output_full=False):
    with open("/dev/full", "wb") as full:
        output = full if is_output_full else subprocess.PIPE
        done = subprocess.run(
            [xray, *words], cwd=folder, input=given, stdout=output, stderr=subprocess.PIPE, timeout=LONGEST_RUN
        )
    return model.Outcome(done.returncode, done.stdout or b"", done.stderr)


def came(xray, folder, case):
    """What a run leaves, and the files at the end."""
    (folder / "folder").mkdir()
    for name, content in case.files.items():
        if name != STDIN:
            (folder / name.decode()).write_bytes(content)
    outcome = run(xray, folder, case.words, case.piped or b"", case.is_output_full)
    return outcome, {
        str(path.relative_to(folder)).encode(): path.read_bytes() for path in folder.rglob("*") if path.is_file()
    }


@dataclasses.dataclass(frozen=True)
class Shows:
    """What a run shows that nothing states: its wall time, what the audit shows of its threads, and the printed marks."""

    wall: tuple
    threads: list | None
    marks: list


def shown_in(output, files, begin):
    """What a run that began at this time shows in its output and its files: the audit, or else the trace."""
    audits = [content for content in files.values() if content.startswith(b"xray-audit 1\n")]
    walls = [wall_of(content) for content in audits or files.values()]
    end = time.time() + 1
    walls = [wall for wall in walls if begin <= wall[0] + wall[1] / 1e6 <= end]
    shown = run_model.shown_by(audits[0]) if audits else None
    return Shows(walls[0] if walls else (0, 0), shown, run_model.marks_shown_by(output.decode("ascii", errors="replace")))


def wall_of(content):
    """The wall time in the bytes of an audit or a trace, or 0."""
    found = re.match(rb"xray-audit 1\n.* wall=([0-9]+)\.([0-9]+) ", content)
    if found:
        return int(found[1]), int(found[2])
    try:
        blocks = trace_model.trace_of(content).blocks
    except Refused:
        return (0, 0)
    return blocks[0].wall if blocks else (0, 0)


# ---- The comparison


def answer_of(outcome):
    """An answer without its name and its numbers."""
    if outcome.status == 0:
        return "done"
    words = outcome.error.decode(errors="replace").rsplit(": ", 1)[-1].split()
    return f"{outcome.status}: " + " ".join(word for word in words if not word.isdigit())


@dataclasses.dataclass(frozen=True)
class Result:
    """What kind of answer a run has, how its threads end, their runs of marks, and a line for each difference.

    `reports` is how many reports on its trace there were, `checks` how many checks of it, and `recycled` how many segments
    were lost.
    """

    answer: str
    differs: list
    ends: list = ()
    marks: list = ()
    reports: int = 0
    checks: int = 0
    recycled: int = 0

    @property
    def is_mixed(self):
        """Whether its threads passed both patched and unpatched sleds."""
        found = {mark for mark, _ in self.marks}
        return "." in found and len(found) > 1


def outcome_differences(expects, comes):
    return [
        f"{part}: expected {getattr(expects, part)!r}, came {getattr(comes, part)!r}"
        for part in ("status", "output", "error")
        if getattr(expects, part) != getattr(comes, part)
    ]


def reported(xray, folder, trace, forms):
    """A line for each difference of the reports on a trace that was written, and how many reports there were."""
    (folder / "written").write_bytes(trace)
    differs, commands = [], [command for command in model.REPORTS if command in forms]
    for command in commands:
        words = [command.encode(), b"written"]
        expects = model.outcome(words, model.World({"written": trace}), forms=forms)
        comes = run(xray, folder, words)
        differs += [f"{command} of the trace: {line}" for line in outcome_differences(expects, comes)]
    return differs, len(commands)


def checked(xray, folder, case, forms, trace, audit):
    """A line for each difference of the check of a trace and an audit that were written, and how many checks there were."""
    if "check" not in forms:
        return [], 0
    _, (image, script, *_), _ = model.command_of(case.words, forms)
    names = {"image": case.files[image.encode()], "script": case.files[script.encode()], "written": trace, "audited": audit}
    for name, content in names.items():
        (folder / "folder" / name).write_bytes(content)
    comes = run(xray, folder / "folder", [b"check", *(name.encode() for name in names)])
    accepted = model.Outcome(0, b"yes\n", b"")
    return [f"check of the trace: {line}" for line in outcome_differences(accepted, comes)], 1


def judged(xray, folder, case, forms):
    """The result of a run in a folder."""
    begin = int(time.time())
    comes, files = came(xray, folder, case)
    try:
        expects = model.outcome(case.words, world_of(case, shown_in(comes.output, files, begin)), forms)
    except run_model.Unlawful as unlawful:
        return Result("unlawful", [f"the run may not show this: {unlawful}"])
    differs = outcome_differences(expects, comes)
    left = files_expected(case, expects)
    names = sorted({*left, *files})
    differs += [f"file {name!r} differs" for name in names if not is_as_expected(files.get(name), left.get(name))]
    reports, checks, recycled = 0, 0, 0
    if case.words[:1] in ([b"sim"], [b"run"]) and expects.status == 0 and expects.written and not differs:
        trace, audit = expects.written.values()
        differs, reports = reported(xray, folder, trace, forms)
        refused, checks = checked(xray, folder, case, forms, trace, audit)
        differs += refused
        recycled = int(audit.split()[-1])
    printed = [line.split() for line in expects.output.decode("ascii", errors="replace").splitlines()]
    ends = [words[2] for words in printed if words[:1] == ["thread"]]
    marks = [(run[0], int(run[1:])) for words in printed if words[:1] == ["marks"] for run in words[1:] if run != "-"]
    return Result(answer_of(expects), differs, ends, marks, reports, checks, recycled)


def compared(xray, folder, number, cases):
    """The result of a run by its number. If nothing differs, no file is left."""
    case = cases.get(number)
    here = folder / str(number)
    here.mkdir()
    result = judged(xray, here, case, cases.forms)
    if result.differs:
        result.differs.insert(0, f"differs: {here}: {case.words!r}" + (" > /dev/full" if case.is_output_full else ""))
    else:
        shutil.rmtree(here)
    return result


def arguments():
    parser = CommandLine(__doc__)
    parser.add_program()
    parser.add_argument("--with", dest="commands", default=",".join(model.LATER), metavar="COMMANDS")
    parser.add_argument("--of", dest="command", metavar="COMMAND")
    parser.add_argument("--lines", action="store_true")
    parser.add_argument("--loops", action="store_true")
    parser.add_argument("--runs", type=int, default=1000, metavar="N")
    parser.add_argument("--seed", type=int, default=1, metavar="N")
    parser.add_argument("--jobs", type=int, default=2, metavar="N")
    given = parser.parse_args()
    unknown = set(given.commands.split(",")) - {"", *model.LATER}
    if unknown:
        parser.error(f"--with: {', '.join(sorted(unknown))}")
    if given.command not in (None, *model.forms_with(given.commands.split(","))):
        parser.error(f"--of: {given.command}")
    return given


def cases_of(given):
    forms = model.forms_with(given.commands.split(","))
    if given.lines:
        return Lines(forms, given.seed)
    return Loops(forms, given.seed) if given.loops else Cases(forms, given.seed, given.command)


class Summary:
    """The results of all runs."""

    def __init__(self):
        self.answers, self.ends, self.marks = (collections.Counter() for _ in range(3))
        self.runs = self.differ = self.mixed = self.losing = self.recycled = self.reports = self.checks = 0

    def add(self, result):
        self.runs += 1
        self.answers[result.answer] += 1
        self.ends.update(result.ends)
        for mark, count in result.marks:
            self.marks[mark] += count
        self.mixed += result.is_mixed
        self.losing += result.recycled > 0
        self.recycled += result.recycled
        self.reports += result.reports
        self.checks += result.checks
        self.differ += bool(result.differs)

    def print(self):
        for name, counts in (("answers", self.answers), ("ends of threads", self.ends), ("marks", self.marks)):
            print(f"{name}:", ", ".join(f"{count:,} {what}" for what, count in sorted(counts.items())))
        print(f"{self.mixed:,} runs with passings of patched and of unpatched sleds")
        print(f"{self.recycled:,} segments recycled in {self.losing:,} runs")
        print(f"{self.reports:,} reports on written traces, and {self.checks:,} checks")
        print(f"{self.runs:,} runs: {self.differ:,} differ from the model")


def main():
    given = arguments()
    program, cases = given.program, cases_of(given)
    folder = pathlib.Path(tempfile.mkdtemp(prefix="random_runs."))
    summary = Summary()
    with concurrent.futures.ThreadPoolExecutor(given.jobs) as pool:
        numbers = range(1, given.runs + 1)
        for result in pool.map(lambda number: compared(program, folder, number, cases), numbers):
            summary.add(result)
            if result.differs:
                print("\n    ".join(result.differs))
    if not any(folder.iterdir()):
        folder.rmdir()
    summary.print()
    sys.exit(1 if summary.differ else 0)


if __name__ == "__main__":
    main()
