#!/usr/bin/env python3
"""Runs the console blocks of the documents, and reports where the program doesn't print what they show.

usage: tools/compare/console_blocks.py [PROGRAM]
    PROGRAM: the built program, crates/xray/out/xray if left out

In a block ```console a line that begins with `$ ` is a command. The lines after it, up to the next command, are what it
prints on standard output and standard error. Each document has one shell, so a command finds the files and the folder
that earlier commands left. README.md and the tour are followed one after the other in one shell. It begins in a copy of
what the repository has, and may leave no file there. The pages of the manual and those on refusals and formats each
begin in a folder with the files of all examples. Each difference is printed with its document and line, and then the
status is 1.
"""
import dataclasses
import pathlib
import shutil
import subprocess
import sys
import tempfile

sys.dont_write_bytecode = True  # the modules are in the repository, and their compiled forms aren't
sys.path.insert(0, str(pathlib.Path(__file__).resolve().parents[1]))
from command_line import ROOT, CommandLine  # noqa: E402

TOURS = ["README.md", "docs/TOUR.md"]
MANUALS = ["docs/COMMANDS.md", "docs/REFUSALS.md"]
MANUALS += sorted(f"docs/{part}/{page.name}" for part in ("commands", "formats") for page in (ROOT / "docs" / part).glob("*.md"))
# Where the program is built, in the repository.
PROGRAMS = "repository/crates/xray/out"
# What the shell prints after each command, on a line of its own.
MARK = "---- console_blocks: done ----"


@dataclasses.dataclass
class Step:
    """A command of a document, the number of its line, and what the document shows below it."""

    document: str
    line: int
    command: str
    shown: str


def steps_of(name):
    """The commands of a document's console blocks, in order."""
    steps = []
    in_block = False
    for number, line in enumerate((ROOT / name).read_text(encoding="utf-8").splitlines(), start=1):
        if line.startswith("```"):
            in_block = line == "```console"
        elif in_block and line.startswith("$ "):
            steps.append(Step(name, number, line[2:], ""))
        elif in_block:
            steps[-1].shown += line + "\n"
    return steps


def printed(steps, folder, scratch):
    """What each of the commands prints, all of them run by one shell that begins in a folder."""
    script = "".join(f"{step.command}\nprintf '\\n%s\\n' '{MARK}'\n" for step in steps)
    environment = {"PATH": f"{scratch / PROGRAMS}:/usr/bin:/bin", "LC_ALL": "C", "TMPDIR": str(scratch / "tmp")}
    done = subprocess.run(
        ["bash"], input=script.encode(), cwd=folder, env=environment, stdout=subprocess.PIPE, stderr=subprocess.STDOUT
    )
    return done.stdout.decode(errors="replace").split(f"\n{MARK}\n")[:-1]


def prepare(scratch, program):
    """Makes a repository with the examples and the program, and a folder with the files of all examples."""
    shutil.copytree(ROOT / "examples", scratch / "repository/examples")
    (scratch / PROGRAMS).mkdir(parents=True)
    (scratch / PROGRAMS / "xray").symlink_to(program)
    for folder in ("together", "tmp"):
        (scratch / folder).mkdir()
    for file in (ROOT / "examples").glob("*/*"):
        shutil.copy(file, scratch / "together")


def files_in(folder):
    return {path.relative_to(folder): path.read_bytes() for path in folder.rglob("*") if path.is_file()}


def differences(names, program):
    """How many commands some documents have, and a report on each that prints something else."""
    steps = [step for name in names for step in steps_of(name)]
    with tempfile.TemporaryDirectory(prefix="console_blocks.") as name:
        scratch = pathlib.Path(name)
        prepare(scratch, program)
        repository = scratch / "repository"
        before = files_in(repository)
        outputs = printed(steps, repository if names == TOURS else scratch / "together", scratch)
        left = files_in(repository)
    reported = [
        f"{step.document}:{step.line}: $ {step.command}\nshown:\n{step.shown}printed:\n{output}"
        for step, output in zip(steps, outputs)
        if output != step.shown
    ]
    if len(outputs) < len(steps):
        end = steps[len(outputs)]
        reported.append(f"{end.document}:{end.line}: the shell ended before this command\n")
    changed = [str(path) for path in before.keys() | left.keys() if before.get(path) != left.get(path)]
    reported += [f"{' and '.join(names)}: the repository's file {path} is changed\n" for path in sorted(changed)]
    return len(steps), reported


def main():
    parser = CommandLine(__doc__)
    parser.add_program()
    program = parser.parse_args().program
    count, reported = 0, []
    for names in [TOURS, *([name] for name in MANUALS)]:
        steps, differing = differences(names, program)
        count += steps
        reported += differing
    for text in reported:
        print(text)
    print(f"{count} commands, {len(reported)} differ from what the documents show")
    sys.exit(1 if reported else 0)


if __name__ == "__main__":
    main()
