#!/usr/bin/env python3
"""Runs each command with little stack and in small address spaces, and reports where a run does what it may not do.

usage: tools/compare/small_stacks.py [PROGRAM] [--with ROWS] [--stack BYTES]
    PROGRAM: the built program, crates/xray/out/xray if left out
    --with: which rows of the table of commands are run, with commas between them; all of them if left out
    --stack: the most stack that a run may need, 131,072 if left out. Half of it is for the commands, and the rest for the
        start of a program and the C library

The commands are those of fail_alloc.py without the script that waits, and those of the table below, which take a log of
a runtime and the deepest stacks. Each of them runs
- with this much stack for each of its threads. It has to be the same as with the limits of the shell;
- in address spaces of 50 KB, 100 KB, and so on. They begin with the least one in which the program reports that it was
  given no words, and end with the first one in which the command is as without a limit. From 4 MB above the least one
  on, each is a fiftieth larger than the one before. In those before the last one a run has to end with status 5 and its
  line on standard error, with nothing on standard output, no file created and none changed. It may also end with status
  3 or 4 and report a fault of a file, as fail_alloc.py says.

In particular no run may end by a signal. Anything else is reported, and then the status is 1.
"""
import pathlib
import resource
import shutil
import subprocess
import sys
import tempfile

sys.dont_write_bytecode = True  # the modules are in the repository, and their compiled forms aren't
sys.path.insert(0, str(pathlib.Path(__file__).resolve().parents[1]))
from command_line import ROOT, CommandLine, finish  # noqa: E402
from fail_alloc import COMMANDS, WAITING, changed, outcome, prepared  # noqa: E402
from full_trace import metadata, record  # noqa: E402

FURTHER = {
    "stack for flame graphs": "stack calls.trace --format flame",
    "stack of deep calls": "stack deep.trace",
    "stack of deep calls for flame graphs": "stack deep.trace --format flame",
    "stack of deep calls as a picture": "stack deep.trace --format svg",
    "account of deep calls": "account deep.trace",
    "convert of deep calls": "convert deep.trace --format trace-event",
    "profile for flame graphs": "profile call.xrim traced.script --threads 2 --format flame",
    "import": "import llvm14.log made",
    "import of a log of clang 19": "import llvm19.log made",
}
ROWS = {name: words for name, words in (COMMANDS | FURTHER).items() if name not in WAITING}
KB = 1000
STEP = 50 * KB
# How far above the least address space the steps begin to grow, and by which part of the address space.
FINE, PART = 4000 * KB, 50
# The most address space that is tried, and that the program may need to start.
MOST, MOST_TO_START = 2_000_000 * KB, 100_000 * KB
# Seconds after which a run counts as endless.
ENDLESS = 20
# The most calls that may be open at once.
DEEPEST = 4096
ENTERED, LEFT = 0x20, 0x22


def deep_trace():
    """A thread that makes as many calls within each other as may be open, and ends them all."""
    header = bytes.fromhex("03 00 01 00 03 00 00 00") + bytes(8) + (1_000_000).to_bytes(8, "little") + bytes(8)
    segment = metadata(0x01, (1, 4)) + metadata(0x09) + metadata(0x13, (1, 4)) + metadata(0x05, (0, 2), (0, 8))
    segment += record(ENTERED, 1) * DEEPEST + record(LEFT, 1) * DEEPEST
    return header + metadata(0x0F, (len(segment), 8)) + segment


class Limits:
    """Runs of the program under limits, each in a fresh copy of the files."""

    def __init__(self, program, inputs, folder):
        self.program = program
        self.inputs = inputs
        self.folder = folder

    def run(self, words, limit=None, size=0):
        """The status of a run, its streams, and its changed files."""
        shutil.rmtree(self.folder, ignore_errors=True)
        shutil.copytree(self.inputs, self.folder)
        try:
            done = subprocess.run(
                [self.program, *words.split()], cwd=self.folder, env={}, capture_output=True, timeout=ENDLESS,
                preexec_fn=None if limit is None else lambda: resource.setrlimit(limit, (size, size)),
            )  # fmt: skip
        except subprocess.TimeoutExpired:
            return "endless", b"", b"", {}
        return done.returncode, done.stdout, done.stderr, changed(self.inputs, self.folder)

    def in_space(self, words, size):
        return self.run(words, resource.RLIMIT_AS, size)

    def least_space(self):
        """The least address space in which the program starts, in whole steps, or None."""
        alone = self.run("")
        return next((size for size in range(STEP, MOST_TO_START, STEP) if self.in_space("", size) == alone), None)


def spaces(least):
    """The address spaces in which a command is tried."""
    size = least
    while size < MOST:
        yield size
        size += STEP if size < least + FINE else -(-size // PART // STEP) * STEP


def described(comes):
    status, out, err, made = comes
    return f"status {status}, out {len(out)} bytes, err {err!r}, changed {sorted(made)}"


def differences(name, limits, stack, least):
    """The lines that report where a command's runs do what they may not do, and how many runs there were."""
    words = ROWS[name]
    alone = limits.run(words)
    found, tried = [], 1
    comes = limits.run(words, resource.RLIMIT_STACK, stack)
    if comes != alone:
        found.append(f"{name}: with {stack:,} bytes of stack: {described(comes)}")
    for size in spaces(least):
        comes = limits.in_space(words, size)
        tried += 1
        if comes == alone:
            return found, tried
        if outcome(comes, alone, False) is None:
            found.append(f"{name}: in {size:,} bytes: {described(comes)}")
    return found + [f"{name}: no address space below {MOST:,} bytes is enough"], tried


def main():
    words = CommandLine(__doc__)
    words.add_program()
    words.add_argument("--with", dest="commands", default=",".join(ROWS))
    words.add_argument("--stack", type=int, default=131_072)
    said = words.parse_args()
    found, tried = [], 0
    with tempfile.TemporaryDirectory() as scratch:
        folder = pathlib.Path(scratch)
        inputs = prepared(folder / "inputs", said.program)
        for log in ("llvm14.log", "llvm19.log"):
            shutil.copy(ROOT / "examples/runtime-logs" / log, inputs)
        (inputs / "deep.trace").write_bytes(deep_trace())
        limits = Limits(said.program, inputs, folder / "run")
        least = limits.least_space()
        if least is None:
            sys.exit(f"{said.program} doesn't start in {MOST_TO_START:,} bytes")
        for name in said.commands.split(","):
            lines, runs = differences(name, limits, said.stack, least)
            found += lines
            tried += runs
    finish(found, f"{tried:,} runs, in {least:,} bytes and more")


if __name__ == "__main__":
    main()
