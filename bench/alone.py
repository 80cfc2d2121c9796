#!/usr/bin/env python3
"""Runs commands one at a time, and reports the time and the memory that each of them took by itself.

The system counts the memory of the process that starts a command as the command's own, and a bench may hold a lot. So
this file runs as a separate process that holds little, and starts the command. It holds about 16 MB; no peak below that
is reported.
"""
import dataclasses
import os
import resource
import statistics
import subprocess
import sys
import time


@dataclasses.dataclass(frozen=True)
class Measured:
    """A run's status, its processor time and elapsed time in seconds, and its peak of memory in bytes."""

    status: int
    processor: float
    elapsed: float
    memory: int


def measured(words, folder, output=None):
    """Runs a command in a folder. What it prints goes to a file there, or nowhere, and its standard error to `err`."""
    reading, writing = os.pipe()
    with open(os.devnull if output is None else folder / output, "wb") as out, open(folder / "err", "wb") as err:
        words = [sys.executable, os.path.abspath(__file__), str(writing), *map(str, words)]
        subprocess.run(words, cwd=folder, stdout=out, stderr=err, pass_fds=[writing], check=True)
    os.close(writing)
    with os.fdopen(reading) as stream:
        status, processor, elapsed, memory = stream.read().split()
    return Measured(int(status), float(processor), float(elapsed), int(memory))


def passed(words, folder, output=None):
    """A run of a command. If it fails, it ends the bench."""
    run = measured(words, folder, output)
    if run.status != 0:
        sys.exit(f"{' '.join(map(str, words))}: {(folder / 'err').read_text(errors='replace')[:500]}")
    return run


def best(words, folder, runs, output=None):
    """The run with the least processor time. A run that fails ends the bench."""
    return min((passed(words, folder, output) for _ in range(runs)), key=lambda run: run.processor)


def in_turns(commands, folder, rounds):
    """For each name of a command its runs, one in each round. The commands, each its words and the name of its output, take
    turns, so that a host whose speed changes slows all of them. A run that fails ends the bench."""
    runs = {name: [] for name in commands}
    for _ in range(rounds):
        for name, (words, output) in commands.items():
            runs[name].append(passed(words, folder, output))
    return runs


def median(runs, field):
    return statistics.median(getattr(run, field) for run in runs)


def quotient(ones, others, field="processor"):
    """The median of what runs took as fractions of what others took in the same rounds."""
    return statistics.median(getattr(one, field) / getattr(other, field) for one, other in zip(ones, others, strict=True))


def megabytes(count):
    return f"{count / 1e6:.0f} MB"


def run_alone(writing, words):
    """Runs a command, and prints what it took to a descriptor."""
    begin = time.perf_counter()
    process = subprocess.Popen(words)
    _, status, used = os.wait4(process.pid, 0)
    elapsed = time.perf_counter() - begin
    process.returncode = os.waitstatus_to_exitcode(status)
    os.write(writing, f"{process.returncode} {used.ru_utime + used.ru_stime} {elapsed} {used.ru_maxrss * 1024}".encode())


def timed(words, folder=None):
    """The elapsed time of a run, its processor time, and what it printed. A run that fails ends the bench."""
    begin, before = time.perf_counter(), resource.getrusage(resource.RUSAGE_CHILDREN)
    run = subprocess.run([str(word) for word in words], cwd=folder, capture_output=True)
    elapsed, after = time.perf_counter() - begin, resource.getrusage(resource.RUSAGE_CHILDREN)
    if run.returncode != 0:
        sys.exit(f"unexpected: {words}: status {run.returncode}, {run.stderr[:300]!r}")
    return elapsed, after.ru_utime + after.ru_stime - before.ru_utime - before.ru_stime, run.stdout


def built_by_rustc(source, folder):
    """The program that `rustc -O` builds of a source, in a folder."""
    made = folder / source.stem
    subprocess.run(["rustc", "--edition", "2021", "-O", "-o", made, source], check=True)
    return made


if __name__ == "__main__":
    run_alone(int(sys.argv[1]), sys.argv[2:])
