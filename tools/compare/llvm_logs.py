#!/usr/bin/env python3
"""Compares what the model of `import` makes of logs with what `llvm-xray convert` says of them.

usage: tools/compare/llvm_logs.py [LOG..]
    LOG: a log of LLVM's runtime; those of examples/runtime-logs if none is named

For each thread, the events of the trace that is made have to be those of LLVM's tool, in the order of their counters. A
log that was flushed while threads ran may have a block twice: then each of its events counts once. The program of
LLVM's tool is named by the environment's LLVM_XRAY, or is `llvm-xray-14`. A difference is reported, and then the status
is 1.
"""
import collections
import itertools
import os
import pathlib
import re
import shutil
import subprocess
import sys

sys.dont_write_bytecode = True  # the modules are in the repository, and their compiled forms aren't
sys.path.insert(0, str(pathlib.Path(__file__).resolve().parents[1]))
from command_line import ROOT, CommandLine  # noqa: E402
from model import import_model  # noqa: E402

LLVM_XRAY = os.environ.get("LLVM_XRAY", "llvm-xray-14")
ACTIONS = {"function-enter": 0, "function-exit": 1, "function-tail-exit": 2, "function-enter-arg": 3}
LINE = re.compile(
    r"func-id: (\d+), function: .*?(?:, args: \[ ([\d, ]+) \])?, cpu: (\d+), thread: (\d+), process: (\d+), kind: ([a-z-]+), tsc: (\d+)"
)


def said_by_llvm(log):
    """The events of each thread, as LLVM's tool prints them."""
    command = [LLVM_XRAY, "convert", "-f", "yaml", "-sort=false", log]
    threads = collections.defaultdict(list)
    for line in subprocess.run(command, check=True, capture_output=True, text=True).stdout.splitlines():
        found = LINE.search(line)
        if found and found[6] in ACTIONS:
            function, args, cpu, thread, process, kind, tsc = found.groups()
            argument = int(args.split(",")[0]) if args else 0
            event = import_model.Event(int(cpu), int(function), ACTIONS[kind], int(tsc), argument)
            threads[int(thread)].append((int(process), event))
    return threads


def made_of(log):
    """The events of each thread in the trace that is made."""
    with open(log, "rb") as log_file:
        trace = import_model.trace_made(import_model.logged(log_file.read()))
    threads = collections.defaultdict(list)
    for block in trace.blocks:
        threads[block.thread] += [(block.pid, event) for event in block.events]
    return threads


def once(events):
    return [event for event, _ in itertools.groupby(events)]


def differing(log):
    """The threads whose events differ."""
    made, said = made_of(log), said_by_llvm(log)
    for thread in sorted({*made, *said}):
        in_time = sorted(said[thread], key=lambda item: item[1].tsc)
        if made[thread] != in_time and once(made[thread]) != once(in_time):
            yield thread


def main():
    words = CommandLine(__doc__)
    words.add_argument("logs", nargs="*", type=pathlib.Path, metavar="LOG")
    logs = words.parse_args().logs or sorted((ROOT / "examples/runtime-logs").glob("*.log"))
    if shutil.which(LLVM_XRAY) is None:
        print(f"{LLVM_XRAY} isn't there, so nothing was compared")
        return
    wrong = [(log, thread) for log in logs for thread in differing(log)]
    for log, thread in wrong:
        print(f"{log}: thread {thread} differs")
    print(f"{len(logs)} logs, {len(wrong)} threads differ")
    sys.exit(1 if wrong else 0)


if __name__ == "__main__":
    main()
