#!/usr/bin/env python3
"""Compares what `soak` prints with a model of it, and reports where they differ.

usage: tools/compare/soak_runs.py [PROGRAM] [--model] [--first N] [--seeds N] [--jobs N]
    PROGRAM: the built program, crates/xray/out/xray if left out
    --model: the model's summaries are only printed
    --first: the first seed, 0 if left out
    --seeds: how many seeds, 300 if left out
    --jobs: how many at a time, 2 if left out

The model is soak_model.py. The seeds follow one another from the first one on. A difference is reported, and then the
status is 1.
"""
import concurrent.futures
import pathlib
import subprocess
import sys

sys.dont_write_bytecode = True  # the modules are in the repository, and their compiled forms aren't
sys.path.insert(0, str(pathlib.Path(__file__).resolve().parents[1]))
from command_line import CommandLine, finish  # noqa: E402
from model.soak_model import summary  # noqa: E402


def difference(program, seed):
    """How a run of the program differs from the model, or nothing."""
    run = subprocess.run([program, "soak", str(seed)], capture_output=True, text=True)
    wanted = (0, summary(seed), "")
    came = (run.returncode, run.stdout, run.stderr)
    return "" if came == wanted else f"soak {seed}: came {came}, wanted {wanted}"


def main():
    reader = CommandLine(__doc__)
    reader.add_program(unless="model")
    reader.add_argument("--model", action="store_true")
    reader.add_argument("--first", type=int, default=0, metavar="N")
    reader.add_argument("--seeds", type=int, default=300, metavar="N")
    reader.add_argument("--jobs", type=int, default=2, metavar="N")
    given = reader.parse_args()
    seeds = range(given.first, given.first + given.seeds)
    if given.model:
        for seed in seeds:
            print(summary(seed), end="")
        return
    with concurrent.futures.ProcessPoolExecutor(given.jobs) as pool:
        found = [one for one in pool.map(difference, [given.program] * given.seeds, seeds) if one]
    finish(found, f"{given.seeds} seeds from {given.first} on")


if __name__ == "__main__":
    main()
