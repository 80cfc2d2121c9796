#!/usr/bin/env python3
"""Compares `xray profile` of random images with `xray run` and `xray stack`, where all sleds are patched before the threads start.

usage: tools/compare/profiles_beside.py [PROGRAM] [--runs N] [--seed N]
    PROGRAM: the built program, crates/xray/out/xray if left out
    --runs: how many images are tried, 100 if left out
    --seed: the seed of everything random, 1 if left out

Both run the same image beside the same script with the same options, on one to sixteen threads, and no buffer of the run is used
again. So both record the same events. `profile` has to print the state texts that `run` prints, and then what `stack` prints of
the trace in the same format. Where a thread has more than 4,096 calls open, `stack` refuses the trace by that thread, and
`profile` names it.

The last line says how many profiles were compared, how many of them had rows, and how many threads were too deep. A difference is
reported with the folder in which its files are kept, and then the status is 1.
"""
import collections
import pathlib
import random
import shutil
import subprocess
import sys
import tempfile

sys.dont_write_bytecode = True  # the modules are in the repository, and their compiled forms aren't
sys.path.insert(0, str(pathlib.Path(__file__).resolve().parents[1]))
from command_line import CommandLine  # noqa: E402
from inputs.random_cases import KINDS  # noqa: E402
from inputs.random_images import random_image  # noqa: E402

SCRIPTS = [b"patch\nset_handler\ninit\ngo\n", b"patch\nset_handler\nset_arg_handler\ninit\ngo\n"]
LONGEST_RUN = 120  # the seconds after which a run counts as endless
OPTIONS = {
    "fuel": [10, 100, 1000, 3000, 20_000],
    "passings": [1, 3, 50, 4096, 4097, 1_048_576, 1_048_576],
    "tick": [0, 1, 1, 1000, (1 << 32) + 1, (1 << 64) - 1],
    "tsc": [0, 0, 5, (1 << 32) - 3, (1 << 64) - 5],
    "cpus": [1, 1, 2, 3, 65_535],
    "migrate": [1, 2, 3, 1_048_576, 1_048_576],
}
NO_BUFFER_TWICE = ["--buffer-size=16384", "--buffer-max=1024", "--wall=0"]


def done(program, folder, words):
    return subprocess.run([program, *words], cwd=folder, capture_output=True, timeout=LONGEST_RUN)


def is_whole(audit):
    """Whether no buffer was used again."""
    return audit.endswith(b"\nrecycled 0\n")


def expected(program, folder, options, form):
    """What `profile` has to leave: its status, and its lines on out and err. None if the image is refused or a buffer was used again."""
    run = done(program, folder, ["run", "image", "script", "trace", "audit", *options, *NO_BUFFER_TWICE])
    if run.returncode != 0 or not is_whole((folder / "audit").read_bytes()):
        return None
    stack = done(program, folder, ["stack", "trace", "image", *form])
    if stack.returncode == 0:
        before, after = (b"<!--\n", b"-->\n") if "--format=svg" in form else (b"", b"")
        return 0, before + run.stdout + after + stack.stdout, b""
    thread = stack.stderr.split()[-1]
    return 7, run.stdout, b"xray: profile: deep " + thread + b"\n"


def compared(program, folder, draw, counts):
    """Whether a profile differs from the run and its stacks."""
    threads = draw.choice([1, 1, 2, 3, 16])
    (folder / "image").write_bytes(random_image(draw, KINDS["sim"], 0))
    (folder / "script").write_bytes(draw.choice(SCRIPTS))
    options = [f"--{name}={draw.choice(values)}" for name, values in OPTIONS.items()] + [f"--threads={threads}"]
    form = draw.choice([[], ["--format=human"], ["--format=flame"], ["--format=svg"]])
    wanted = expected(program, folder, options, form)
    if wanted is None:
        counts["left out"] += 1
        return False
    profile = done(program, folder, ["profile", "image", "script", *options, *form, "--nodes=262144"])
    counts["compared"] += 1
    counts["with rows"] += profile.stdout.count(b"\n") > 5 * threads
    counts["deep"] += profile.returncode == 7
    return (profile.returncode, profile.stdout, profile.stderr) != wanted


def main():
    reader = CommandLine(__doc__)
    reader.add_program()
    reader.add_argument("--runs", type=int, default=100)
    reader.add_argument("--seed", type=int, default=1)
    given = reader.parse_args()
    kept = pathlib.Path(tempfile.mkdtemp(prefix="profiles_beside."))
    counts, differ = collections.Counter(), 0
    for number in range(1, given.runs + 1):
        folder = kept / str(number)
        folder.mkdir()
        if compared(given.program, folder, random.Random(f"{given.seed} {number}"), counts):
            differ += 1
            print(f"differs: {folder}")
        else:
            shutil.rmtree(folder)
    if not differ:
        kept.rmdir()
    print(", ".join(f"{counts[what]} {what}" for what in ["compared", "with rows", "deep", "left out"]) + f", {differ} differ")
    sys.exit(1 if differ else 0)


if __name__ == "__main__":
    main()
