#!/usr/bin/env python3
"""Lets `xray check` judge random runs, and what is left of them after a damage, and compares it with the model.

usage: tools/compare/judged_runs.py [PROGRAM] [--runs N] [--seed N] [--damages N] [--jobs N]
    PROGRAM: the built program, crates/xray/out/xray if left out
    --runs: how many runs are judged, 100 if left out
    --seed: the seed of everything random, 1 if left out
    --damages: how many damages are tried on each run, 4 if left out
    --jobs: how many runs at a time, 2 if left out

Each run is a `sim` or a `run` of a random image beside a random script, with patching, waits, arguments, one to sixteen
threads, and buffers that are used again. `check` has to say `yes` of what it left, and so has the model
(check_model.py). Then the files are damaged (audit_damages.py), and the status, standard output and standard error of
`check` have to be those of the model (xray_model.py). Most damages get a verdict or a refusal. A few leave what another
lawful run would have left.

The last lines say how often each damage came, and with which answers. A difference is reported with the folder in which
its files are kept, and then the status is 1.
"""
import collections
import concurrent.futures
import dataclasses
import pathlib
import random
import shutil
import subprocess
import sys
import tempfile

sys.dont_write_bytecode = True  # the modules are in the repository, and their compiled forms aren't
sys.path.insert(0, str(pathlib.Path(__file__).resolve().parents[1]))
from command_line import CommandLine  # noqa: E402
from inputs.audit_damages import DAMAGES, Left, Unfit  # noqa: E402
from inputs.random_cases import KINDS, SIZES, id_count  # noqa: E402
from inputs.random_images import random_image  # noqa: E402
from inputs.random_scripts import live_script, random_schedule, random_script  # noqa: E402
from model import xray_model as model  # noqa: E402
from model.image_model import Refused  # noqa: E402

WORDS = ["check", "image", "script", "trace", "audit"]
LONGEST_RUN = 120  # the seconds after which a run counts as endless
TRIES = 1000
OPTIONS = {
    "fuel": [0, 3, 10, 100, 1000, 1000, 3000, 3000],
    "passings": [0, 1, 3, 50, 1_048_576, 1_048_576, 1_048_576],
    "buffer-size": SIZES,
    "tick": [0, 1, 1, 1000, (1 << 32) + 1, (1 << 64) - 1],
    "tsc": [0, 0, 5, (1 << 32) - 3, (1 << 64) - 5],
    "frequency": [0, 1, 2_500_000_000],
    "cpus": [1, 1, 2, 3, 65_535],
    "migrate": [1, 2, 3, 1_048_576, 1_048_576],
    "pid": [0, 1, 4711],
    "wall": [0, 1, 1_700_000_000],
}


def random_options(draw, threads):
    options = {name: draw.choice(values) for name, values in OPTIONS.items()}
    options |= {"threads": threads, "buffer-max": threads + draw.choice([0, 0, 1, 2, 5, 84])}
    return [f"--{name}={value}" for name, value in options.items()]


def outcome_of(program, folder, words):
    done = subprocess.run([program, *words], cwd=folder, capture_output=True, timeout=LONGEST_RUN)
    return model.Outcome(done.returncode, done.stdout, done.stderr)


def written(folder, **files):
    for name, content in files.items():
        (folder / name).write_bytes(content)


def random_run(draw, program, folder):
    """What a random run left. Tries until one is done."""
    for _ in range(TRIES):
        threads = draw.choice([1, 1, 2, 3, 5, 16])
        image = random_image(draw, KINDS["sim"], 0)
        if draw.random() < 0.4:
            script, command = random_script(draw, id_count(image), threads), ["sim", "image", "script", "schedule"]
        else:
            script, command = live_script(draw, id_count(image), threads), ["run", "image", "script"]
        written(folder, image=image, script=script, schedule=random_schedule(draw, threads))
        comes = outcome_of(program, folder, [*command, "trace", "audit", *random_options(draw, threads)])
        if comes.status == 0:
            return Left(image, script, (folder / "trace").read_bytes(), (folder / "audit").read_bytes())
        if comes.status != 2:
            raise AssertionError(f"{command}: {comes}")
    raise AssertionError("no run is done")


def expected(left):
    return model.outcome([word.encode() for word in WORDS], model.World(dataclasses.asdict(left)))


def answer_of(outcome):
    """A verdict or a refusal without its numbers."""
    words = (outcome.output or outcome.error).decode().replace("xray: ", "").split()
    return " ".join(word for word in words if not word.isdigit())


@dataclasses.dataclass
class Result:
    """The answers that a run and its damages got, and a line for each difference."""

    answers: list
    differs: list


class Judge:
    """Runs by their numbers, each in a folder of its own."""

    def __init__(self, program, seed, damages):
        self.program = program
        self.seed = seed
        self.damages = damages
        self.kept = pathlib.Path(tempfile.mkdtemp(prefix="judged_runs."))

    def difference(self, folder, left, what):
        """What `check` says of some files, and a line if the model says something else."""
        written(folder, **dataclasses.asdict(left))
        comes, expects = outcome_of(self.program, folder, WORDS), expected(left)
        if comes == expects:
            return answer_of(comes), []
        kept = self.kept / f"{folder.name} {what}"
        shutil.copytree(folder, kept)
        return answer_of(comes), [f"differs: {kept}: expected {expects}, came {comes}"]

    def judged(self, number):
        draw = random.Random(f"{self.seed} {number}")
        folder = self.kept / str(number)
        folder.mkdir()
        left, other = (random_run(draw, self.program, folder) for _ in range(2))
        answer, differs = self.difference(folder, left, "whole")
        if answer != "yes":
            differs.append(f"run {number} isn't lawful: {answer}")
        answers = [("no damage", answer)]
        names = list(DAMAGES)
        for turn in range(self.damages):
            name = names[(number * self.damages + turn) % len(names)]
            try:
                damaged = DAMAGES[name](draw, left, other)
            except (Unfit, Refused):
                continue
            answer, lines = self.difference(folder, damaged, name)
            answers.append((name, answer))
            differs += lines
        shutil.rmtree(folder)
        return Result(answers, differs)

    def end(self):
        if not any(self.kept.iterdir()):
            self.kept.rmdir()


def arguments():
    parser = CommandLine(__doc__)
    parser.add_program()
    parser.add_argument("--runs", type=int, default=100, metavar="N")
    parser.add_argument("--seed", type=int, default=1, metavar="N")
    parser.add_argument("--damages", type=int, default=4, metavar="N")
    parser.add_argument("--jobs", type=int, default=2, metavar="N")
    return parser.parse_args()


def main():
    given = arguments()
    judge = Judge(given.program, given.seed, given.damages)
    counts, differ = collections.defaultdict(collections.Counter), 0
    with concurrent.futures.ThreadPoolExecutor(given.jobs) as pool:
        for result in pool.map(judge.judged, range(1, given.runs + 1)):
            for name, answer in result.answers:
                counts[name][answer] += 1
            differ += len(result.differs)
            print(*result.differs, sep="\n", end="\n" if result.differs else "")
    judge.end()
    for name in ("no damage", *DAMAGES):
        if counts[name]:
            print(f"{name}:", ", ".join(f"{count:,} {answer}" for answer, count in sorted(counts[name].items())))
    judged = sum(sum(answers.values()) for answers in counts.values())
    print(f"{given.runs:,} runs, {judged:,} verdicts and refusals, {len(DAMAGES)} damages: {differ:,} differ from the model")
    sys.exit(1 if differ else 0)


if __name__ == "__main__":
    main()
