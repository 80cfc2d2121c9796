#!/usr/bin/env python3
"""Orders random runs of `xray run`, replays each order by `xray sim`, and reports where a replay differs from its run.

usage: tools/compare/ordered_runs.py [PROGRAM] [--runs N] [--seed N] [--jobs N] [--model]
    PROGRAM: the built program, crates/xray/out/xray if left out
    --runs: how many runs are ordered, 1000 if left out
    --seed: the seed of everything random, 1 if left out
    --jobs: how many runs at a time, 2 if left out
    --model: the model orders the runs; PROGRAM needs no command `order`

Each run is one of a random image beside a random script, with patching, waits, arguments, one to sixteen threads, and
buffers that are used again. One in ten is a long loop that is patched all the time, and one in twenty has sixteen threads
while one patches 255 times. `order` has to write the script and the schedule of the model (order_model.py). Then `sim` with
the options of the run's audit has to print the state texts of the run, and its audit has to have the ends, the marks and the
counts of the run's. Only the numbers of lost segments may differ.

The last lines say what came up: marks, lines of schedules, and waits in scripts. A difference is reported with the folder
in which its files are kept, and then the status is 1.
"""
import collections
import concurrent.futures
import dataclasses
import pathlib
import random
import re
import shutil
import subprocess
import sys
import tempfile

sys.dont_write_bytecode = True  # the modules are in the repository, and their compiled forms aren't
sys.path.insert(0, str(pathlib.Path(__file__).resolve().parents[1]))
from command_line import CommandLine  # noqa: E402
from compare.judged_runs import random_options  # noqa: E402
from inputs.random_cases import KINDS, id_count  # noqa: E402
from inputs.random_images import random_image  # noqa: E402
from inputs.random_loops import loop_case  # noqa: E402
from inputs.random_scripts import live_script  # noqa: E402
from model import order_model  # noqa: E402
from model.asm_model import assembled  # noqa: E402
from model.check_model import audit_of  # noqa: E402
from model.image_model import image_of  # noqa: E402
from model.replay_model import WAITING, commands_of  # noqa: E402

LONGEST_RUN = 120  # the seconds after which a run counts as endless
TRIES = 1000
MANY = 255  # how often one patches while sixteen threads run


# ---- Runs


@dataclasses.dataclass(frozen=True)
class Inputs:
    """An image, a script, and the options of a run."""

    image: bytes
    script: bytes
    options: list


def random_inputs(draw):
    threads = draw.choice([1, 1, 2, 3, 5, 16])
    image = random_image(draw, KINDS["sim"], 0)
    return Inputs(image, live_script(draw, id_count(image), threads), random_options(draw, threads))


def loop_inputs(draw):
    case = loop_case(draw)
    options = [word.decode() for word in case.words[5:] if not word.startswith(b"--passings")]
    return Inputs(case.files[b"i"], case.files[b"s"], [*options, f"--passings={draw.choice([100, 1000, 3000])}"])


def crowd_inputs(draw):
    """Sixteen threads that call a function again and again while one patches and unpatches it."""
    text = b"base 0x1000\nfn main never\nagain:\ncall f\njmp again\nfn f always\nadd rax, rdi\nret\n"
    patching = "patch\nunpatch\n" * MANY
    awaited = "".join(f"await {thread} {draw.randint(0, 200)}\n" for thread in draw.sample(range(1, 17), 4))
    script = f"set_handler\ninit\ngo\n{awaited}{patching}".encode()
    return Inputs(assembled(text, 1), script, ["--threads=16", "--passings=1000", "--buffer-max=16", "--wall=0"])


def inputs_of(draw, number):
    if number % 20 == 0:
        return crowd_inputs(draw)
    return loop_inputs(draw) if number % 10 == 5 else random_inputs(draw)


def outcome_of(program, folder, words):
    done = subprocess.run([program, *words], cwd=folder, capture_output=True, timeout=LONGEST_RUN)
    return done.returncode, done.stdout, done.stderr


def a_run(program, folder, draw, number):
    """The inputs of a run that is done, and its state texts. Its files are in the folder."""
    for _ in range(TRIES):
        inputs = inputs_of(draw, number)
        (folder / "image").write_bytes(inputs.image)
        (folder / "script").write_bytes(inputs.script)
        status, states, error = outcome_of(program, folder, ["run", "image", "script", "trace", "audit", *inputs.options])
        if status == 0:
            return inputs, states
        if status != 2:
            raise AssertionError(f"{status}: {error}")
    raise AssertionError("no run is done")


# ---- Orders and replays


def options_of(audit):
    """The options with which a replay is made as the run of an audit was."""
    names = {name: value for name, value in audit.options.items() if name != "micros"}
    return [f"--{name}={value}" for name, value in names.items()]


def without_losses(audit):
    """The bytes of an audit without the numbers of lost segments."""
    return re.sub(rb"(first|recycled) [0-9]+\n", rb"\1\n", audit)


@dataclasses.dataclass
class Result:
    marks: collections.Counter
    lines: int
    waits: int
    differs: list


class Orders:
    """Runs by their numbers, each in a folder of its own."""

    def __init__(self, program, seed, is_model):
        self.program = program
        self.seed = seed
        self.is_model = is_model
        self.kept = pathlib.Path(tempfile.mkdtemp(prefix="ordered_runs."))

    def ordered(self, number):
        draw = random.Random(f"{self.seed} {number}")
        folder = self.kept / str(number)
        folder.mkdir()
        inputs, states = a_run(self.program, folder, draw, number)
        audit_bytes = (folder / "audit").read_bytes()
        audit = audit_of(audit_bytes)
        image = image_of(inputs.image)
        commands = commands_of(inputs.script, image, audit.options["threads"])
        expected = {
            "free": order_model.free_text(inputs.script, commands),
            "schedule": order_model.schedule_text(image, commands, audit),
        }
        differs = self.written(folder, expected)
        words = ["sim", "image", "free", "schedule", "trace2", "audit2", *options_of(audit)]
        status, replayed, error = outcome_of(self.program, folder, words)
        if status != 0:
            differs.append(f"the replay ends with {status}: {error}")
        elif replayed != states:
            differs.append("the state texts differ")
        elif without_losses((folder / "audit2").read_bytes()) != without_losses(audit_bytes):
            differs.append("the audits differ")
        if not differs:
            shutil.rmtree(folder)
        marks = collections.Counter("".join(entry.marks for entry in audit.entries))
        waits = sum(command.name in WAITING for command in commands)
        return Result(marks, expected["schedule"].count(b"\n"), waits, [f"differs: {folder}: {what}" for what in differs])

    def written(self, folder, expected):
        """The script and the schedule of an order are in the folder. What of them isn't as the model says is returned."""
        if self.is_model:
            for name, content in expected.items():
                (folder / name).write_bytes(content)
            return []
        status, output, error = outcome_of(self.program, folder, ["order", "image", "script", "audit", "free", "schedule"])
        if (status, output, error) != (0, b"", b""):
            return [f"order ends with {status}: {output} {error}"]
        return [f"{name} isn't the model's" for name, content in expected.items() if (folder / name).read_bytes() != content]

    def end(self):
        if not any(self.kept.iterdir()):
            self.kept.rmdir()


def arguments():
    words = CommandLine(__doc__)
    words.add_program()
    words.add_argument("--runs", type=int, default=1000, metavar="N")
    words.add_argument("--seed", type=int, default=1, metavar="N")
    words.add_argument("--jobs", type=int, default=2, metavar="N")
    words.add_argument("--model", action="store_true")
    return words.parse_args()


def main():
    given = arguments()
    orders = Orders(given.program, given.seed, given.model)
    marks, lines, waits, waiting, differ = collections.Counter(), 0, 0, 0, 0
    with concurrent.futures.ThreadPoolExecutor(given.jobs) as pool:
        for result in pool.map(orders.ordered, range(1, given.runs + 1)):
            marks += result.marks
            lines += result.lines
            waits += result.waits
            waiting += result.waits > 0
            differ += bool(result.differs)
            print(*result.differs, sep="\n", end="\n" if result.differs else "")
    orders.end()
    print("marks:", ", ".join(f"{count:,} {mark}" for mark, count in sorted(marks.items())))
    print(f"{lines:,} lines of schedules; {waits:,} waits in {waiting:,} scripts")
    print(f"{given.runs:,} runs: {differ:,} differ in their replay")
    sys.exit(1 if differ else 0)


if __name__ == "__main__":
    main()
