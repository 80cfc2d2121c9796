#!/usr/bin/env python3
"""Damages real files of each kind, runs `xray` on them, and reports where it differs from the model or takes too much.

usage: tools/compare/damaged_files.py [PROGRAM] [--files N] [--seed N] [--of KIND] [--memory MB] [--seconds N]
    PROGRAM: the built program, crates/xray/out/xray if left out
    --files: how many files are damaged, 100 if left out
    --seed: the seed of everything random, 1 if left out
    --of: only this kind: image, text, script, schedule, trace or audit
    --memory: the address space of a run, beside 20 times its input, 64 if left out; 0 for no limit
    --seconds: the processor time of a run, 1 if left out

The files are those of examples/, and random ones without a fault, of which each is damaged in a few ways. A file gets
one to three damages: bytes are changed, inserted or removed, a number becomes extreme, the file is cut, or joined with
another one, of the same kind or of another. A few are longer than their limit, and a few are gone. Each is given to
every command that reads its kind, beside sound files of the other kinds.

A run has to end with status 0, 2, 3 or 6, within its time and its address space. Unless the status is 0 it prints one
line on standard error and nothing on standard output. Otherwise it prints nothing on standard error. The status, both
streams and the files have to be those of the model (xray_model.py), so a refusal has the right name and place. A
program with a sanitizer needs no limit of memory and more time.

The last lines say how often each answer came for each kind, and what the slowest run took. A difference is reported
with the folder in which its files are kept, and then the status is 1.
"""
import collections
import dataclasses
import functools
import os
import pathlib
import random
import re
import shutil
import signal
import subprocess
import sys
import tempfile

sys.dont_write_bytecode = True  # the modules are in the repository, and their compiled forms aren't
sys.path.insert(0, str(pathlib.Path(__file__).resolve().parents[1]))
from command_line import ROOT, CommandLine  # noqa: E402
from inputs.random_images import assembled_draft, calling_draft, units_draft  # noqa: E402
from inputs.random_scripts import live_commands, random_schedule, random_script  # noqa: E402
from inputs.random_texts import small_text, written  # noqa: E402
from inputs.random_traces import random_trace  # noqa: E402
from model import image_model, replay_model, run_model  # noqa: E402
from model import xray_model as model  # noqa: E402
from model.asm_model import assembled  # noqa: E402
from model.image_model import Refused  # noqa: E402
from random_runs import answer_of, outcome_differences, shown_in  # noqa: E402

# After these seconds a run counts as endless.
ENDLESS = 60
# How many bytes of address space a run may take for each byte of its input.
BYTES_FOR_A_BYTE = 20
ALLOWED = (0, 2, 3, 6)
# How many damaged files are made from a file of each kind.
DAMAGED_OF_A_SET = 5
THREADS = 2
# Without fuel the model would take long for a damaged image that is accepted.
RUN = ["--fuel=1000", f"--threads={THREADS}"]
TRACED = [*RUN, "--wall=0", "--buffer-size=88", "--buffer-max=5"]
# The commands. A word that is a kind stands for the file of that kind.
COMMANDS = [
    ["asm", "text", "made"],
    ["asm", "text", "made", "--threshold=0", "--map-version=2"],
    ["plain", "image", *RUN],
    ["extract", "image"],
    ["sim", "image", "script", "schedule", "made", "made.audit", *TRACED],
    ["run", "image", "script", "made", "made.audit", *TRACED],
    ["account", "trace"],
    ["account", "trace", "image", "--sort=sum", "--sortorder=desc", "--format=csv"],
    ["calls", "trace"],
    ["calls", "trace", "image", "--sort=self", "--sortorder=desc", "--top=3", "--format=csv"],
    ["stack", "trace", "image"],
    ["stack", "trace", "--format=flame"],
    ["stack", "trace", "--format=svg"],
    ["convert", "trace", "image"],
    ["convert", "trace", "--format=trace-event"],
    ["convert", "trace", "--format=basic"],
    ["convert", "trace", "--input=basic"],
    ["fdr-dump", "trace"],
    ["check", "image", "script", "trace", "audit"],
    ["order", "image", "script", "audit", "made", "made.audit"],
]
LIMITS = {
    "image": model.IMAGE_LIMIT,
    "text": model.TEXT_LIMIT,
    "script": model.SCRIPT_LIMIT,
    "schedule": model.SCHEDULE_LIMIT,
    "trace": model.TRACE_LIMIT,
    "audit": model.AUDIT_LIMIT,
}


# ---- Sound files


def is_accepted(read, *given):
    try:
        read(*given)
    except Refused:
        return False
    return True


def first_accepted(make, read, *given):
    """The first of the random files that is accepted."""
    while True:
        content = make()
        if is_accepted(read, content, *given):
            return content


def examples(ending):
    return [path.read_bytes() for path in sorted(ROOT.glob(f"examples/*/*.{ending}"))]


EXAMPLES = {
    "image": [*examples("xrim"), *(assembled(text, 1) for text in examples("asm"))],
    "text": examples("asm"),
    "script": examples("script"),
    "schedule": examples("schedule"),
    "trace": examples("trace"),
    "audit": examples("audit"),
}


def sound_image(draw):
    return draw.choice([assembled_draft, units_draft, calling_draft])(draw).file()


def sound_script(draw, image):
    """A script for an image. Some of them wait."""
    ids = max(image_model.image_of(image).ids, default=0)

    def make():
        if draw.random() < 0.3:
            return written(draw, live_commands(draw, ids, THREADS))
        return random_script(draw, ids, THREADS)

    return first_accepted(make, replay_model.commands_of, image_model.image_of(image), THREADS)


def sound_audit(files):
    """The audit of a replay of an image, without waits in its script, or with a script that patches nothing if that one is refused."""
    waits = (b"hold", b"await", b"release")
    commands = [line for line in files["script"].splitlines(keepends=True) if not line.lstrip().startswith(waits)]
    words = [b"sim", b"i", b"s", b"c", b"t", b"a", *(word.encode() for word in TRACED)]
    for script in (b"".join(commands), b"go\n"):
        comes = model.outcome(words, model.World({"i": files["image"], "s": script, "c": b""}))
        if comes.status == 0:
            return comes.written["a"]
    raise ValueError("an image that runs no script")


def sound_files(draw):
    """A file of each kind without a fault."""
    image = draw.choice(EXAMPLES["image"]) if draw.random() < 0.3 else sound_image(draw)
    given = image_model.image_of(image)
    files = {
        "image": image,
        "text": first_accepted(lambda: small_text(draw), assembled, 1),
        "script": sound_script(draw, image),
        "schedule": first_accepted(lambda: random_schedule(draw, THREADS), replay_model.turns_of, THREADS),
        "trace": random_trace(draw, damaged_share=0),
    }
    files["audit"] = sound_audit(files)
    for kind in ("text", "script", "schedule", "trace"):
        example = draw.choice(EXAMPLES[kind])
        if draw.random() < 0.3 and (kind != "script" or is_accepted(replay_model.commands_of, example, given, THREADS)):
            files[kind] = example
    return files


@functools.lru_cache(maxsize=1)
def files_of_set(seed, number):
    """A file of each kind without a fault, by a number."""
    return sound_files(random.Random(f"{seed} set {number}"))


# ---- Damages

EXTREME_BYTES = [0x00, 0x01, 0x7F, 0x80, 0xFE, 0xFF]
EXTREME_WORDS = [
    b"0", b"1", b"15", b"16", b"17", b"255", b"256", b"1024", b"1025", b"4294967295", b"4294967296", b"9223372036854775807",
    b"9223372036854775808", b"18446744073709551615", b"18446744073709551616", b"1" + b"0" * 40, b"0" * 40 + b"1", b"-1", b"+1",
    b"0xFFFFFFFF", b"0x100000000", b"0x7FFF00000000", b"0x7FFF00000010", b"0x", b"0xFFFFFFFFFFFFFFFF", b"",
]  # fmt: skip


def place_in(draw, content):
    """A place from 0 to the end. The first 64 bytes, in which most files have their header, come as often as the others."""
    return draw.randint(0, min(len(content), 64) if draw.random() < 0.5 else len(content))


def changed(draw, content, _):
    at = place_in(draw, content)
    new = bytes(draw.choice([draw.randrange(256), draw.choice(EXTREME_BYTES)]) for _ in range(draw.choice([1, 1, 2, 4, 8])))
    if at < len(content) and draw.random() < 0.5:
        new = bytes([content[at] ^ 1 << draw.randrange(8)])
    return content[:at] + new + content[at + len(new) :]


def inserted(draw, content, _):
    at = place_in(draw, content)
    some = content[at : at + draw.choice([1, 8, 16, 32])]
    return content[:at] + draw.choice([draw.randbytes(draw.choice([1, 1, 8, 16])), some, b"\n", b"\0"]) + content[at:]


def removed(draw, content, _):
    at = place_in(draw, content)
    return content[:at] + content[at + draw.choice([1, 1, 2, 8, 16, 32, draw.randint(1, len(content) or 1)]) :]


def with_extreme_number(draw, content, _):
    """Writes a number at an end of its range, or near it, in place of a number."""
    words = list(re.finditer(rb"[0-9]+", content)) if content.isascii() else []
    if words:
        word = draw.choice(words)
        return content[: word.start()] + draw.choice(EXTREME_WORDS) + content[word.end() :]
    width = draw.choice([1, 2, 4, 4, 8, 8])
    at = place_in(draw, content)
    at -= draw.choice([0, at % width])
    top = 1 << 8 * width
    near = int.from_bytes(content[at : at + width], "little") + draw.choice([-1, 1])
    number = draw.choice([0, 1, top // 2 - 1, top // 2, top - 1, top - 16, near]) % top
    return content[:at] + number.to_bytes(width, "little") + content[at + width :]


def cut(draw, content, _):
    at = place_in(draw, content)
    return draw.choice([content[:at], content[:at], content[at:]])


def joined(draw, content, others):
    """Two files one after the other, or the start of one with the end of another."""
    other = draw.choice([content, *others])
    at = place_in(draw, content)
    return draw.choice([content + other, other + content, content[:at] + other[place_in(draw, other) :]])


DAMAGES = [changed, changed, inserted, removed, with_extreme_number, with_extreme_number, cut, joined]


def damaged(draw, kind, content, others):
    """A damaged file, or None for one that is gone."""
    luck = draw.random()
    if luck < 0.01:
        return None
    if luck < 0.02:
        return (content or b"\n") * (LIMITS[kind] // max(1, len(content)) + 1)
    for damage in draw.choices(DAMAGES, k=draw.choice([1, 1, 2, 3])):
        content = damage(draw, content, others)
    return content


# ---- Runs


@dataclasses.dataclass(frozen=True)
class Most:
    """What a run may take: megabytes beside those for its input, or 0 for any number, and seconds of processor time."""

    memory: int
    seconds: float


@dataclasses.dataclass(frozen=True)
class Taken:
    """What a run leaves, and the seconds of processor time that it took. The status is negative if a signal ended it."""

    outcome: model.Outcome
    seconds: float


# Runs a program within an address space of some KiB, or of any size, and without a dump of its memory.
LIMITED = 'ulimit -c 0; ulimit -v "$1"; shift; exec "$@"'


def space_of(memory, length):
    """The address space of a run whose input has this length, as a word of `ulimit -v`."""
    return str(memory * 1024 + BYTES_FOR_A_BYTE * length // 1024) if memory else "unlimited"


def ended(process):
    """The status and the processor time of a process, which is killed if it counts as endless."""
    signal.signal(signal.SIGALRM, lambda *_: os.kill(process, signal.SIGKILL))
    signal.alarm(ENDLESS)
    _, status, used = os.wait4(process, 0)
    signal.alarm(0)
    return os.waitstatus_to_exitcode(status), used.ru_utime + used.ru_stime


def run(xray, folder, streams, words, space):
    """Runs the program in a folder, with its streams in files of another one."""
    out, err = streams / "out", streams / "err"
    with open(out, "wb") as written, open(err, "wb") as reported:
        process = subprocess.Popen(
            ["sh", "-c", LIMITED, "sh", space, xray, *words], cwd=folder, stdin=subprocess.DEVNULL, stdout=written, stderr=reported
        )
        process.returncode, seconds = ended(process.pid)
    return Taken(model.Outcome(process.returncode, out.read_bytes(), err.read_bytes()), seconds)


def broken_rules(taken, most):
    """A line for each rule that holds of all runs and that this one breaks."""
    status, out, err = taken.outcome.status, taken.outcome.output, taken.outcome.error
    lines = []
    if status not in ALLOWED:
        lines.append(f"status {status}: {err!r}")
    elif (err != b"") if status == 0 else (out != b"" or not re.fullmatch(rb"xray: [^\n]+\n", err)):
        lines.append(f"status {status}, {len(out)} bytes on standard output, and on standard error {err!r}")
    if taken.seconds > most.seconds:
        lines.append(f"it took {taken.seconds:.2f} seconds")
    return lines


def judged(xray, folder, streams, words, files, most):
    """What a run takes, and a line for each difference and each broken rule."""
    for path in folder.iterdir():
        path.unlink()
    for name, content in files.items():
        (folder / name).write_bytes(content)
    length = sum(len(files.get(word, b"")) for word in words)
    taken = run(xray, folder, streams, words, space_of(most.memory, length))
    left = {path.name: path.read_bytes() for path in folder.iterdir()}
    written = {name.encode(): content for name, content in left.items() if name not in files}
    shown = shown_in(taken.outcome.output, written, 0)
    try:
        world = model.World(files, wall=(0, 0), shown=shown.threads)
        expects = model.outcome([word.encode() for word in words], world)
    except run_model.Unlawful as unlawful:
        return taken, [f"the run may not show this: {unlawful}"]
    lines = broken_rules(taken, most) + outcome_differences(expects, taken.outcome)
    expected = {**files, **expects.written}
    return taken, lines + [f"file {name} differs" for name in {*left, *expected} if left.get(name) != expected.get(name)]


# ---- All files


@dataclasses.dataclass
class Summary:
    answers: dict = dataclasses.field(default_factory=lambda: collections.defaultdict(collections.Counter))
    files: int = 0
    runs: int = 0
    differ: int = 0
    slowest: float = 0

    def add(self, kind, taken):
        self.runs += 1
        self.answers[kind][answer_of(taken.outcome)] += 1
        self.slowest = max(self.slowest, taken.seconds)

    def print(self):
        for kind, answers in self.answers.items():
            print(f"{kind}:", ", ".join(f"{count:,} {answer}" for answer, count in sorted(answers.items())))
        print(f"the slowest run took {self.slowest:.2f} seconds of processor time")
        print(f"{self.files:,} files, {self.runs:,} runs: {self.differ:,} differ from the model or break a rule")


class Tries:
    """Damaged files by their numbers, and the runs on them."""

    def __init__(self, program, seed, kinds, most):
        self.program = program
        self.seed = seed
        self.kinds = kinds
        self.most = most
        self.kept = pathlib.Path(tempfile.mkdtemp(prefix="damaged_files."))
        self.folder, self.streams = self.kept / "run", self.kept / "streams"
        self.folder.mkdir()
        self.streams.mkdir()
        self.summary = Summary()

    def file(self, number):
        """The kind of a damaged file, and all files beside it."""
        draw = random.Random(f"{self.seed} {number}")
        kind = self.kinds[number % len(self.kinds)]
        files = dict(files_of_set(self.seed, number // DAMAGED_OF_A_SET))
        others = [*EXAMPLES[kind], *files.values()]
        content = damaged(draw, kind, files.pop(kind), others)
        return kind, files if content is None else {**files, kind: content}

    def run(self, number):
        kind, files = self.file(number)
        self.summary.files += 1
        for command in COMMANDS:
            if kind not in command:
                continue
            given = {word: files[word] for word in command if word in files}
            taken, lines = judged(self.program, self.folder, self.streams, command, given, self.most)
            self.summary.add(kind, taken)
            if lines:
                self.keep(number, command, given, lines)

    def keep(self, number, command, files, lines):
        self.summary.differ += 1
        here = self.kept / f"{number}-{command[0]}-{self.summary.differ}"
        here.mkdir()
        for name, content in files.items():
            (here / name).write_bytes(content)
        print("\n    ".join([f"differs: {here}: {' '.join(command)}", *lines]))

    def end(self):
        shutil.rmtree(self.folder)
        shutil.rmtree(self.streams)
        if not any(self.kept.iterdir()):
            self.kept.rmdir()


def arguments():
    parser = CommandLine(__doc__)
    parser.add_program()
    parser.add_argument("--files", type=int, default=100, metavar="N")
    parser.add_argument("--seed", type=int, default=1, metavar="N")
    parser.add_argument("--of", dest="kind", choices=LIMITS)
    parser.add_argument("--memory", type=int, default=64, metavar="MB")
    parser.add_argument("--seconds", type=float, default=1, metavar="N")
    return parser.parse_args()


def main():
    given = arguments()
    kinds = [given.kind] if given.kind else list(LIMITS)
    tries = Tries(given.program, given.seed, kinds, Most(given.memory, given.seconds))
    for number in range(given.files):
        tries.run(number)
    tries.end()
    tries.summary.print()
    sys.exit(1 if tries.summary.differ else 0)


if __name__ == "__main__":
    main()
