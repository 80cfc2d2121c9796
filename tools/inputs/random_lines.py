"""Random command lines over a few small files, for `random_runs.py --lines`.

The inputs are sound, so the outcome of a line depends only on its words: each option at the ends of its range and one
past them, in all spellings; options twice, of other commands, shortened, and without a value; names that look like
options; `--`; seeds, and words that aren't seeds.
"""
import functools

from command_line import ROOT
from model import xray_model as model
from model.asm_model import assembled

from . import random_cases

TEXT = (ROOT / "examples/asm/call.asm").read_bytes()
NAMES = {
    "asm": [b"x", b"new"],
    "plain": [b"i"],
    "extract": [b"i"],
    "sim": [b"i", b"s", b"c", b"new", b"new 2"],
    "run": [b"i", b"s", b"new", b"new 2"],
    "account": [b"t", b"i"],
    "calls": [b"t", b"i"],
    "stack": [b"t", b"i"],
    "convert": [b"t", b"i"],
    "fdr-dump": [b"t"],
    "import": [b"t", b"new"],
    "map": [b"p", b"new"],
    "check": [b"i", b"s", b"t", b"a"],
    "order": [b"i", b"s", b"a", b"new", b"new 2"],
    "soak": [b"1"],
    "profile": [b"i", b"s"],
}
OTHER_NAMES = [b"i", b"t", b"m", b"new", b"./new", b"-", b"a=b", b"a b", b"", b"--", b"-x", b"--fuel", b"--fuel=3", b"help",
               b"missing"]  # fmt: skip
WRONG = [b"", b"+", b"-1", b"++1", b"+-1", b" 1", b"1 ", b"0x1", b"1e3", b"1.0", b"1=1", b"=", b"-", b"--", b"one", b"1_000",
         str(1 << 64).encode(), str(10**40).encode(), "\u0661".encode(), b"human ", b"Text"]  # fmt: skip
EXTRA = [b"--", b"-", b"", b"-f", b"-fuel=3", b"---fuel=3", b"--=", b"--=3", b"--fuel", b"--threads=", b"--help", b"-h", b"--version",
         b"-V", b"help", b"--thread=2", b"--buffer=88", b"--no-fuel", b"--fuel-", b"--Fuel=3", b"--fuel\xcc\x81=3", b"\xff"]  # fmt: skip
OTHER_COMMANDS = [b"", b"help", b"Plain", b"plain ", b"--", b"-", b"--fuel=3", b"pla", b"version"]


@functools.cache
def files():
    """The inputs: an image, a script, a schedule, a text, a sled map, the first bytes of a compiled program, and the trace
    and the audit of a replay of the image."""
    image = assembled(TEXT, 1)
    sled_map = model.sled_map_text(model.image_of(image)).encode()
    inputs = {b"i": image, b"s": b"go\n", b"c": b"", b"x": TEXT, b"m": sled_map, b"p": b"\x7FELF"}
    world = model.World({name.decode(): content for name, content in inputs.items()})
    traced = model.outcome([b"sim", b"i", b"s", b"c", b"t", b"a"], world)
    return {**inputs, b"t": traced.written["t"], b"a": traced.written["a"]}


def value(draw, values):
    """A value of an option, mostly one that it may have."""
    if draw.random() < 0.03:
        return draw.choice(WRONG)
    if isinstance(values, model.Choice):
        return draw.choice(values.words).encode()
    if isinstance(values, model.FileName):
        return b"m" if draw.random() < 0.8 else draw.choice(OTHER_NAMES)
    if isinstance(values, model.OneOf):
        return random_cases.spelled(draw, draw.choice([*values.numbers, max(values.numbers) + 1])).encode()
    inside = [values.least, values.most, values.default or 0, draw.randint(values.least, min(values.most, 2000))]
    number = draw.choice([values.least - 1, values.most + 1]) if draw.random() < 0.03 else draw.choice(inside)
    return random_cases.spelled(draw, max(number, 0)).encode()


def seed(draw):
    """A word in the place of a seed."""
    if draw.random() < 0.2:
        return draw.choice(WRONG)
    return random_cases.spelled(draw, draw.choice(random_cases.SEEDS)).encode()


def line_case(draw, forms):
    """A command line over the files."""
    command = draw.choice(list(forms))
    form = forms[command]
    names = NAMES[command][: draw.choice(list(form.files))]
    for at in form.numbers:
        names[at] = seed(draw)
    for at in range(len(names)):
        if draw.random() < 0.06:
            names[at] = draw.choice(OTHER_NAMES)
    options = [(name, values) for name, values in form.options.items() if draw.random() < 0.3]
    if draw.random() < 0.04:
        others = draw.choice(list(forms.values())).options
        options += draw.sample(list(others.items()), k=min(len(others), 1))
    items = [[name] for name in names]
    for name, values in options:
        words = [word if isinstance(word, bytes) else word.encode() for word in (f"--{name}", value(draw, values))]
        items.insert(draw.randint(0, len(items)), words if draw.random() < 0.5 else [b"=".join(words)])
    words = [word for item in items for word in item]
    if draw.random() < 0.15:
        words.insert(draw.randint(0, len(words)), draw.choice(EXTRA))
    if draw.random() < 0.04 and words:
        words.pop(draw.randrange(len(words)))
    if draw.random() < 0.04 and words:
        words.insert(draw.randint(0, len(words)), draw.choice(words))
    first = draw.choice(OTHER_COMMANDS) if draw.random() < 0.02 else command.encode()
    return random_cases.Case([first, *words] if draw.random() < 0.998 else [], dict(files()), unwritable=(b"",))
