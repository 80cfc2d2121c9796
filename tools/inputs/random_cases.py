"""Random runs of `xray`: command lines, their inputs as files, pipes or folders, and outputs that may refuse everything."""
import dataclasses

from model import image_model, xray_model
from model.forms_model import basic_bytes
from model.trace_model import trace_of

from .audit_damages import DAMAGES, Left, Unfit
from .random_images import assembled_draft, calling_draft, random_image, units_draft
from .random_logs import random_log as random_runtime_log
from .random_maps import random_map
from .random_scripts import live_script, random_schedule, random_script
from .random_texts import small_text
from .random_traces import other_file, random_trace


@dataclasses.dataclass
class Case:
    """The words, the files that exist before, what standard input has, and what can't be written."""

    words: list
    files: dict
    piped: bytes | None = None
    unwritable: tuple = ()
    is_output_full: bool = False


# ---- Command lines and names

NAMES = [
    b"i", b"image.xrim", b"./i", b"with space", "ungew\u00f6hnlich".encode(), b"a=b", b"-", b"new\nline", b"i#", b"n" * 255,
]  # fmt: skip
STRANGE_NAMES = [b"--fuel", b"-x", b"--", b"--threads=3"]  # These need a word `--` before them.
MISSING = [b"missing", b"", b"folder", b"folder/", b"i/x", b"no/such", b"n" * 256, b"d/" * 2500 + b"x", b"/dev/null/x"]

LARGEST_32, LARGEST_64 = (1 << 32) - 1, (1 << 64) - 1
# Only the fuel makes the model end soon.
FUELS = [0, 1, 2, 3, 10, 100, 1000, 1000, 1000, 3000, 3000, 3000]
PASSINGS = [0, 1, 2, 3, 50, 1_048_576, 1_048_576, 1_048_576]
# Seeds that the model replays soon, and both ends of their range.
SEEDS = [0, 1, 2, 5, 14, 19, 20, 23, LARGEST_32, LARGEST_32 + 1, (1 << 63) - 1, 1 << 63, LARGEST_64 - 1, LARGEST_64]
WRONG_VALUES = [
    "", "x", "-1", "1.0", "0x1", "1_0", "+", "++1", " 1", "1 ", "1000000001", "18446744073709551616", "17", "\u0661",
]  # fmt: skip
# The values of the options of a trace, how often each option comes, and values that are refused.
TRACE_VALUES = {
    "tick": (0.3, [0, 1, 2, 1000, LARGEST_32, LARGEST_32 + 1, 1 << 63, LARGEST_64]),
    "tsc": (0.3, [0, 1, 5, LARGEST_32 - 3, LARGEST_32 + 1, LARGEST_64 - 5, LARGEST_64]),
    "frequency": (0.2, [0, 1, 2_500_000_000, LARGEST_64]),
    "cpus": (0.3, [1, 2, 3, 16, 65_535]),
    "migrate": (0.3, [1, 2, 3, 10, 1_048_576]),
    "pid": (0.2, [0, 1, 4711, 2_147_483_647]),
    "wall": (0.9, [0, 1, 1_700_000_000, LARGEST_64]),
}
PROFILE_VALUES = [name for name in TRACE_VALUES if name in ("tick", "tsc", "cpus", "migrate")]
NODES = [1, 2, 3, 4, 5, 8, 20, 100, 4096, 262_144]
WRONG_PROFILE_WORDS = [
    "--nodes=0", "--nodes=262145", "--nodes=", "--nodes", "--node=1", "--format=csv", "--format=text", "--format=Flame",
    "--buffer-size=88", "--buffer-max=16", "--frequency=1", "--pid=1", "--wall=1", "--sort=count",
]  # fmt: skip
WRONG_TRACE_WORDS = [
    "--buffer-size=87", "--buffer-size=1048577", "--buffer-max=0", "--buffer-max=1025", "--cpus=0", "--cpus=65536",
    "--migrate=0", "--migrate=1048577", "--pid=2147483648", "--wall=18446744073709551616", "--tick=18446744073709551616",
    "--tsc=-1", "--buffer-size=1048576", "--size=88",
]  # fmt: skip
SIZES = [88, 88, 89, 95, 96, 97, 104, 111, 112, 120, 200, 200, 1000, 16_384]
ROW_VALUES = {"sortorder": ["asc", "desc"], "top": [0, 1, 2, 3, 10, LARGEST_32]}
REPORT_VALUES = {
    "account": {"sort": ["funcid", "count", "min", "med", "90p", "99p", "max", "sum"], **ROW_VALUES},
    "calls": {
        "sort": ["end", "call", "start", "duration", "self", "depth"],
        "function": [0, 1, 1, 2, 2, 3, LARGEST_32],
        "thread": [0, 1, 1, 2, 2, 3, LARGEST_32],
        "least": [0, 1, 2, 10, 1000, LARGEST_32 + 1, LARGEST_64],
        **ROW_VALUES,
    },
}
# Options that leave rows out.
SELECTIONS = ("function", "thread", "least")
FORMATS = {
    "account": ["text", "csv"],
    "calls": ["text", "csv"],
    "stack": ["human", "flame", "svg"],
    "convert": ["yaml", "trace-event", "basic"],
    "profile": ["human", "flame", "svg"],
}
WRONG_REPORT_WORDS = [
    "--sort=func", "--sort", "--sort=", "--sort=Count", "--sortorder=dsc", "--sortorder=ascending", "--top=-1",
    "--top=4294967296", "--sort=durations", "--sort=own", "--function=4294967296", "--function=f", "--thread=-1", "--least=-1",
    "--least=18446744073709551616",
    "--format=json", "--format=yaml", "--format=text", "--format=flame", "--instr_map=i", "-instr_map=i", "--threads=1",
    "--format", "--top",
]  # fmt: skip


def spelled(draw, value):
    return draw.choice(["", "", "", "+"]) + "0" * draw.choice([0, 0, 0, 1, 30]) + str(value)


def option(draw, name, value):
    """An option's words."""
    return draw.choice([[f"--{name}", value], [f"--{name}={value}"]])


def run_options(draw, threads):
    options = [option(draw, "fuel", spelled(draw, draw.choice(FUELS)))]
    if draw.random() < 0.4:
        options.append(option(draw, "passings", spelled(draw, draw.choice(PASSINGS))))
    if threads > 1 or draw.random() < 0.2:
        options.append(option(draw, "threads", spelled(draw, threads)))
    return options


def trace_options(draw, threads):
    """The options of a replay that writes a trace, rarely with one that is refused."""
    options = run_options(draw, threads)
    if draw.random() < 0.7:
        options.append(option(draw, "buffer-size", spelled(draw, draw.choice(SIZES))))
    if draw.random() < 0.6:
        mostly = [threads, threads, threads + 1, threads + 1, threads + 2, threads + 5, 100, 1024]
        most = max(1, threads - 1) if draw.random() < 0.04 else draw.choice(mostly)
        options.append(option(draw, "buffer-max", spelled(draw, most)))
    for name, (share, values) in TRACE_VALUES.items():
        if draw.random() < share:
            options.append(option(draw, name, spelled(draw, draw.choice(values))))
    if draw.random() < 0.04:
        options.append([draw.choice(WRONG_TRACE_WORDS)])
    return options


def profile_options(draw, threads):
    """The options of a profile, rarely with one that is refused."""
    options = run_options(draw, threads)
    if draw.random() < 0.6:
        options.append(option(draw, "nodes", spelled(draw, draw.choice(NODES))))
    if draw.random() < 0.6:
        options.append(option(draw, "format", draw.choice(FORMATS["profile"])))
    for name in PROFILE_VALUES:
        share, values = TRACE_VALUES[name]
        if draw.random() < share:
            options.append(option(draw, name, spelled(draw, draw.choice(values))))
    if draw.random() < 0.04:
        options.append([draw.choice(WRONG_PROFILE_WORDS)])
    return options


def report_options(draw, command):
    options = [option(draw, "format", draw.choice(FORMATS[command]))] if draw.random() < 0.7 else []
    for name, values in REPORT_VALUES.get(command, {}).items():
        if draw.random() < (0.2 if name in SELECTIONS else 0.5):
            value = draw.choice(values)
            options.append(option(draw, name, value if isinstance(value, str) else spelled(draw, value)))
    if command == "convert" and draw.random() < 0.4:
        options.append(option(draw, "input", draw.choice(["fdr", "basic", "basic"])))
    if draw.random() < 0.04:
        options.append([draw.choice(WRONG_REPORT_WORDS)])
    return options


def random_options(draw, command, threads, writes_traces):
    match command:
        case "asm":
            values = {"threshold": [0, 1, 2, 3, 5, LARGEST_32], "map-version": [0, 2, 2, 2, 1, 3]}
            given = [name for name in values if draw.random() < 0.7]
            return [option(draw, name, spelled(draw, draw.choice(values[name]))) for name in given]
        case "run":
            return trace_options(draw, threads)
        case "profile":
            return profile_options(draw, threads)
        case "sim" if writes_traces:
            return trace_options(draw, threads)
        case "plain" | "sim":
            return run_options(draw, threads)
        case "account" | "calls" | "stack" | "convert":
            return report_options(draw, command)
    return []


def random_words(draw, command, names, options):
    """A command line that says the command with these names and options, perhaps with a fault."""
    needs_dashes = [name in STRANGE_NAMES for name in names]
    items = [[name] for name in names]
    if any(needs_dashes):
        first = needs_dashes.index(True)
        items, behind = items[:first], [b"--", *names[first:]]
    else:
        behind = []
        if draw.random() < 0.1:
            cut = draw.randint(0, len(names))
            items, behind = items[:cut], [b"--", *names[cut:]]
    for words in options:
        items.insert(draw.randint(0, len(items)), [word.encode() for word in words])
    words = [command.encode(), *[word for item in items for word in item], *behind]
    if draw.random() < 0.06:
        wrong = faulty(draw, words)
        # A pipe that is read twice has nothing the second time, and the model doesn't know that.
        return wrong if wrong.count(STDIN) <= 1 else words
    return words


def faulty(draw, words):
    at = draw.randint(0, len(words))
    extra = draw.choice(
        ["--help", "-h", "--version", "-V", "--thread", "--threads", "--threads=1", "--fuel", "--threshold=1", "-", "x", "",
         "--", "---", "--=", "--fuel=5", "--passings=1048577", "--threads=0", "--threads=17", "-n", "-\u00e9"]
    ).encode()  # fmt: skip
    match draw.randrange(6):
        case 0:
            return words[:at] + [extra] + words[at:]
        case 1:
            return words[: at - 1] + words[at:] if at else []
        case 2:
            return [draw.choice([b"Plain", b"", b"run", b"account", b"plain ", b"--", b"help"]), *words[1:]]
        case 3:
            return words + draw.choice([[b"\xff"], [b"a\x80"], [b"--fuel=\xc0\xaf"]])
        case 4:
            wrong = option(draw, draw.choice(["fuel", "threads"]), draw.choice(WRONG_VALUES))
            return words + [word.encode() for word in wrong]
        case 5:
            return words + words[1:]


# ---- The cases

KINDS = {
    "plain": [assembled_draft, units_draft, units_draft],
    "extract": [assembled_draft, units_draft],
    "sim": [calling_draft, calling_draft, calling_draft, calling_draft, assembled_draft, units_draft],
    "names": [calling_draft],
}
STDIN = b"/dev/stdin"
UNWRITABLE = [b"", b"folder", b"no/such", b"n" * 256, b"/dev/full", b"folder/"]
INPUT_NAMES = [b"i", b"s", b"c", b"d"]


def id_count(file):
    """How many function ids an image has, or 1 if it is refused."""
    try:
        return max(image_model.image_of(file).ids, default=0)
    except image_model.Refused:
        return 1


def random_log(draw):
    """The basic log of a random trace, perhaps damaged, or the trace if it has none."""
    content = random_trace(draw, damaged_share=0)
    try:
        log = basic_bytes(trace_of(content))
    except image_model.Refused:
        return content
    return other_file(draw, log) if draw.random() < 0.5 else log


def random_contents(draw, command, threads):
    """The bytes of a command's inputs, in order."""
    match command:
        case "asm":
            return [small_text(draw)]
        case "sim":
            image = random_image(draw, KINDS["sim"], 0.12)
            return [image, random_script(draw, id_count(image), threads), random_schedule(draw, threads)]
        case "run" | "profile":
            image = random_image(draw, KINDS["sim"], 0.04)
            return [image, live_script(draw, id_count(image), threads)]
        case "check":
            return check_contents(draw, threads)
        case "order":
            image, script, _, audit = check_contents(draw, threads)
            return [image, script, audit]
        case "account" | "calls" | "stack" | "convert":
            images = [random_image(draw, KINDS["names"], 0.2)] if draw.random() < 0.4 else []
            return [random_log(draw) if command == "convert" and draw.random() < 0.3 else random_trace(draw), *images]
        case "fdr-dump":
            return [random_trace(draw)]
        case "map":
            return [draw.choice([b"", b"\x7FELF", b"\x7FELF\2\1" + bytes(draw.randrange(80)), b"#!/bin/sh\n"])]
        case "import":
            return [random_runtime_log(draw)]
    return [random_image(draw, KINDS[command], 0.6)]


def replayed_contents(draw, threads):
    """An image, a script that doesn't wait, and the trace and the audit of a replay."""
    while True:
        image = random_image(draw, KINDS["sim"], 0)
        files = {"i": image, "s": random_script(draw, id_count(image), threads), "c": random_schedule(draw, threads)}
        size, most = draw.choice(SIZES), threads + draw.choice([0, 1, 2, 50])
        options = f"--fuel=1000 --threads={threads} --buffer-size={size} --buffer-max={most}"
        comes = xray_model.outcome(f"sim i s c t a {options}".encode().split(), xray_model.World(files))
        if comes.status == 0:
            return Left(files["i"], files["s"], comes.written["t"], comes.written["a"])


def check_contents(draw, threads):
    """The inputs of `check`: what a replay leaves, mostly with a damage."""
    left = replayed_contents(draw, threads)
    if draw.random() < 0.7:
        damage = draw.choice(list(DAMAGES.values()))
        try:
            left = damage(draw, left, replayed_contents(draw, draw.choice([threads, 1, 2])))
        except (Unfit, image_model.Refused):
            pass
    return [left.image, left.script, left.trace, left.audit]


def soak_case(draw):
    """A run of `soak`, which has no files."""
    words = random_words(draw, "soak", [spelled(draw, draw.choice(SEEDS)).encode()], [])
    return Case(words, {}, is_output_full=draw.random() < 0.05)


def random_case(draw, forms, only=None):
    """A random run of a program that has these commands, or of one of them."""
    command = only or draw.choice([*forms, "sim", "sim"])
    if command == "soak":
        return soak_case(draw)
    threads = draw.choice([1, 1, 1, 2, 3, 16])
    contents = random_contents(draw, command, threads)
    names = draw.sample([*NAMES, *STRANGE_NAMES], len(contents))
    if len({name.removeprefix(b"./") for name in names}) < len(names):
        names = INPUT_NAMES[: len(names)]
    piped = None
    if draw.random() < 0.1:
        at = draw.randrange(len(names))
        names[at] = STDIN
        piped = contents[at]
    case = Case([], dict(zip(names, contents)), piped, is_output_full=draw.random() < 0.05)
    if draw.random() < 0.06:
        at = draw.randrange(len(names))
        missing = draw.choice(MISSING)
        case.files.pop(names[at])
        names[at] = missing
    for _ in forms[command].outputs:
        names.append(random_output(draw, case, names))
    options = random_options(draw, command, threads, writes_traces=command == "sim" and bool(forms["sim"].outputs))
    if "map" in forms[command].options and draw.random() < (0.3 if len(names) == 1 else 0.03):
        options.append(map_option(draw, case))
    case.words = random_words(draw, command, names, options)
    return case


def map_option(draw, case):
    """The words of `--map`, with a sled map, or with a name that can't be read."""
    if draw.random() < 0.06:
        return option(draw, "map", draw.choice(["missing", "folder", ""]))
    case.files[b"map.yaml"] = random_map(draw)
    return option(draw, "map", "map.yaml")


def random_output(draw, case, names):
    """A name for an output: of a new file, of one that exists, of another file of the command, or one that can't be written."""
    match draw.randrange(24):
        case 0:
            return draw.choice(names)
        case 1 | 2:
            name = draw.choice(UNWRITABLE)
            case.unwritable += (name,)
            return name
        case 3 | 4 | 5 | 6:
            name = draw.choice([b"old", b"older"])
            case.files[name] = draw.randbytes(draw.choice([0, 10, 1000]))
            return name
    new = [b"new", b"folder/new", b"new image", b"./new", b"t", b"folder/a"]
    return draw.choice([name for name in new if name not in names])
