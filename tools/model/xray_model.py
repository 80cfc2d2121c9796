"""A model of `xray`: how words are read, what each command does, and what is left on each status.

It is written from docs alone, and shares nothing with the program or its definitions. It is made to be read, not to be
fast. Other modules have its parts: image files (image_container, image_model), texts (asm_model), plain runs
(machine_model), scripts and replays (replay_model), runs beside a script (run_model), verdicts on what runs leave
(check_model), their orders (order_model), profiles of such runs (profile_model), traces (trace_model), reports on
them (report_model, flame_model, forms_model), and soaks (soak_inputs, soak_model). What `run` shows of its order is passed in.

worked_runs.py and worked_traces.py of tools/compare compare the model with results that were worked by hand.
"""
import dataclasses
import posixpath
import re

from . import check_model, import_model, map_model, order_model, profile_model, program_map_model, run_model, soak_model
from .asm_model import assembled
from .calls_model import calls_text
from .forms_model import basic_bytes, basic_trace, dump_text, events_text
from .image_container import RELATIVE_VERSION
from .image_model import Refused, image_of, sled_map_text
from .machine_model import WORD_64, Thread, plain_text
from .replay_model import NUMBER_LIMIT, RECORDED, WAITING, commands_of, replayed, runs_text, turns_of
from .report_model import account_text, names_of_image, rows_text, stack_text, yaml_text
from .trace_model import AuditLine, Header, audit_text, file_bytes, trace_of

IMAGE_LIMIT = 4_194_304
TEXT_LIMIT = 4_194_304
SCRIPT_LIMIT = 1_048_576
SCHEDULE_LIMIT = 16_777_216
TRACE_LIMIT = 67_108_864
AUDIT_LIMIT = 67_108_864
MAP_LIMIT = 67_108_864
LARGEST_64 = WORD_64 - 1

# ---- Words


class BadLine(Exception):
    """The words aren't a command."""


@dataclasses.dataclass(frozen=True)
class Numbers:
    """The range of a number, and the number if no word says it."""

    least: int
    most: int
    default: int | None

    def value_of(self, word):
        if not re.fullmatch(r"\+?[0-9]+", word) or not self.least <= int(word) <= self.most:
            raise BadLine
        return int(word)


class OneOf:
    """The numbers that an option's value may be. Without the option it is the first."""

    def __init__(self, *numbers):
        self.numbers = numbers
        self.default = numbers[0]

    def value_of(self, word):
        number = Numbers(0, LARGEST_64, None).value_of(word)
        if number not in self.numbers:
            raise BadLine
        return number


class Choice:
    """The words that an option's value may be. Without the option it is the first."""

    def __init__(self, *words):
        self.words = words
        self.default = words[0]

    def value_of(self, word):
        if word not in self.words:
            raise BadLine
        return word


class FileName:
    """An option whose value is the name of a file."""

    default = None

    def value_of(self, word):
        return word


@dataclasses.dataclass(frozen=True)
class Form:
    """How many files a command has at least and at most, which of them are outputs, and its options.

    Some words in the places of files are numbers. `numbers` has their ranges by these places.
    """

    files: range
    outputs: tuple
    options: dict
    numbers: dict = dataclasses.field(default_factory=dict)


RUN_OPTIONS = {
    "threads": Numbers(1, 16, 1),
    "fuel": Numbers(0, 1_000_000_000, 10_000_000),
    "passings": Numbers(0, 1_048_576, 1_048_576),
}
# Without `--wall` the wall time is that of the run.
TRACE_OPTIONS = {
    **RUN_OPTIONS,
    "buffer-size": Numbers(88, 1_048_576, 16_384),
    "buffer-max": Numbers(1, 1024, 100),
    "tick": Numbers(0, LARGEST_64, 1),
    "tsc": Numbers(0, LARGEST_64, 0),
    "frequency": Numbers(0, LARGEST_64, 0),
    "cpus": Numbers(1, 65_535, 1),
    "migrate": Numbers(1, 1_048_576, 1_048_576),
    "pid": Numbers(0, 2_147_483_647, 1),
    "wall": Numbers(0, LARGEST_64, None),
}
PROFILE_OPTIONS = {
    **{option: TRACE_OPTIONS[option] for option in (*RUN_OPTIONS, "tick", "tsc", "cpus", "migrate")},
    "nodes": Numbers(1, 262_144, 4096),
    "format": Choice("human", "flame", "svg"),
}
ACCOUNT_OPTIONS = {
    "sort": Choice("funcid", "count", "min", "med", "90p", "99p", "max", "sum"),
    "sortorder": Choice("asc", "desc"),
    "top": Numbers(0, NUMBER_LIMIT, None),
    "format": Choice("text", "csv"),
    "map": FileName(),
}
CALLS_OPTIONS = {
    **ACCOUNT_OPTIONS,
    "sort": Choice("end", "call", "start", "duration", "self", "depth"),
    "function": Numbers(0, NUMBER_LIMIT, None),
    "thread": Numbers(0, NUMBER_LIMIT, None),
    "least": Numbers(0, LARGEST_64, 0),
}

TRACE_AND_IMAGE = range(1, 3)
FORMS = {
    "asm": Form(range(2, 3), (1,), {"threshold": Numbers(0, NUMBER_LIMIT, 1), "map-version": OneOf(0, 2)}),
    "plain": Form(range(1, 2), (), RUN_OPTIONS),
    "extract": Form(range(1, 2), (), {}),
    "sim": Form(range(5, 6), (3, 4), TRACE_OPTIONS),
    "run": Form(range(4, 5), (2, 3), TRACE_OPTIONS),
    "account": Form(TRACE_AND_IMAGE, (), ACCOUNT_OPTIONS),
    "calls": Form(TRACE_AND_IMAGE, (), CALLS_OPTIONS),
    "stack": Form(TRACE_AND_IMAGE, (), {"format": Choice("human", "flame", "svg"), "map": FileName()}),
    "convert": Form(
        TRACE_AND_IMAGE,
        (),
        {"format": Choice("yaml", "trace-event", "basic"), "input": Choice("fdr", "basic"), "map": FileName()},
    ),
    "fdr-dump": Form(range(1, 2), (), {}),
    "import": Form(range(2, 3), (1,), {}),
    "map": Form(range(2, 3), (1,), {}),
    "check": Form(range(4, 5), (), {}),
    "order": Form(range(5, 6), (3, 4), {}),
    "soak": Form(range(1, 2), (), {}, {0: Numbers(0, LARGEST_64, None)}),
    "profile": Form(range(2, 3), (), PROFILE_OPTIONS),
}
# Commands that a program may lack.
LATER = ("sim", "run", "account", "calls", "stack", "convert", "fdr-dump", "check", "order", "import", "map", "soak", "profile")
# `sim` of a program that writes no traces: it only prints the state texts.
REPLAY = Form(range(3, 4), (), RUN_OPTIONS)


def forms_with(commands):
    """The commands of a program that has only these of `LATER`."""
    forms = {name: form for name, form in FORMS.items() if name in commands or name not in LATER}
    return {"sim": REPLAY, **forms}


def command_of(words, forms):
    """The command, its files and its options. The words are bytes. A number stands where the form has one for a file."""
    try:
        words = [word.decode("utf-8") for word in words]
    except UnicodeDecodeError:
        raise BadLine
    if not words or words[0] not in forms:
        raise BadLine
    command, form = words[0], forms[words[0]]
    files, given = [], {}
    left = iter(words[1:])
    for word in left:
        if word == "--":
            files += left
        elif len(word) > 1 and word.startswith("-"):
            name, is_joined, value = word.partition("=")
            option = name.removeprefix("--") if name.startswith("--") else None
            if option not in form.options or option in given:
                raise BadLine
            value = value if is_joined else next(left, None)
            if value is None or (not is_joined and len(value) > 1 and value.startswith("-")):
                raise BadLine
            given[option] = form.options[option].value_of(value)
        else:
            files.append(word)
    if len(files) not in form.files or any(files.count(files[at]) > 1 for at in form.outputs):
        raise BadLine
    if "map" in given and len(files) > 1:
        raise BadLine
    for at, values in form.numbers.items():
        files[at] = values.value_of(files[at])
    options = {option: given.get(option, values.default) for option, values in form.options.items()}
    if "buffer-max" in options:
        check_buffers(options["threads"], options["buffer-size"], options["buffer-max"])
    return command, files, options


def check_buffers(threads, size, most):
    """Each thread has a buffer, and all buffers together fit in a trace that can be read."""
    if most < threads or 32 + most * (16 + size) > TRACE_LIMIT:
        raise BadLine


# ---- What a command does


@dataclasses.dataclass(frozen=True)
class World:
    """What a run of the program finds: the bytes of names that can be read, what can't be written, and the wall time.

    For `run` it also finds what its threads show, and for `profile` the marks of its threads.
    """

    files: dict
    unwritable: frozenset = frozenset()
    is_output_full: bool = False
    wall: tuple = (0, 0)
    shown: list | None = None
    marks: list | None = None


@dataclasses.dataclass(frozen=True)
class Outcome:
    """What a run leaves: its status, the streams, and what it wrote to the files that it names."""

    status: int
    output: bytes
    error: bytes
    written: dict = dataclasses.field(default_factory=dict)


class Failed(Exception):
    """An input or an output fails. What was written before stays."""

    def __init__(self, status, reason, written=None):
        super().__init__(status, reason)
        self.status = status
        self.reason = reason
        self.written = written or {}


class Fell(Exception):
    """Something is wrong, but the text is printed."""

    def __init__(self, text, trouble):
        super().__init__(text, trouble)
        self.text = text
        self.trouble = trouble


def taken(world, name, kind, limit, read):
    """What an input reads as."""
    if name not in world.files:
        raise Failed(3, f"{name}: read fault")
    content = world.files[name]
    if len(content) > limit:
        raise Failed(6, f"{name}: too long")
    try:
        return read(content)
    except Refused as refused:
        raise Failed(2, f"{name}: {kind} {refused.reason}")


def taken_image(world, name):
    return taken(world, name, "image", IMAGE_LIMIT, image_of)


def plain_texts(image, options):
    """What `plain` prints."""
    text = ""
    for number in range(options["threads"]):
        thread = Thread(image, number + 1, options["fuel"], options["passings"])
        text += plain_text(thread, thread.run())
    return text


@dataclasses.dataclass(frozen=True)
class Traced:
    """What `sim` and `run` come to: the state texts, the trace file and the audit.

    The files of a `run` that shows nothing of its order are None.
    """

    states: str
    trace: bytes | None
    audit: bytes | None


def taken_script(world, name, image, threads):
    return taken(world, name, "script", SCRIPT_LIMIT, lambda text: commands_of(text, image, threads))


def replay(world, names, options):
    """What `sim` does with its inputs."""
    threads = options["threads"]
    image_name, script_name, schedule_name = names
    image = taken_image(world, image_name)
    commands = taken_script(world, script_name, image, threads)
    turns = taken(world, schedule_name, "schedule", SCHEDULE_LIMIT, lambda text: turns_of(text, threads))
    waiting = [command.line for command in commands if command.name in WAITING]
    if waiting:
        raise Failed(2, f"{script_name}: script Waits {waiting[0]}")
    return traced(world, options, *replayed(image, commands, turns, options))


def run_beside(world, names, options):
    """What `run` does with its inputs, if it shows what it does."""
    image_name, script_name = names
    image = taken_image(world, image_name)
    commands = taken_script(world, script_name, image, options["threads"])
    if world.shown is None:
        return Traced("?", None, None)
    return traced(world, options, *run_model.ran(image, commands, options, world.shown))


def traced(world, options, ended, buffers):
    """What is made of threads at their ends and of the buffers of what they recorded."""
    wall = world.wall if options["wall"] is None else (options["wall"], 0)
    trace = buffers.trace(Header(options["frequency"], options["buffer-size"]), wall, options["pid"])
    lines = [audit_line(*both) for both in zip(ended, buffers.threads)]
    return Traced(state_texts(ended), file_bytes(trace), audit_text(options, wall, lines).encode("ascii"))


def state_texts(ended):
    """What is printed of threads at their ends."""
    return "".join(f"{plain_text(thread, thread.end)}marks {runs_text(thread.marks)}\n" for thread in ended)


def profile(world, names, options):
    """What `profile` prints, if it shows the marks of its threads."""
    image_name, script_name = names
    image = taken_image(world, image_name)
    commands = taken_script(world, script_name, image, options["threads"])
    if not world.marks:
        return "?"
    ended, trouble, rows = profile_model.profiled(image, commands, options, world.marks)
    states = state_texts(ended)
    if trouble is not None:
        raise Fell(states, f"profile: {trouble}")
    before = f"<!--\n{states}-->\n" if options["format"] == "svg" else states
    return before + rows_text(rows, names_of_image(image), options)


def check(world, names):
    """What `check` prints. Its inputs are taken in another order than that of their names."""
    image_name, script_name, trace_name, audit_name = names
    image = taken_image(world, image_name)
    audit = taken(world, audit_name, "audit", AUDIT_LIMIT, check_model.audit_of)
    commands = taken_script(world, script_name, image, audit.options["threads"])
    trace = taken(world, trace_name, "trace", TRACE_LIMIT, lambda content: content)
    return check_model.verdict(image, commands, audit, trace) + "\n"


def order(world, names):
    """The files that `order` writes. Its inputs are taken in another order than that of their names."""
    image_name, script_name, audit_name, free_name, schedule_name = names
    image = taken_image(world, image_name)
    audit = taken(world, audit_name, "audit", AUDIT_LIMIT, check_model.audit_of)
    commands = taken_script(world, script_name, image, audit.options["threads"])
    try:
        schedule = order_model.schedule_text(image, commands, audit)
    except Refused as refused:
        raise Failed(2, f"{audit_name}: audit {refused.reason}")
    return {free_name: order_model.free_text(world.files[script_name], commands), schedule_name: schedule}


def audit_line(thread, recorded):
    marks = runs_text(thread.marks)
    count = sum(mark in RECORDED for mark in thread.marks)
    return AuditLine(thread.end, thread.passings, count, len(recorded.segments), recorded.lost, marks)


def convert_text(trace, names, options):
    """What `convert` prints."""
    match options["format"]:
        case "yaml":
            return yaml_text(trace, names, options)
        case "trace-event":
            return events_text(trace, names)
        case "basic":
            return basic_bytes(trace)


REPORTS = {"account": account_text, "calls": calls_text, "stack": stack_text, "convert": convert_text}


def taken_names(world, images, map_name):
    """The names that an image or a sled map gives to the ids of functions, if there is one of them."""
    if map_name is not None:
        return taken(world, map_name, "map", MAP_LIMIT, map_model.names_of)
    return names_of_image(taken_image(world, images[0])) if images else {}


def report(world, command, names, options):
    """What a report on a trace prints, with an image or a sled map that names its functions or without one."""
    trace_name, *rest = names
    read = basic_trace if options.get("input") == "basic" else trace_of
    trace = taken(world, trace_name, "trace", TRACE_LIMIT, read)
    function_names = taken_names(world, rest, options["map"])
    try:
        return REPORTS[command](trace, function_names, options)
    except Refused as refused:
        raise Failed(2, f"{trace_name}: trace {refused.reason}")


def results(command, names, options, world):
    """The bytes of a command's outputs by their names, in order, and its text."""
    match command:
        case "asm":
            text_name, image_name = names
            relative = options["map-version"] == RELATIVE_VERSION
            image = taken(world, text_name, "text", TEXT_LIMIT, lambda text: assembled(text, options["threshold"], relative))
            return {image_name: image}, ""
        case "plain":
            return {}, plain_texts(taken_image(world, names[0]), options)
        case "extract":
            return {}, sled_map_text(taken_image(world, names[0]))
        case "sim":
            defaults = {option: values.default for option, values in TRACE_OPTIONS.items()}
            comes = replay(world, names[:3], {**defaults, **options})
            return dict(zip(names[3:], [comes.trace, comes.audit])), comes.states
        case "run":
            comes = run_beside(world, names[:2], options)
            return dict(zip(names[2:], [comes.trace, comes.audit])), comes.states
        case "check":
            return {}, check(world, names)
        case "order":
            return order(world, names), ""
        case "fdr-dump":
            return {}, taken(world, names[0], "trace", TRACE_LIMIT, dump_text)
        case "import":
            log_name, trace_name = names
            log = taken(world, log_name, "log", TRACE_LIMIT, import_model.logged)
            return {trace_name: file_bytes(import_model.trace_made(log))}, import_model.facts(log)
        case "map":
            program_name, map_name = names
            text, facts = taken(world, program_name, "program", program_map_model.LIMIT, program_map_model.map_of)
            return {map_name: text}, program_map_model.facts_text(facts)
        case "soak":
            return {}, soak_model.summary(names[0])
        case "profile":
            return {}, profile(world, names, options)
        case _:
            return {}, report(world, command, names, options)


def is_same_file(one, other):
    """Whether two paths lead to one file, if there are no links. Devices aren't compared."""
    return posixpath.normpath(one) == posixpath.normpath(other) and not one.startswith("/dev/")


def done(words, world, forms):
    """What a run leaves if nothing fails."""
    command, names, options = command_of(words, forms)
    status, error = 0, b""
    try:
        outputs, text = results(command, names, options, world)
    except Fell as fell:
        outputs, text = {}, fell.text
        status, error = 7, f"xray: {fell.trouble}\n".encode()
    used = [name for at, name in enumerate(names) if outputs and at not in forms[command].outputs]
    written = {}
    for name, content in outputs.items():
        if name in world.unwritable or any(is_same_file(name, other) for other in used):
            raise Failed(4, f"{name}: write fault", written)
        written[name] = content
        used.append(name)
    if world.is_output_full and text:
        raise Failed(4, "output: write fault", written)
    text = text if isinstance(text, bytes) else text.encode("utf-8", "surrogateescape")
    return Outcome(status, text, error, written)


def outcome(words, world, forms=FORMS):
    """What a run of the program leaves."""
    try:
        return done(words, world, forms)
    except BadLine:
        return Outcome(1, b"", b"xray: bad command line\n")
    except Failed as failed:
        return Outcome(failed.status, b"", f"xray: {failed.reason}\n".encode(), failed.written)
