"""A model of replays: scripts and schedules, the words that the patcher stores, and threads that load them.

It is written from docs/formats and docs/commands alone, and shares nothing with the program or its definitions.
"""
import collections
import dataclasses
import itertools
import math
import re

from . import image_model, trace_model
from .image_model import ENTRY_ARGS, Refused
from .machine_model import WORD_64, Ended, Thread
from .text_model import lines_of, words_of
from .trace_model import Buffers, Event

LINE_LIMIT = 1_048_576
COMMAND_LIMIT = 1024
NUMBER_LIMIT = 4_294_967_295

# ---- Lines and numbers of scripts and schedules


def word_lines(text):
    """The lines of a text as their words. None for a line with a byte that is allowed only in comments."""
    return [words_of(line) for line in lines_of(text)]


def number_of(word):
    value = int(word) if re.fullmatch(r"[0-9]+", word) else -1
    return value if value <= NUMBER_LIMIT else -1


# ---- Scripts

# The commands, with what they take.
COMMANDS = {
    "patch": "", "unpatch": "", "patch_function": "I", "unpatch_function": "I", "set_handler": "", "remove_handler": "",
    "set_arg_handler": "", "remove_arg_handler": "",
    "init": "", "finalize": "", "go": "", "hold": "TN", "release": "T", "await": "TN",
}  # fmt: skip
WAITING = ("hold", "release", "await")


@dataclasses.dataclass(frozen=True)
class Command:
    line: int
    name: str
    numbers: tuple

    @property
    def thread(self):
        return self.numbers[0]


class ScriptReader:
    """The commands of a script's first lines, with what they have done so far."""

    def __init__(self, ids, threads):
        self.ids = ids
        self.threads = threads
        self.commands = []
        self.has_started = False
        self.holds = {}
        self.released = set()
        self.log = 0

    def read(self, line, words):
        """Takes a line with words, or one with a bad byte, whose words are None."""
        if len(self.commands) == COMMAND_LIMIT:
            raise Refused("Limit", line)
        command = self.command(line, words)
        fault = self.fault(command)
        if fault is not None:
            raise Refused(fault, line)
        self.do(command)
        self.commands.append(command)

    def command(self, line, words):
        name, *behind = words or [""]
        numbers = tuple(number_of(word) for word in behind)
        if name not in COMMANDS or len(behind) != len(COMMANDS[name]) or -1 in numbers:
            raise Refused("Syntax", line)
        return Command(line, name, numbers)

    def fault(self, command):
        """Why a command may not follow those before it: the first of the rows that applies."""
        match command.name, command.numbers:
            case ("patch_function" | "unpatch_function"), (number,) if not 1 <= number <= self.ids:
                return "Function"
            case ("hold" | "release" | "await"), (thread, *_) if not 1 <= thread <= self.threads:
                return "Thread"
            case ("go" | "hold"), _ if self.has_started:
                return "Go"
            case ("release" | "await"), _ if not self.has_started:
                return "Go"
            case "hold", (thread, _) if thread in self.holds:
                return "Hold"
            case "release", (thread,) if thread not in self.holds or thread in self.released:
                return "Hold"
            case "init", _ if self.log != 0:
                return "Log"
            case "finalize", _ if self.log != 2:
                return "Log"
            case "await", (thread, count) if self.is_held(thread) and count > self.holds[thread]:
                return "SelfWait"
        return None

    def is_held(self, thread):
        return thread in self.holds and thread not in self.released

    def do(self, command):
        match command.name, command.numbers:
            case "go", _:
                self.has_started = True
            case "hold", (thread, passing):
                self.holds[thread] = passing
            case "release", (thread,):
                self.released.add(thread)
            case "init", _:
                self.log = 2
            case "finalize", _:
                self.log = 4


def commands_of(text, image, threads):
    """The commands of a script, which is read for an image and a number of threads."""
    lines = word_lines(text)
    reader = ScriptReader(max(image.ids, default=0), threads)
    for line, words in enumerate(lines, start=1):
        if words != []:
            reader.read(line, words)
    if not reader.has_started:
        raise Refused("Go", len(lines) + 1)
    if any(reader.is_held(thread) for thread in reader.holds):
        raise Refused("Hold", len(lines) + 1)
    return reader.commands


# ---- Words of the code, and what the patcher stores in them

HEAD, ID, OPCODE, OFFSET = range(4)
PATCHED_HEAD = 0xBA41
ENTRY_HEAD = 0x09EB
EXIT_HEAD = 0x2EC3
# What unpatching leaves of an exit sled that was patched before.
RETURN_HEAD = 0xBAC3
INITIALIZED = 2

# The marks of passings that record an event: with its argument, or without.
RECORDED = "a+"
# The actions of events without an argument, by the kinds of their sleds.
PLAIN_ACTIONS = {
    image_model.ENTRY: trace_model.ENTRY,
    image_model.EXIT: trace_model.EXIT,
    image_model.TAIL: trace_model.TAIL_EXIT,
    image_model.ENTRY_ARGS: trace_model.ENTRY,
}


class Words:
    """The words of an image and of this many threads, and how a script changes them.

    The words of the sleds come first, then the handler's and the log's, two of each thread, and the argument handler's.
    """

    def __init__(self, image, threads):
        self.sleds = image.sleds
        self.ids = image.ids
        self.patched = [
            [PATCHED_HEAD, number, self.opcode(sled), self.distance(image, sled, entry)]
            for number, sled, entry in zip(image.ids, image.sleds, image.entries)
        ]
        self.handler = 4 * len(self.sleds)
        self.state = self.handler + 1
        self.arg_handler = self.state + 1 + 2 * threads
        self.values = []
        for sled in self.sleds:
            self.values += [ENTRY_HEAD if sled.name == "entry" else EXIT_HEAD, 0x841F0F66, 0, sled.operands[0]]
        self.values += [0] * (self.arg_handler + 1 - self.handler)

    @staticmethod
    def opcode(sled):
        return 0xE8 if sled.name == "entry" else 0xE9

    @staticmethod
    def distance(image, sled, entry):
        return (image.trampolines[entry.kind] - (image.base + sled.end)) % (1 << 32)

    def stores(self, commands):
        """The micro steps of a script that doesn't wait, as (word, value), each made before the next one is given."""
        for command in commands:
            for word, value in self.stores_of(command):
                self.values[word] = value
                yield word, value

    def stores_of(self, command):
        match command.name, command.numbers:
            case ("patch" | "patch_function"), function:
                for sled in self.sleds_of(function):
                    for part in (ID, OPCODE, OFFSET, HEAD):
                        yield 4 * sled + part, self.patched[sled][part]
            case ("unpatch" | "unpatch_function"), function:
                for sled in self.sleds_of(function):
                    yield 4 * sled, self.unpatched_head(sled)
            case "set_handler", _:
                yield self.handler, 1
            case "remove_handler", _:
                yield self.handler, 0
            case "set_arg_handler", _:
                yield self.arg_handler, 1
            case "remove_arg_handler", _:
                yield self.arg_handler, 0
            case "init", _:
                yield self.state, 1
                yield self.state, 2
            case "finalize", _:
                yield self.state, 3
                yield self.state, 4

    def sleds_of(self, function):
        """The sleds of a function id, or all of them."""
        return [sled for sled, number in enumerate(self.ids) if not function or number == function[0]]

    def unpatched_head(self, sled):
        """What unpatching stores in a head: at an exit sled the low byte is that of a return, and the high byte stays."""
        if self.sleds[sled].name == "entry":
            return ENTRY_HEAD
        return EXIT_HEAD if self.values[4 * sled] == EXIT_HEAD else RETURN_HEAD


# ---- Threads whose sleds are patched while they run


class Torn(Exception):
    """A passing has read a patched head, and then something else than a patched sled."""


class TracedThread(Thread):
    """A thread that loads the words of the sleds that it passes. `record` is called with what it records."""

    def __init__(self, image, number, options, words, record):
        super().__init__(image, number, options["fuel"], options["passings"])
        self.options = options
        self.words = words
        self.record = record
        self.sled_numbers = {sled.place: number for number, sled in enumerate(words.sleds)}
        self.marks = []
        self.end = None
        self.course = self.loads()
        self.load()

    def load(self):
        """Makes the load that the thread is before, and goes on up to the next one or to its end."""
        next(self.course, None)

    def loads(self):
        """Stops before each load, and at the end."""
        try:
            while True:
                sled = self.sled_numbers.get(self.place)
                if sled is not None and self.passings < self.passing_limit:
                    self.marks.append((yield from self.passing(sled)))
                    if self.marks[-1] in RECORDED:
                        self.record(self.number, self.event(sled, self.marks[-1]))
                self.step()
        except Ended as ended:
            self.end = str(ended)

    def passing(self, sled):
        """The mark of a passing."""
        values = self.words.values
        yield
        head = values[4 * sled]
        if head != PATCHED_HEAD:
            if head != ENTRY_HEAD if self.words.sleds[sled].name == "entry" else head % 256 != 0xC3:
                raise Torn
            return "."
        for part in (ID, OPCODE, OFFSET):
            yield
            if values[4 * sled + part] != self.words.patched[sled][part]:
                raise Torn
        recorded = "+"
        if self.image.entries[sled].kind == ENTRY_ARGS:
            yield
            recorded = "a" if values[self.words.arg_handler] == 1 else "+"
        if recorded == "+":
            yield
            if values[self.words.handler] == 0:
                return "n"
        yield
        return recorded if values[self.words.state] == INITIALIZED else "f"

    def event(self, sled, mark):
        """What a passing of a sled records with a mark, before it is counted."""
        cpu = (self.number + self.passings // self.options["migrate"]) % self.options["cpus"]
        tsc = (self.options["tsc"] + self.options["tick"] * self.instructions) % WORD_64
        if mark == "a":
            return Event(cpu, self.words.ids[sled], trace_model.ENTRY_ARGS, tsc, self.argument)
        return Event(cpu, self.words.ids[sled], PLAIN_ACTIONS[self.image.entries[sled].kind], tsc)


# ---- Schedules and their replay


def turns_of(text, threads):
    """A schedule as its turns: which thread goes on, or 0 for the patcher, and by how much."""
    lines = word_lines(text)
    if len(lines) > LINE_LIMIT:
        raise Refused("Limit")
    turns = []
    for line, words in enumerate(lines, start=1):
        match words:
            case []:
                continue
            case ["t", thread, count] if number_of(count) >= 1:
                if not 1 <= number_of(thread) <= threads:
                    raise Refused("Thread", line)
                turns.append((number_of(thread), number_of(count)))
            case ["p", count] if number_of(count) >= 1:
                turns.append((0, number_of(count)))
            case _:
                raise Refused("Syntax", line)
    return turns


def replayed(image, commands, turns, options):
    """The threads after a replay, all of them at their ends, and the buffers of what they recorded."""
    words = Words(image, options["threads"])
    start = next(number for number, command in enumerate(commands) if command.name == "go")
    collections.deque(words.stores(commands[:start]), maxlen=0)
    # What unpatching leaves in a head depends on what was stored before, so the rest uses the same words.
    left = words.stores(commands[start:])
    buffers = Buffers(options["threads"], options["buffer-size"], options["buffer-max"])
    threads = [TracedThread(image, number + 1, options, words, buffers.record) for number in range(options["threads"])]
    for who, count in [*turns, *((number + 1, math.inf) for number in range(len(threads)))]:
        if who == 0:
            collections.deque(itertools.islice(left, count), maxlen=0)
            continue
        thread = threads[who - 1]
        while count > 0 and thread.end is None:
            thread.load()
            count -= 1
    return threads, buffers


def runs_text(marks):
    return " ".join(f"{mark}{len(list(run))}" for mark, run in itertools.groupby(marks)) or "-"
