"""A model of the judge of audits: which bytes are an audit, and the verdict on an audit and a trace.

It is written from docs/formats and docs/commands alone, and shares nothing with the program or its definitions.
"""
import dataclasses
import re

from .image_model import Refused
from .machine_model import Thread
from .run_model import Course, MarkedThread, Segments, Unlawful, marks_of
from .trace_model import Block, Header, Trace, file_bytes

WORD_32, WORD_64 = 1 << 32, 1 << 64
MARK_LIMIT = 1_048_576
MICROSECONDS = 1_000_000
TRACE_LIMIT = 67_108_864

# ---- Audits

NUMBER = "(0|[1-9][0-9]*)"
ENDS = "(returned|fuel|passings|output-full|stack-full|stack-empty|bad-target)"
# The numbers of the second line, each with its least value and the first one above its greatest.
SETUP = {
    "threads": (1, 17), "buffer-size": (88, 1_048_577), "buffer-max": (1, 1025),
    "fuel": (0, 1_000_000_001), "passings": (0, 1_048_577), "tick": (0, WORD_64), "tsc": (0, WORD_64),
    "cpus": (1, 65_536), "migrate": (1, 1_048_577), "pid": (0, 1 << 31), "wall": (0, WORD_64), "micros": (0, MICROSECONDS),
    "frequency": (0, WORD_64),
}  # fmt: skip
SETUP_LINE = " ".join(f"{name}={NUMBER}" for name in SETUP).replace(f" micros={NUMBER}", rf"\.{NUMBER}")
RUN = "[.nf+a][1-9][0-9]*"


@dataclasses.dataclass(frozen=True)
class Entry:
    """What an audit states of a thread."""

    end: str
    passings: int
    recorded: int
    segments: int
    first: int
    marks: str


@dataclasses.dataclass(frozen=True)
class Audit:
    options: dict
    entries: list
    recycled: int


def setup_of(line):
    """The options of the second line, or None if no run may have them."""
    found = re.fullmatch(SETUP_LINE, line)
    if not found:
        return None
    options = dict(zip(SETUP, map(int, found.groups())))
    if not all(least <= options[name] < past for name, (least, past) in SETUP.items()):
        return None
    if options["threads"] > options["buffer-max"]:
        return None
    if options["buffer-max"] * (options["buffer-size"] + 16) + 32 > TRACE_LIMIT:
        return None
    return options


def counts_of(line, thread):
    """The end and the four counts of a thread, or None."""
    found = re.fullmatch(f"thread {thread} {ENDS} passings {NUMBER} recorded {NUMBER} segments {NUMBER} first {NUMBER}", line)
    if not found or any(int(count) >= WORD_32 for count in found.groups()[1:]):
        return None
    end, *counts = found.groups()
    return end, *map(int, counts)


def marks_line(line):
    """The marks of a line, or None."""
    if line == "marks -":
        return ""
    found = re.fullmatch(f"marks ({RUN}(?: {RUN})*)", line)
    if not found:
        return None
    runs = found[1].split(" ")
    if any(one[0] == other[0] for one, other in zip(runs, runs[1:])) or sum(int(run[1:]) for run in runs) > MARK_LIMIT:
        return None
    return marks_of(found[1])


def recycled_of(line):
    found = re.fullmatch(f"recycled {NUMBER}", line)
    return int(found[1]) if found and int(found[1]) < WORD_64 else None


class Lines:
    """The lines of bytes, each with its line feed."""

    def __init__(self, content):
        self.left = re.findall("[^\n]*\n|[^\n]+", content.decode("latin-1"))
        self.number = 0

    def take(self, read, *given):
        """What a line says. If it is missing or says nothing, the bytes are refused there."""
        self.number += 1
        line = self.left[self.number - 1] if self.number <= len(self.left) else ""
        said = read(line[:-1], *given) if line.endswith("\n") else None
        if said is None:
            raise Refused("Form", self.number)
        return said

    def end(self):
        if self.number < len(self.left):
            raise Refused("Form", self.number + 1)


def audit_of(content):
    """The audit that bytes are."""
    lines = Lines(content)
    lines.take(lambda line: line if line == "xray-audit 1" else None)
    options = lines.take(setup_of)
    entries = []
    for thread in range(1, options["threads"] + 1):
        counts = lines.take(counts_of, thread)
        entries.append(Entry(*counts, lines.take(marks_line)))
    recycled = lines.take(recycled_of)
    lines.end()
    return Audit(options, entries, recycled)


# ---- Verdicts


def plain_end(image, thread, options):
    """How the plain run of a thread ends, and how many sleds it passes."""
    plain = Thread(image, thread, options["fuel"], options["passings"])
    return plain.run(), plain.passings


def marked(image, commands, audit):
    """The threads with the marks of an audit, and the segments of their events."""
    options = audit.options
    course = Course(image, commands, options["threads"])
    segments = Segments(options["threads"], options["buffer-size"], options["buffer-max"])
    threads = [
        MarkedThread(image, number, options, course.words, segments.record, entry.marks)
        for number, entry in enumerate(audit.entries, start=1)
    ]
    return course, threads, segments


def follows(course, number, sleds, entry):
    """Whether a thread that passes these sleds may have its marks."""
    if len(entry.marks) != entry.passings:
        return False
    try:
        course.check(number, sleds, entry.marks)
    except Unlawful:
        return False
    return True


def is_counted(entry, thread, segments):
    kept = entry.first < entry.segments if entry.segments else entry.first == 0
    return entry.recorded == sum(mark in "+a" for mark in thread.marks) and entry.segments == len(segments) and kept


def is_recycled(audit):
    sealed = sum(entry.segments - 1 for entry in audit.entries if entry.segments)
    spare = audit.options["buffer-max"] - audit.options["threads"]
    return audit.recycled == sum(entry.first for entry in audit.entries) == max(0, sealed - spare)


def trace_of_audit(audit, segments):
    """The bytes of the trace that an audit's threads leave."""
    options = audit.options
    wall = options["wall"], options["micros"]
    blocks = [
        Block(number, wall, options["pid"], events)
        for number, (entry, recorded) in enumerate(zip(audit.entries, segments.threads), start=1)
        for events in recorded.segments[entry.first :]
    ]
    return file_bytes(Trace(Header(options["frequency"], options["buffer-size"]), blocks))


def verdict(image, commands, audit, trace):
    """The verdict on an audit and the bytes of a trace, as the command prints it."""
    for number, entry in enumerate(audit.entries, start=1):
        if (entry.end, entry.passings) != plain_end(image, number, audit.options):
            return f"no ends {number}"
    course, threads, segments = marked(image, commands, audit)
    for number, (entry, thread) in enumerate(zip(audit.entries, threads), start=1):
        if not follows(course, number, thread.passed, entry):
            return f"no marks {number}"
    for number, (entry, thread, recorded) in enumerate(zip(audit.entries, threads, segments.threads), start=1):
        if not is_counted(entry, thread, recorded.segments):
            return f"no counts {number}"
    if not is_recycled(audit):
        return "no recycled"
    if trace != trace_of_audit(audit, segments):
        return "no trace"
    return "yes"
