"""A model of traces: events and their records, segments, the buffers that threads share, trace files both ways, the audit.

It is written from docs/formats and docs/commands alone, and shares nothing with the program or its definitions.
A trace is read as LLVM's Flight Data Recorder files of versions 2 and 3 are, and written as those of version 3.
"""
import collections
import dataclasses
import struct

from .image_model import Refused

WORD_32, WORD_64 = 1 << 32, 1 << 64
HEADER_LENGTH = 32
METADATA_LENGTH = 16
FUNCTION_LENGTH = 8
PREAMBLE_LENGTH = 48
VERSION = 3
FLIGHT_DATA_RECORDER = 1
CONSTANT, NONSTOP = 1, 2

# The actions of function records. An entry may log its first argument.
ENTRY, EXIT, TAIL_EXIT, ENTRY_ARGS = range(4)
ENTRIES = (ENTRY, ENTRY_ARGS)
# The kinds of metadata records.
NEW_BUFFER, NEW_CPU, TSC_WRAP, WALL_TIME, CALL_ARGUMENT, EXTENTS, PID = 0, 2, 3, 4, 6, 7, 9
FUNCTION = "function"
# The records that blocks begin with, by the versions that are read.
PREAMBLES = {2: (NEW_BUFFER, WALL_TIME), 3: (NEW_BUFFER, WALL_TIME, PID)}
# The process of a block that names none.
NO_PROCESS = 0
# The fields of each kind, from the record's second byte on.
FIELDS = {
    NEW_BUFFER: "<I", NEW_CPU: "<HQ", TSC_WRAP: "<Q", WALL_TIME: "<QI", CALL_ARGUMENT: "<Q", EXTENTS: "<Q", PID: "<I",
}  # fmt: skip


@dataclasses.dataclass(frozen=True)
class Event:
    """What a passing records: the CPU, the function's id, the action, the cycle counter, and the argument of an entry that
    logs one."""

    cpu: int
    function: int
    action: int
    tsc: int
    arg: int = 0


@dataclasses.dataclass(frozen=True)
class Header:
    frequency: int
    size: int
    flags: int = CONSTANT | NONSTOP
    version: int = VERSION


@dataclasses.dataclass
class Block:
    """A buffer of a trace file. The wall time is in seconds and microseconds."""

    thread: int
    wall: tuple
    pid: int
    events: list


@dataclasses.dataclass
class Trace:
    header: Header
    blocks: list

    @property
    def threads(self):
        """The numbers of the threads that have a block, in ascending order."""
        return sorted({block.thread for block in self.blocks})

    def events_of(self, thread):
        """The events of all blocks of a thread, in the file's order."""
        return [event for block in self.blocks if block.thread == thread for event in block.events]


# ---- Records as bytes


def metadata(kind, *fields):
    return (bytes([2 * kind + 1]) + struct.pack(FIELDS[kind], *fields)).ljust(METADATA_LENGTH, b"\0")


def function_records(event, delta):
    """The function record of an event, and its argument if it logs one."""
    record = struct.pack("<II", event.function << 4 | event.action << 1, delta)
    return record + (metadata(CALL_ARGUMENT, event.arg) if event.action == ENTRY_ARGS else b"")


def event_bytes(event, before):
    """The records of an event. `before` is the event before it in its buffer, or None."""
    if before is None or event.cpu != before.cpu:
        return metadata(NEW_CPU, event.cpu, event.tsc) + function_records(event, 0)
    if not 0 <= event.tsc - before.tsc < WORD_32:
        return metadata(TSC_WRAP, event.tsc) + function_records(event, 0)
    return function_records(event, event.tsc - before.tsc)


def events_bytes(events):
    """The records of a buffer's events."""
    return b"".join(event_bytes(event, before) for event, before in zip(events, [None, *events]))


# ---- Trace files as bytes


def header_bytes(header):
    return struct.pack("<HHIQQ8x", VERSION, FLIGHT_DATA_RECORDER, header.flags, header.frequency, header.size)


def body(block):
    """The used bytes of a buffer."""
    preamble = metadata(NEW_BUFFER, block.thread) + metadata(WALL_TIME, *block.wall) + metadata(PID, block.pid)
    return preamble + events_bytes(block.events)


def block_bytes(block):
    used = body(block)
    return metadata(EXTENTS, len(used)) + used


def file_bytes(trace):
    return header_bytes(trace.header) + b"".join(block_bytes(block) for block in trace.blocks)


# ---- Segments


def segments_of(events, size):
    """The events of a thread in lists, each as long as fits in a buffer of this size."""
    segments = []
    for event in events:
        if segments and PREAMBLE_LENGTH + len(events_bytes([*segments[-1], event])) <= size:
            segments[-1].append(event)
        else:
            segments.append([event])
    return segments


class Recorded:
    """The events of a thread as its segments grow, with the room that the last of them has left."""

    def __init__(self, size):
        self.room_of_all = size - PREAMBLE_LENGTH
        self.segments = []
        self.room = 0
        self.lost = 0

    def add(self, event):
        """Adds an event, and says whether it begins a segment."""
        before = self.segments[-1][-1] if self.segments else None
        needs = len(event_bytes(event, before))
        if needs <= self.room:
            self.segments[-1].append(event)
            self.room -= needs
            return False
        self.segments.append([event])
        self.room = self.room_of_all - len(event_bytes(event, None))
        return True

    @property
    def kept(self):
        return self.segments[self.lost :]


class Buffers:
    """The buffers of a run: each thread has one in hand, and the others are queued, unused at first."""

    def __init__(self, threads, size, most):
        self.threads = [Recorded(size) for _ in range(threads)]
        # Whose segment a queued buffer holds, or None for an unused one.
        self.queue = collections.deque([None] * (most - threads))

    def record(self, thread, event):
        """A full buffer goes to the end of the queue. What the first one held is lost."""
        recorded = self.threads[thread - 1]
        if recorded.add(event) and len(recorded.segments) > 1:
            self.queue.append(recorded)
            taken = self.queue.popleft()
            if taken is not None:
                taken.lost += 1

    def trace(self, header, wall, pid):
        """What is written once all threads have ended: the kept segments by thread and then by age."""
        return Trace(
            header,
            [Block(at, wall, pid, events) for at, one in enumerate(self.threads, start=1) for events in one.kept],
        )


# ---- Reading


class Reader:
    """The records of a trace file from a place on, up to an end. `preamble` has the records that blocks begin with."""

    def __init__(self, content, preamble):
        self.content = content
        self.preamble = preamble
        self.at = HEADER_LENGTH

    def record(self):
        """The kind and the fields of the record at the current place, which isn't cut."""
        first = self.content[self.at]
        if first % 2 == 0:
            word, delta = struct.unpack_from("<II", self.content, self.at)
            action = word >> 1 & 7
            if action > ENTRY_ARGS:
                raise Refused("Bad", self.at, "Action", action)
            return FUNCTION, (word >> 4, action, delta)
        kind = first >> 1
        if kind not in FIELDS:
            raise Refused("Bad", self.at, "Kind", kind)
        return kind, struct.unpack_from(FIELDS[kind], self.content, self.at + 1)

    def length(self):
        """How many bytes the record at the current place has."""
        return METADATA_LENGTH if self.content[self.at] % 2 == 1 else FUNCTION_LENGTH


def trace_of(content):
    """The trace in a file's bytes."""
    if len(content) < HEADER_LENGTH:
        raise Refused("Short", 0)
    version, form, flags, frequency, size = struct.unpack_from("<HHIQQ", content)
    if version not in PREAMBLES:
        raise Refused("Version", version)
    if form != FLIGHT_DATA_RECORDER:
        raise Refused("Form", form)
    reader = Reader(content, PREAMBLES[version])
    trace = Trace(Header(frequency, size, flags % 4, version), [])
    while reader.at < len(content):
        trace.blocks.append(block_of(reader))
    return trace


def block_of(reader):
    """The block that begins at the current place."""
    begin = reader.at
    left = len(reader.content) - begin
    if left < METADATA_LENGTH:
        raise Refused("Short", begin)
    kind, fields = reader.record()
    if kind != EXTENTS:
        raise Refused("Order", begin)
    (used,) = fields
    if used < METADATA_LENGTH * len(reader.preamble):
        raise Refused("Extents", begin)
    if used > left - METADATA_LENGTH:
        raise Refused("Short", begin)
    reader.at += METADATA_LENGTH
    records = records_to(reader, reader.at + used)
    count = len(reader.preamble)
    named = dict(records[:count])
    (thread,), wall, (pid,) = named[NEW_BUFFER], named[WALL_TIME], named.get(PID, (NO_PROCESS,))
    return Block(thread, wall, pid, events_in(records[count:]))


def records_to(reader, end):
    """The records of a block that ends there, as (kind, fields)."""
    records = []
    has_base = False
    while reader.at < end:
        if reader.at + reader.length() > end:
            raise Refused("Extents", reader.at)
        kind, fields = reader.record()
        number = len(records)
        due = (reader.preamble[number],) if number < len(reader.preamble) else (NEW_CPU, TSC_WRAP, FUNCTION)
        if number > len(reader.preamble) and takes_argument(*records[-1]):
            due = (*due, CALL_ARGUMENT)
        if kind not in due:
            raise Refused("Order", reader.at)
        if kind in (TSC_WRAP, FUNCTION) and not has_base:
            raise Refused("NoBase", reader.at)
        has_base = has_base or kind == NEW_CPU
        records.append((kind, fields))
        reader.at += reader.length()
    return records


def takes_argument(kind, fields):
    """Whether an argument may stand directly behind a record: an entry that logs one, or another argument."""
    return kind == CALL_ARGUMENT or (kind == FUNCTION and fields[1] == ENTRY_ARGS)


def events_in(records):
    """The events of a block: each counter is the last whole one plus all deltas after it, in 64 bits. The argument of an
    entry is the record directly behind it, if that is one. Further arguments have no meaning."""
    events = []
    for at, (kind, fields) in enumerate(records):
        if kind == NEW_CPU:
            cpu, tsc = fields
        elif kind == TSC_WRAP:
            (tsc,) = fields
        elif kind == FUNCTION:
            function, action, delta = fields
            tsc = (tsc + delta) % WORD_64
            (behind, argument), *_ = [*records[at + 1 : at + 2], (None, None)]
            events.append(Event(cpu, function, action, tsc, *(argument if behind == CALL_ARGUMENT else ())))
    return events


# ---- The audit

# The words of the second line that have the names of options; `wall` follows them.
AUDITED = [
    "threads", "buffer-size", "buffer-max", "fuel", "passings", "tick", "tsc", "cpus", "migrate", "pid",
]  # fmt: skip


@dataclasses.dataclass(frozen=True)
class AuditLine:
    """What the audit says of a thread."""

    end: str
    passings: int
    recorded: int
    segments: int
    lost: int
    marks: str


def audit_text(options, wall, lines):
    words = [f"{name}={options[name]}" for name in AUDITED]
    words += [f"wall={wall[0]}.{wall[1]}", f"frequency={options['frequency']}"]
    text = "xray-audit 1\n" + " ".join(words) + "\n"
    for thread, line in enumerate(lines, start=1):
        text += f"thread {thread} {line.end} passings {line.passings} recorded {line.recorded} "
        text += f"segments {line.segments} first {line.lost}\nmarks {line.marks}\n"
    return text + f"recycled {sum(line.lost for line in lines)}\n"
