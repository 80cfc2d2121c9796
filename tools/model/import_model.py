"""A model of `import`: what a log of LLVM's runtime says, the trace that is made of it, and what is printed.

It is written from LLVM's public formats of XRay logs, and shares nothing with the program or its definitions. Only the
records of traces that are written are those of trace_model.
"""
import collections
import dataclasses
import itertools
import struct

from . import trace_model
from .image_model import Refused
from .trace_model import ENTRY, ENTRY_ARGS, FLIGHT_DATA_RECORDER, FUNCTION_LENGTH, HEADER_LENGTH, METADATA_LENGTH, WORD_64, Event, Header

BASIC = 0
VERSIONS = range(1, 6)
RECORDER_VERSIONS = range(2, 6)
BASIC_VERSIONS = range(1, 4)
FIRST_WITH_PROCESS = 3
FUNCTIONS = 1 << 28
MOST_BYTES = 1 << 26
MOST_OF_A_BLOCK = 1 << 20
NEW_BUFFER, NEW_CPU, TSC_WRAP, WALL_TIME, CUSTOM, ARGUMENT, EXTENTS, TYPED, PID = 0, 2, 3, 4, 5, 6, 7, 8, 9
FUNCTION = "function"


def fields_of(version):
    """The kinds of metadata records of a version, with the fields of each from its second byte on.

    A Pid is a record in version 2 too, but stands nowhere in a block of that version.
    """
    fields = {NEW_BUFFER: "<I", NEW_CPU: "<HQ", TSC_WRAP: "<Q", WALL_TIME: "<QI", ARGUMENT: "<Q", EXTENTS: "<Q", PID: "<I"}
    fields[CUSTOM] = {2: "<IQ", 3: "<IQ", 4: "<IQH", 5: "<II"}[version]
    if version == 5:
        fields[TYPED] = "<IIH"
    return fields


def preamble_of(version):
    """The kinds of the first records of a block."""
    return [NEW_BUFFER, WALL_TIME] + [PID] * (version >= 3)


@dataclasses.dataclass
class Block:
    """A block of a log, its bytes, and what they say; or a run of events of a basic log."""

    place: int
    content: bytes
    thread: int
    wall: tuple
    pid: int
    events: list
    custom: int = 0
    typed: int = 0
    cut: int = 0


@dataclasses.dataclass
class Log:
    """A log. A basic log has events in the order of recording, and the others have blocks."""

    header: Header
    blocks: list
    recorded: list = dataclasses.field(default_factory=list)
    lost: int = 0  # arguments of a basic log whose entries aren't there


# ---- Flight Data Recorder logs


@dataclasses.dataclass
class Rec:
    place: int
    kind: object
    fields: tuple
    length: int


def record_at(content, at, end, version):
    """The record at a place of a block that ends at `end`."""
    first = content[at]
    length = METADATA_LENGTH if first % 2 else FUNCTION_LENGTH
    if at + length > end:
        raise Refused("Extents", at)
    if first % 2 == 0:
        word, delta = struct.unpack_from("<II", content, at)
        action = word >> 1 & 7
        if action > ENTRY_ARGS:
            raise Refused("Bad", at, "Action", action)
        return Rec(at, FUNCTION, (word >> 4, action, delta), length)
    kind = first >> 1
    fields = fields_of(version)
    if kind not in fields:
        raise Refused("Bad", at, "Kind", kind)
    found = struct.unpack_from(fields[kind], content, at + 1)
    if kind in (CUSTOM, TYPED):
        length += found[0]
        if at + length > end:
            raise Refused("Extents", at)
    return Rec(at, kind, found, length)


def named_length(content, at, end, version):
    """How many bytes the record at a place names, as far as its own bytes are there."""
    first = content[at]
    if first % 2 == 0:
        return FUNCTION_LENGTH
    is_own = first >> 1 == CUSTOM or (version == 5 and first >> 1 == TYPED)
    if is_own and end - at >= METADATA_LENGTH:
        return METADATA_LENGTH + struct.unpack_from("<I", content, at + 1)[0]
    return METADATA_LENGTH


def is_cut(content, at, begin, end, version, typed):
    """Whether the record at a place is cut, since the runtime names 16 bytes too few for each typed event of a block."""
    typed += version == 5 and content[at] >> 1 == TYPED and content[at] % 2 == 1
    lacking = named_length(content, at, end, version) - (end - at)
    return 0 < lacking <= 16 * typed and at - begin >= METADATA_LENGTH * len(preamble_of(version))


def records_of(content, at, end, version):
    """The records of a block, in order, and how many are cut at its end."""
    preamble = preamble_of(version)
    records, has_base, begin = [], False, at
    while at < end:
        if is_cut(content, at, begin, end, version, sum(rec.kind == TYPED for rec in records)):
            return records, 1
        rec = record_at(content, at, end, version)
        if len(records) < len(preamble):
            due = preamble[len(records)] == rec.kind
        elif rec.kind == ARGUMENT:
            last = records[-1]
            due = last.kind == ARGUMENT or (last.kind == FUNCTION and last.fields[1] in (ENTRY, ENTRY_ARGS))
        else:
            due = rec.kind in (NEW_CPU, TSC_WRAP, FUNCTION, CUSTOM, TYPED)
        if not due:
            raise Refused("Order", at)
        if rec.kind in (TSC_WRAP, FUNCTION, ARGUMENT, CUSTOM, TYPED) and not has_base:
            raise Refused("NoBase", at)
        has_base = has_base or rec.kind == NEW_CPU
        records.append(rec)
        at += rec.length
    return records, 0


def events_of(records, version):
    """The events that records say. Each counter is the last whole one plus all deltas after it, in 64 bits."""
    events, cpu, tsc = [], None, None
    for number, rec in enumerate(records):
        if rec.kind == NEW_CPU:
            cpu, tsc = rec.fields
        elif rec.kind == TSC_WRAP:
            (tsc,) = rec.fields
        elif rec.kind == FUNCTION:
            function, action, delta = rec.fields
            tsc = (tsc + delta) % WORD_64
            behind = records[number + 1] if number + 1 < len(records) else None
            arg = 0
            if behind and behind.kind == ARGUMENT:
                # Older runtimes say of no entry that it logs its argument: there is one behind it.
                arg, action = behind.fields[0], ENTRY_ARGS
            events.append(Event(cpu, function, action, tsc, arg))
        elif rec.kind in (CUSTOM, TYPED) and version == 5:
            tsc = (tsc + rec.fields[1]) % WORD_64
    return events


def block_at(content, at, version):
    """The block at a place, and the place behind it."""
    if len(content) - at < METADATA_LENGTH:
        raise Refused("Short", at)
    rec = record_at(content, at, len(content) + MOST_BYTES, version) if content[at] % 2 == 0 else None
    if rec is None:
        kind = content[at] >> 1
        if kind not in fields_of(version):
            raise Refused("Bad", at, "Kind", kind)
        rec = Rec(at, kind, struct.unpack_from(fields_of(version)[kind], content, at + 1), METADATA_LENGTH)
    if rec.kind != EXTENTS:
        raise Refused("Order", at)
    (used,) = rec.fields
    begin = at + METADATA_LENGTH
    if used == 0:
        # The runtime also hands out buffers that nothing was written into.
        return Block(at, b"", 0, (0, 0), 0, []), begin
    if used < METADATA_LENGTH * len(preamble_of(version)):
        raise Refused("Extents", at)
    if used > len(content) - begin:
        raise Refused("Short", at)
    records, cut = records_of(content, begin, begin + used, version)
    thread, wall = records[0].fields[0], records[1].fields
    pid = records[2].fields[0] if version >= 3 else 0
    events = events_of(records, version)
    count = collections.Counter(rec.kind for rec in records)
    block = Block(at, content[begin : begin + used], thread, wall, pid, events, count[CUSTOM], count[TYPED], cut)
    return block, begin + used


# ---- Basic logs


@dataclasses.dataclass
class Recorded:
    """An event of a basic log, and who recorded it."""

    thread: int
    pid: int
    event: Event


def basic_events(content, version):
    """The events of a basic log, in its order, and how many arguments have lost their entries.

    An argument is that of the record directly before it, if this is an entry with an argument of the same thread, process and
    function. The runtime drops an entry that is too deep, and writes its argument all the same.
    """
    recorded, lost, entry = [], 0, None
    for at in range(HEADER_LENGTH, len(content), 32):
        if len(content) - at < 32:
            raise Refused("Short", at)
        (tag,) = struct.unpack_from("<H", content, at)
        if tag not in (0, 1):
            raise Refused("Tag", at, tag)
        if tag == 0:
            cpu, kind, function, tsc, thread, pid, arg = struct.unpack_from("<BBIQIIQ", content, at + 2)
            pid = pid if version >= FIRST_WITH_PROCESS else 0
            if kind > ENTRY_ARGS:
                raise Refused("Kind", at, kind)
            if function >= FUNCTIONS:
                raise Refused("Function", at, function)
            recorded.append(Recorded(thread, pid, Event(cpu, function, kind, tsc, arg if kind == ENTRY_ARGS else 0)))
            entry = recorded[-1]
        else:
            function, thread, pid, arg = struct.unpack_from("<IIIQ", content, at + 4)
            pid = pid if version >= FIRST_WITH_PROCESS else 0
            if entry and (entry.thread, entry.pid, entry.event.function, entry.event.action) == (thread, pid, function, ENTRY_ARGS):
                entry.event = dataclasses.replace(entry.event, arg=arg)
            else:
                lost += 1
            entry = None
    return recorded, lost


def thread_blocks(recorded):
    """Thread by thread, each run of one process among the events of the thread. Nothing is sorted but the threads."""
    blocks = []
    for thread in sorted({one.thread for one in recorded}):
        own = [one for one in recorded if one.thread == thread]
        for pid, run in itertools.groupby(own, key=lambda one: one.pid):
            blocks.append(Block(0, b"", thread, (0, 0), pid, [one.event for one in run]))
    return blocks


# ---- A log, and what is made of it


def logged(content):
    """What a log says."""
    if len(content) < HEADER_LENGTH:
        raise Refused("Short", 0)
    version, form, flags, frequency, size = struct.unpack_from("<HHIQQ", content)
    if version not in VERSIONS:
        raise Refused("Version", version)
    if form not in (FLIGHT_DATA_RECORDER, BASIC):
        raise Refused("Form", form)
    if version not in (BASIC_VERSIONS if form == BASIC else RECORDER_VERSIONS):
        raise Refused("Version", version)
    if form == BASIC:
        return Log(Header(frequency, 0, flags % 4), [], *basic_events(content, version))
    blocks, at = [], HEADER_LENGTH
    while at < len(content):
        block, at = block_at(content, at, version)
        blocks.append(block)
    return Log(Header(frequency, size, flags % 4), blocks)


def taken_blocks(log):
    """The blocks that are taken, in the order of the trace, with how many doubled and how many empty ones are left out."""
    seen, taken, doubled, empty = set(), [], 0, 0
    for block in log.blocks:
        if block.content and block.content in seen:
            doubled += 1
        elif not block.events:
            empty += 1
        else:
            taken.append(block)
        seen.add(block.content)
    taken.sort(key=lambda block: (block.thread, block.wall, block.events[0].tsc, block.place))
    return taken + thread_blocks(log.recorded), doubled, empty


def pieces_of(events):
    """The events of a block in lists, each as long as fits in a block of the trace."""
    recorded = trace_model.Recorded(MOST_OF_A_BLOCK)
    for event in events:
        recorded.add(event)
    return recorded.segments


def trace_made(log):
    """The trace that is written."""
    blocks = [
        trace_model.Block(block.thread, block.wall, block.pid, events)
        for block in taken_blocks(log)[0]
        for events in pieces_of(block.events)
    ]
    return trace_model.Trace(log.header, blocks)


def goes_back(events):
    return any(later.tsc < event.tsc for event, later in zip(events, events[1:]))


def facts(log):
    """The printed lines."""
    taken, doubled, empty = taken_blocks(log)
    threads = collections.defaultdict(list)
    for block in taken:
        threads[block.thread] += block.events
    counters = [event.tsc for block in taken for event in block.events]
    rows = [
        (len(taken), "blocks"),
        (len(threads), "threads"),
        (len(counters), "events"),
        (sum(event.action == ENTRY_ARGS for block in taken for event in block.events), "entries with arguments"),
        (sum(block.custom for block in log.blocks), "custom events left out"),
        (sum(block.typed for block in log.blocks), "typed events left out"),
        (doubled, "doubled blocks left out"),
        (empty, "empty blocks left out"),
        (min(counters, default="-"), "first counter"),
        (max(counters, default="-"), "last counter"),
        (sum(map(goes_back, threads.values())), "threads whose counter goes back"),
        (log.lost, "arguments without an entry left out"),
        (sum(block.cut for block in log.blocks), "cut records left out"),
        (log.header.frequency, "cycles a second"),
    ]
    return "".join(f"{number:>20} {what}\n" for number, what in rows)
