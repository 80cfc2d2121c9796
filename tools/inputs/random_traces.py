"""Random trace files for comparisons with the model: spelled in all ways that the format allows, and damaged in all the
ways in which a trace is refused.
"""
import dataclasses
import struct

from model.trace_model import (
    CALL_ARGUMENT, ENTRY, ENTRY_ARGS, EXIT, EXTENTS, FIELDS, FUNCTION, NEW_BUFFER, NEW_CPU, PID, PREAMBLES, TAIL_EXIT, TSC_WRAP,
    WALL_TIME, WORD_32, WORD_64, FLIGHT_DATA_RECORDER, HEADER_LENGTH, METADATA_LENGTH,
)  # fmt: skip


@dataclasses.dataclass
class Record:
    """A record by its kind, its fields, and the bytes after them, as far as it has room for these."""

    kind: int | str
    fields: tuple
    rest: bytes = b""

    def raw(self):
        if self.kind == FUNCTION:
            function, action, delta = self.fields
            return struct.pack("<II", function << 4 | action << 1, delta)
        form = FIELDS.get(self.kind, "<" + "Q" * len(self.fields))
        named = bytes([2 * self.kind + 1]) + struct.pack(form, *self.fields)
        return (named + self.rest)[:METADATA_LENGTH].ljust(METADATA_LENGTH, b"\0")


@dataclasses.dataclass
class Draft:
    """A trace as its parts. A block's extents name its own bytes and `more`."""

    header: list  # version, type, flags, frequency, size, reserved
    blocks: list  # [records, more]

    def file(self):
        content = struct.pack("<HHIQQQ", *self.header)
        for records, more in self.blocks:
            raw = b"".join(record.raw() for record in records)
            content += Record(EXTENTS, ((len(raw) + more) % WORD_64,)).raw() + raw
        return content


def counter(draw):
    edges = [WORD_32 - 1, WORD_32, WORD_64 - 20, WORD_64 - 1]
    return draw.choice([0, 1, 5, draw.randrange(1000), *edges, draw.randrange(WORD_64)])


def rest(draw):
    """What comes after the fields of a record, which nobody reads."""
    return draw.choice([b"", b"", b"", draw.randbytes(METADATA_LENGTH), b"\xFF" * METADATA_LENGTH])


class Calls:
    """The events of a thread: mostly calls that end, some that don't, and exits of calls that aren't open."""

    def __init__(self, draw):
        self.draw = draw
        few = [1, 1, 2, 3, 4, 7]
        self.functions = draw.choice([[1], few, few, few, [0, (1 << 28) - 1, 1, 1_000_000]])
        self.most_open = draw.choice([1, 3, 6, 12])
        self.is_open = []

    def event(self):
        """A function and an action."""
        draw = self.draw
        if not self.is_open or (len(self.is_open) < self.most_open and draw.random() < 0.5):
            function = draw.choice(self.functions)
            if draw.random() < 0.06:
                return function, draw.choice([EXIT, TAIL_EXIT])
            self.is_open.append(function)
            return function, draw.choice([ENTRY, ENTRY, ENTRY, ENTRY_ARGS])
        at = len(self.is_open) - 1 if draw.random() < 0.9 else draw.randrange(len(self.is_open))
        function = self.is_open[at]
        del self.is_open[at:]
        return function, draw.choice([EXIT, EXIT, EXIT, TAIL_EXIT])


class Threads:
    """The threads of a trace, each with calls that continue from block to block."""

    def __init__(self, draw, version):
        self.draw = draw
        self.preamble = PREAMBLES[version]
        self.calls = {}

    def block(self):
        draw = self.draw
        thread = draw.choice([1, 1, 2, 2, 3, 16, 0, WORD_32 - 1])
        wall = draw.choice([(0, 0), (0, 0), (draw.randrange(WORD_64), draw.randrange(WORD_32))])
        pid = draw.choice([1, 1, 0, draw.randrange(WORD_32)])
        named = {NEW_BUFFER: (thread,), WALL_TIME: wall, PID: (pid,)}
        records = [Record(kind, named[kind], rest(draw)) for kind in self.preamble]
        calls = self.calls.setdefault(thread, Calls(draw))
        for number in range(draw.choice([0, 1, 2, 5, 20, 60])):
            records += self.bases(number == 0)
            function, action = calls.event()
            delta = draw.choice([0, 1, 2, 10, draw.randrange(100), draw.randrange(100), draw.randrange(WORD_32), WORD_32 - 1])
            records.append(Record(FUNCTION, (function, action, delta)))
            records += self.arguments(action)
        return [records + ([self.base()] if len(records) > len(self.preamble) and draw.random() < 0.1 else []), 0]

    def arguments(self, action):
        """The arguments behind a function record: mostly one behind an entry that logs it."""
        number = self.draw.choice([1, 1, 1, 0, 2, 3]) if action == ENTRY_ARGS else 0
        return [Record(CALL_ARGUMENT, (counter(self.draw),), rest(self.draw)) for _ in range(number)]

    def base(self):
        draw = self.draw
        if draw.random() < 0.5:
            return Record(NEW_CPU, (draw.choice([0, 1, 2, 65_535]), counter(draw)), rest(draw))
        return Record(TSC_WRAP, (counter(draw),), rest(draw))

    def bases(self, is_first):
        """What comes before a function record: the CPU before the first, and mostly nothing before the others."""
        first = [Record(NEW_CPU, (self.draw.choice([0, 0, 1, 65_535]), counter(self.draw)), rest(self.draw))]
        return (first if is_first else []) + [self.base() for _ in range(self.draw.choice([0] * 12 + [1, 2]))]


def random_draft(draw):
    version = draw.choice([*PREAMBLES, 3])
    threads = Threads(draw, version)
    flags = draw.choice([3, 3, 0, 1, 2, 0xFFFFFFFC, draw.randrange(WORD_32)])
    header = [version, FLIGHT_DATA_RECORDER, flags, draw.choice([0, 0, draw.randrange(WORD_64)]), draw.choice([88, 16_384]), 0]
    header[5] = draw.choice([0, 0, draw.randrange(WORD_64)])
    return Draft(header, [threads.block() for _ in range(draw.choice([0, 1, 1, 2, 3, 6, 12]))])


# ---- Damages


def other_header(draw, draft):
    at = draw.choice([0, 1])
    draft.header[at] = draw.choice([0, 1, 2, 3, 4, 65_535])


def other_extents(draw, draft):
    if draft.blocks:
        block = draw.choice(draft.blocks)
        length = sum(len(record.raw()) for record in block[0])
        edges = [edge - length for edge in (32, 31, 48, 47)]
        block[1] = draw.choice([-8, -1, 1, 8, 16, *edges, -length, WORD_64 - 1 - length])


def odd_record(draw):
    """A record at a place where it rarely or never is."""
    match draw.randrange(4):
        case 0:
            return Record(draw.choice([1, 5, CALL_ARGUMENT, CALL_ARGUMENT, 8, 10, 127]), (draw.randrange(WORD_64),))
        case 1:
            return Record(FUNCTION, (draw.randrange(1 << 28), draw.choice([ENTRY_ARGS, 4, 5, 6, 7]), draw.randrange(WORD_32)))
        case 2:
            kind = draw.choice([NEW_BUFFER, WALL_TIME, EXTENTS, PID])
            return Record(kind, (0, 0) if kind == WALL_TIME else (draw.randrange(100),))
        case 3:
            kind = draw.choice([TSC_WRAP, NEW_CPU, FUNCTION])
            return Record(kind, {TSC_WRAP: (5,), NEW_CPU: (1, 5), FUNCTION: (1, ENTRY, 1)}[kind])


def other_records(draw, draft):
    """A record that is missing, repeated, moved or replaced."""
    if not draft.blocks:
        return
    records = draw.choice(draft.blocks)[0]
    at = draw.choice([draw.randrange(len(records)), draw.randrange(min(5, len(records)))])
    match draw.randrange(5):
        case 0:
            del records[at]
        case 1:
            records.insert(at, records[at])
        case 2:
            records.insert(draw.randrange(len(records)), records.pop(at))
        case 3:
            records.insert(at, odd_record(draw))
        case 4:
            records[at] = odd_record(draw)


def other_file(draw, content):
    """A file that is cut or lengthened, or has another byte, often in the header or at the start of a block."""
    heads = [HEADER_LENGTH, HEADER_LENGTH + 16, HEADER_LENGTH + 32, HEADER_LENGTH + 64, HEADER_LENGTH + 80]
    anywhere = draw.randint(0, len(content))
    at = min(len(content), draw.choice([0, 2, draw.choice(heads), anywhere, anywhere]))
    byte = draw.randbytes(1)
    return draw.choice([
        content[:at], content[:at], content[:at] + byte + content[at + 1 :], content[:at] + byte + content[at:],
        content + draw.randbytes(draw.choice([1, 8, 15, 16, 17])),
    ])  # fmt: skip


def random_trace(draw, damaged_share=0.5):
    draft = random_draft(draw)
    is_damaged = draw.random() < damaged_share
    if is_damaged:
        damages = [other_header, other_extents, other_extents, other_records, other_records, other_records, other_records]
        for damage in draw.choices(damages, k=draw.choice([0, 1, 1, 1, 2])):
            damage(draw, draft)
    content = draft.file()
    return other_file(draw, content) if is_damaged and draw.random() < 0.3 else content
