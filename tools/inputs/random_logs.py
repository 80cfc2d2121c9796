"""Random logs of LLVM's runtime: traces with events of the program's own between their records, of each version, in any order of
their blocks, with doubled and empty blocks; and basic logs. Many are damaged.
"""
import dataclasses
import struct

from model.trace_model import (
    CALL_ARGUMENT, ENTRY, ENTRY_ARGS, EXIT, FLIGHT_DATA_RECORDER, FUNCTION, METADATA_LENGTH, NEW_CPU, PID, WORD_32, WORD_64,
)  # fmt: skip

from . import random_traces
from .random_traces import Record

CUSTOM, TYPED = 5, 8
CUSTOM_FIELDS = {2: "<IQ", 3: "<IQ", 4: "<IQH", 5: "<II"}


@dataclasses.dataclass
class OwnEvent:
    """An event of the program's own. `more` is added to the size that its record names."""

    kind: int
    form: str
    fields: tuple
    payload: bytes
    more: int = 0

    def raw(self):
        size = (len(self.payload) + self.more) % WORD_32
        named = bytes([2 * self.kind + 1]) + struct.pack(self.form, size, *self.fields)
        return named.ljust(METADATA_LENGTH, b"\xA5") + self.payload


def own_event(draw, version):
    payload = draw.randbytes(draw.choice([0, 1, 7, 8, 16, 16, 200]))
    if draw.random() < 0.3:
        payload = Record(FUNCTION, (1, 0, 1)).raw() * 3
    delta = draw.choice([0, 1, 10, draw.randrange(100), WORD_32 - 1])
    if draw.random() < 0.4 and (version == 5 or draw.random() < 0.1):
        return OwnEvent(TYPED, "<IIH", (delta, draw.randrange(1 << 16)), payload)
    fields = {2: (delta,), 3: (delta,), 4: (delta, 3), 5: (delta,)}[version]
    return OwnEvent(CUSTOM, CUSTOM_FIELDS[version], fields, payload)


def with_older_entries(draw, records):
    """The same records, where some events before arguments are entries of action 0, and a few are exits."""
    for record, behind in zip(records, records[1:]):
        if record.kind == FUNCTION and record.fields[1] == ENTRY_ARGS and behind.kind == CALL_ARGUMENT:
            function, _, delta = record.fields
            record.fields = (function, draw.choice([ENTRY, ENTRY, ENTRY, ENTRY_ARGS, ENTRY_ARGS, EXIT if draw.random() < 0.1 else ENTRY]), delta)
    return records


@dataclasses.dataclass
class Raw:
    """Bytes of records."""

    content: bytes

    def raw(self):
        return self.content


def with_cut_end(draw, records):
    """The same records without some bytes at their end: up to 16 for each typed event, and sometimes a few more."""
    content = b"".join(record.raw() for record in records)
    most = 16 * sum(isinstance(record, OwnEvent) and record.kind == TYPED for record in records)
    if most == 0:
        return records
    lacking = draw.choice([most, draw.randint(1, most), draw.randint(1, 16), most + draw.choice([1, 8])])
    return [Raw(content[: len(content) - lacking])]


def with_own_events(draw, version, records):
    """The records of a block with events of the program's own, mostly behind its first CPU."""
    first = next((at for at, record in enumerate(records) if record.kind == NEW_CPU), len(records))
    for _ in range(draw.choice([0, 1, 1, 2, 5])):
        at = draw.randint(min(first + 1, len(records)), len(records)) if draw.random() < 0.95 else draw.randint(0, len(records))
        event = own_event(draw, version)
        if draw.random() < 0.03:
            event.more = draw.choice([-1, 1, 8, 1000, WORD_32 - 1])
        records.insert(at, event)
    return records


def recorder_log(draw):
    version = draw.choice([5, 5, 5, 5, 2, 3, 4])
    threads = random_traces.Threads(draw, 2 if version == 2 else 3)
    blocks = [threads.block() for _ in range(draw.choice([0, 1, 2, 3, 6, 12]))]
    if draw.random() < 0.3:
        blocks = [[with_older_entries(draw, records), more] for records, more in blocks]
    blocks = [[with_own_events(draw, version, records), more] for records, more in blocks]
    if version == 2 and blocks and draw.random() < 0.2:
        # In version 2 no record of a block may be a Pid.
        records, _ = draw.choice(blocks)
        records.insert(draw.randint(0, len(records)), Record(PID, (1,)))
    if blocks and draw.random() < 0.3:
        blocks += draw.choices(blocks, k=draw.choice([1, 2]))
    draw.shuffle(blocks)
    header = [version, FLIGHT_DATA_RECORDER, draw.choice([3, 1, 0xFFFFFFFC]), draw.choice([0, draw.randrange(WORD_64)]), 16_384, 0]
    draft = random_traces.Draft(header, blocks)
    if draw.random() < 0.25:
        draw.choice([random_traces.other_header, random_traces.other_extents, random_traces.other_records])(draw, draft)
        if draw.random() < 0.3:
            draft.header[0] = draw.choice([1, 6, 5, 4])
    if draw.random() < 0.4:
        draft.blocks = [[with_cut_end(draw, records), more] for records, more in draft.blocks]
    for _ in range(draw.choice([0, 0, 0, 0, 1, 3])):
        # A buffer that nothing was written into.
        draft.blocks.insert(draw.randint(0, len(draft.blocks)), [[], 0])
    return draft.file()


def passing(draw, owner, counter, sound):
    """A record of a passing, with the records of its argument behind it. Each field is sound with this probability.

    Some arguments have lost their entries: there are two of them, or the entry is another one's, or it isn't there.
    """
    thread, process = owner
    kind = draw.choice([0, 1, 0, 1, 2, 3, 3]) if draw.random() < sound else draw.choice([4, 5, 255])
    function = draw.choice([1, 2, 3, 0, (1 << 28) - 1]) if draw.random() < sound else draw.choice([1 << 28, WORD_32 - 1])
    tag = 0 if draw.random() < sound else draw.choice([2, 65_535])
    content = struct.pack("<HBBIQIIQ", tag, draw.randrange(256), kind, function, counter, thread, process, draw.randrange(WORD_64))
    for _ in range(draw.choice([1, 1, 0, 2]) if kind == 3 else draw.random() < 0.05):
        other, by, of = function, thread, process
        if draw.random() < 0.1:
            other, by, of = draw.choice([(function + 1, thread, process), (function, thread + 1, process), (function, thread, process + 1)])
        content += struct.pack("<HHIIIQQ", 1, draw.randrange(9), other % WORD_32, by % WORD_32, of % WORD_32, draw.randrange(WORD_64), 0)
    return content[32:] if kind == 3 and draw.random() < 0.1 else content


def basic_log(draw):
    """Threads that alternate at each record, sometimes or seldom; a thread with several processes; counters that rise, fall or
    are anything; and records that stand in the log again."""
    version = draw.choice([3, 3, 3, 3, 3, 1, 2, 2, 4, 5])
    content = struct.pack("<HHIQQQ", version, 0, draw.choice([3, draw.randrange(WORD_32)]), draw.randrange(WORD_64), 0, 0)
    owners = draw.choice([[(1, 1), (2, 1), (1, 2)], [(7, 1), (2, 1)], [(WORD_32 - 1, 1), (0, 0), (5, 3), (5, 4), (5, 5)]])
    change, again = draw.choice([0.05, 0.3, 1]), draw.choice([0, 0, 0.2])
    step, sound = draw.choice([1, 10, -1, None]), draw.choice([1, 1, 0.97])
    owner, counter, passings = owners[0], 1 << 32, []
    for _ in range(draw.choice([0, 1, 3, 10, 40, 120])):
        if draw.random() < change:
            owner = draw.choice(owners)
        counter = random_traces.counter(draw) if step is None else counter + step * draw.randrange(3) - 5 * (draw.random() < 0.02)
        passings.append(draw.choice(passings) if passings and draw.random() < again else passing(draw, owner, counter, sound))
    return content + b"".join(passings)


def random_log(draw):
    content = basic_log(draw) if draw.random() < 0.3 else recorder_log(draw)
    return random_traces.other_file(draw, content) if draw.random() < 0.15 else content
