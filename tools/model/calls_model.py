"""A model of reports on single calls and on threads: `calls` and `threads`.

It is written from what the two reports mean alone, and shares nothing with the program or its definitions. A call is an entry
and the exit that ends it. An exit ends the last open entry of its function in its thread, and closes those above it.
"""
import dataclasses

from . import map_model
from .report_model import COLUMN, namer
from .trace_model import ENTRIES, ENTRY_ARGS, WORD_64

# ---- Events with their numbers


@dataclasses.dataclass(frozen=True)
class Numbered:
    """An event with its number among all events of the file, its thread and its process."""

    number: int
    thread: int
    process: int
    event: object


def numbered(trace):
    said = ((block, event) for block in trace.blocks for event in block.events)
    return [Numbered(number, block.thread, block.pid, event) for number, (block, event) in enumerate(said)]


# ---- Calls


@dataclasses.dataclass(frozen=True)
class Call:
    """A call by its entry and its exit, with the entries that were open just before its own, the last of them innermost."""

    entry: Numbered
    exit: Numbered
    above: tuple

    @property
    def duration(self):
        return (self.exit.event.tsc - self.entry.event.tsc) % WORD_64

    @property
    def parent(self):
        return self.above[-1].number if self.above else None


def calls_of_thread(events):
    """The calls of the events of a thread. For each exit, the open entries are found anew from the start."""
    calls = []
    for place, exit_ in enumerate(events):
        if exit_.event.action in ENTRIES:
            continue
        is_open = open_entries(events[:place])
        own = [level for level, entry in enumerate(is_open) if entry.event.function == exit_.event.function]
        if own:
            entry = is_open[own[-1]]
            before = [event for event in events if event.number < entry.number]
            calls.append(Call(entry, exit_, tuple(open_entries(before))))
    return calls


def open_entries(events):
    """The entries that are open after events, the innermost last."""
    is_open = []
    for one in events:
        if one.event.action in ENTRIES:
            is_open.append(one)
            continue
        levels = [level for level, entry in enumerate(is_open) if entry.event.function == one.event.function]
        if levels:
            del is_open[levels[-1]:]
    return is_open


def calls_of(trace):
    """The calls of all threads, in the order in which they end in the file."""
    events = numbered(trace)
    threads = {one.thread for one in events}
    calls = [call for thread in threads for call in calls_of_thread([one for one in events if one.thread == thread])]
    return sorted(calls, key=lambda call: call.exit.number)


# ---- Rows of calls

CALLS_HEAD = ["call", "parent", "thread", "process", "cpu", "start", "duration", "self", "depth", "arg", "funcid", "function"]


@dataclasses.dataclass(frozen=True)
class CallRow:
    """The fields have the names of the columns, but for `own`, which is `self`."""

    call: int
    parent: object
    thread: int
    process: int
    cpu: int
    start: int
    duration: int
    own: int
    depth: int
    arg: object
    funcid: int


def call_rows(trace):
    calls = calls_of(trace)
    rows = []
    for call in calls:
        inner = sum(other.duration for other in calls if other.parent == call.entry.number)
        event = call.entry.event
        arg = event.arg if event.action == ENTRY_ARGS else None
        rows.append(CallRow(
            call.entry.number, call.parent, call.entry.thread, call.entry.process, event.cpu, event.tsc, call.duration,
            max(0, call.duration - inner), len(call.above), arg, event.function,
        ))  # fmt: skip
    return rows


def shown_calls(rows, options):
    """The wanted rows in order. Rows with the same key stay in the order of their ends, in both directions."""
    wanted = [
        row for row in rows
        if options["function"] in (None, row.funcid) and options["thread"] in (None, row.thread) and row.duration >= options["least"]
    ]  # fmt: skip
    is_descending = options["sortorder"] == "desc"
    if options["sort"] == "end":
        ordered = wanted[::-1] if is_descending else wanted
    else:
        field = "own" if options["sort"] == "self" else options["sort"]
        ordered = sorted(wanted, key=lambda row: -getattr(row, field) if is_descending else getattr(row, field))
    return ordered if options["top"] is None else ordered[: options["top"]]


def calls_text(trace, names, options):
    is_csv = options["format"] == "csv"
    name_of = namer(names, map_model.csv_field if is_csv else map_model.plain)
    rows = shown_calls(call_rows(trace), options)
    lines = [CALLS_HEAD, *([*words_of(dataclasses.astuple(row), is_csv), name_of(row.funcid)] for row in rows)]
    if is_csv:
        return "".join(",".join(words) + "\n" for words in lines)
    return "".join(" ".join([*(word.rjust(COLUMN) for word in words), name]) + "\n" for *words, name in lines)


def words_of(values, is_csv):
    return [("" if is_csv else "-") if value is None else str(value) for value in values]


# ---- Rows of threads

THREADS_HEAD = ["thread", "process", "blocks", "events", "calls", "first", "last", "gap", "back"]


def thread_row(trace, thread, calls):
    """`gap` looks at neighbouring blocks that have events, and `back` at neighbouring events."""
    blocks = [block for block in trace.blocks if block.thread == thread]
    counters = [event.tsc for block in blocks for event in block.events]
    filled = [block.events for block in blocks if block.events]
    gaps = [after[0].tsc - before[-1].tsc for before, after in zip(filled, filled[1:])]
    back = sum(after < before for before, after in zip(counters, counters[1:]))
    own = sum(call.entry.thread == thread for call in calls)
    first, last = (min(counters), max(counters)) if counters else (None, None)
    return (thread, blocks[0].pid, len(blocks), len(counters), own, first, last, max([0, *gaps]), back)


def threads_text(trace, options):
    is_csv = options["format"] == "csv"
    calls = calls_of(trace)
    threads = sorted({block.thread for block in trace.blocks})
    lines = [THREADS_HEAD, *(words_of(thread_row(trace, thread, calls), is_csv) for thread in threads)]
    if is_csv:
        return "".join(",".join(words) + "\n" for words in lines)
    return "".join(" ".join(word.rjust(COLUMN) for word in words) + "\n" for words in lines)
