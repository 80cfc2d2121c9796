"""A model of reports on a trace: matched pairs, the account, the stacks, and the YAML of `convert`.

It is written from docs/formats and docs/commands alone, and shares nothing with the program or its definitions.
"""
import collections
import dataclasses

from . import flame_model, map_model
from .image_model import Refused
from .trace_model import CONSTANT, ENTRIES, ENTRY_ARGS, NONSTOP, WORD_64

DEPTH_LIMIT = 4096
COLUMN = 10

# ---- Names


def names_of_image(image):
    """The names that an image gives to the ids of functions."""
    starts = dict(image.functions)
    return {one: starts[entry.function] for one, entry in zip(image.ids, image.entries)}


def namer(names, spelled):
    """How functions are named: by their names as a form spells them, and otherwise by their number."""
    return lambda function: text_of(spelled(names[function])) if function in names else f"#{function}"


def text_of(name):
    return name.decode("utf-8", "surrogateescape")


# ---- Pairs


@dataclasses.dataclass(frozen=True)
class Pair:
    """An entry and the exit that ended it, by their positions among a thread's events.

    `above` are the positions that were open just before the entry. The last of them is the parent.
    """

    function: int
    entry: int
    exit: int
    duration: int
    above: tuple


@dataclasses.dataclass(frozen=True)
class Matched:
    """What the events of a thread say: the pairs by their exits, how deep the open list got, and what is in no pair."""

    pairs: list
    depth: int
    entries: collections.Counter
    exits: collections.Counter


def matched(events):
    """An exit ends the last open entry of its function, and all entries above that are closed with it."""
    is_open, pairs, depth = [], [], 0
    entries, exits = collections.Counter(), collections.Counter()
    for at, event in enumerate(events):
        if event.action in ENTRIES:
            is_open.append(at)
            entries[event.function] += 1
            depth = max(depth, len(is_open))
            continue
        of_function = [level for level, entry in enumerate(is_open) if events[entry].function == event.function]
        if not of_function:
            exits[event.function] += 1
            continue
        level = of_function[-1]
        entry = is_open[level]
        duration = (event.tsc - events[entry].tsc) % WORD_64
        pairs.append(Pair(event.function, entry, at, duration, tuple(is_open[:level])))
        entries[event.function] -= 1
        del is_open[level:]
    return Matched(pairs, depth, entries, exits)


# ---- The account


@dataclasses.dataclass(frozen=True)
class AccountRow:
    """The fields have the names of the columns."""

    funcid: int
    count: int
    min: int
    med: int
    p90: int
    p99: int
    max: int
    sum: int
    entries: int
    exits: int


SORT_FIELDS = {"90p": "p90", "99p": "p99"}
HEAD = ["funcid", "count", "min", "med", "90p", "99p", "max", "sum", "entries", "exits", "function"]


def account_row(function, durations, entries, exits):
    ordered = sorted(durations)
    n = len(ordered)
    if n == 0:
        return AccountRow(function, 0, 0, 0, 0, 0, 0, 0, entries, exits)
    items = [ordered[n // 2], ordered[9 * n // 10], ordered[99 * n // 100]]
    return AccountRow(function, n, ordered[0], *items, ordered[-1], sum(ordered), entries, exits)


def account_of(trace):
    """A row for each function that has an event, by ascending id."""
    durations = collections.defaultdict(list)
    entries, exits = collections.Counter(), collections.Counter()
    functions = set()
    for thread in trace.threads:
        events = trace.events_of(thread)
        functions.update(event.function for event in events)
        of_thread = matched(events)
        for pair in of_thread.pairs:
            durations[pair.function].append(pair.duration)
        entries.update(of_thread.entries)
        exits.update(of_thread.exits)
    return [account_row(one, durations[one], entries[one], exits[one]) for one in sorted(functions)]


def ordered_rows(rows, sort, is_descending, top):
    """Rows with the same key are in ascending order of ids, in both directions."""
    field = SORT_FIELDS.get(sort, sort)
    sign = -1 if is_descending else 1
    rows = sorted(rows, key=lambda row: (sign * getattr(row, field), row.funcid))
    return rows if top is None else rows[:top]


def account_text(trace, names, options):
    rows = account_of(trace)
    latencies = sum(row.count > 0 for row in rows)
    shown = ordered_rows(rows, options["sort"], options["sortorder"] == "desc", options["top"])
    name_of = namer(names, map_model.csv_field if options["format"] == "csv" else map_model.plain)
    lines = [HEAD, *([*row_words(row), name_of(row.funcid)] for row in shown)]
    if options["format"] == "csv":
        return "".join(",".join(words) + "\n" for words in lines)
    columns = [[word.rjust(COLUMN) for word in words] + [name] for *words, name in lines]
    return f"Functions with latencies: {latencies}\n" + "".join(" ".join(words) + "\n" for words in columns)


def row_words(row):
    words = [str(value) for value in dataclasses.astuple(row)]
    return words if row.count > 0 else [*words[:2], *"-" * 6, *words[8:]]


# ---- The stacks


@dataclasses.dataclass
class StackRow:
    """The calls of a path, how long they took, and how long without the calls that they made."""

    count: int = 0
    sum: int = 0
    own: int = 0


def stacks_of(trace):
    """The rows of the threads of a trace."""
    threads = {thread: trace.events_of(thread) for thread in trace.threads}
    for thread, events in threads.items():
        if matched(events).depth > DEPTH_LIMIT:
            raise Refused("Deep", thread)
    return stack_rows(threads.values())


def stack_rows(threads):
    """The rows of threads, each with its events, by their paths of function ids, in the order of these as lists."""
    rows = collections.defaultdict(StackRow)
    for events in threads:
        pairs = matched(events).pairs
        children = collections.Counter()
        for pair in pairs:
            if pair.above:
                children[pair.above[-1]] += pair.duration
        for pair in pairs:
            path = tuple(events[at].function for at in (*pair.above, pair.entry))
            rows[path].count += 1
            rows[path].sum += pair.duration
            rows[path].own += max(0, pair.duration - children[pair.entry])
    return sorted(rows.items())


def stack_text(trace, names, options):
    return rows_text(stacks_of(trace), names, options, trace.header.frequency)


def rows_text(rows, names, options, frequency=0):
    """The text of these rows. The counter has this frequency."""
    if options["format"] == "svg":
        rows = [flame_model.PathRow(path, row.count, row.sum, row.own) for path, row in rows]
        return flame_model.flame_text(rows, namer(names, map_model.plain), frequency)
    name_of = namer(names, map_model.frame)
    named = [(";".join(map(name_of, path)), row) for path, row in rows]
    if options["format"] == "flame":
        return "".join(f"{path} {row.own}\n" for path, row in named)
    lines = [("count", "sum", "self", "stack"), *((row.count, row.sum, row.own, path) for path, row in named)]
    return "".join(" ".join([*(str(number).rjust(COLUMN) for number in numbers), path]) + "\n" for *numbers, path in lines)


# ---- The YAML

KINDS = ["function-enter", "function-exit", "function-tail-exit", "function-enter-arg"]


def arguments(event):
    return f", args: [ {event.arg} ]" if event.action == ENTRY_ARGS else ""


def said(flag):
    return "true" if flag else "false"


def yaml_text(trace, names, options):
    """The events in the order of the file, block by block."""
    name_of = namer(names, lambda name: map_model.yaml_text(name)[1:-1])
    items = [
        f"  - {{ type: 0, func-id: {event.function}, function: '{name_of(event.function)}', cpu: {event.cpu}, "
        f"thread: {block.thread}, process: {block.pid}, kind: {KINDS[event.action]}{arguments(event)}, tsc: {event.tsc} }}"
        for block in trace.blocks
        for event in block.events
    ]
    head = [
        "---", "header:", f"  version: {trace.header.version}", "  type: 1", f"  constant-tsc: {said(trace.header.flags & CONSTANT)}",
        f"  nonstop-tsc: {said(trace.header.flags & NONSTOP)}", f"  cycle-frequency: {trace.header.frequency}",
    ]  # fmt: skip
    return "".join(line + "\n" for line in [*head, *(["records:", *items] if items else ["records: []"]), "..."])
