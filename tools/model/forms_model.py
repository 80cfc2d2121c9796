"""A model of further forms of a trace: trace events, basic logs both ways, and dumps.

It is written from docs/formats and docs/commands alone, and shares nothing with the program or its definitions. The
text of trace events is that of Python's `json`.
"""
import itertools
import json
import struct

from . import map_model
from .image_model import Refused
from .report_model import namer
from .trace_model import (
    CALL_ARGUMENT,
    CONSTANT,
    ENTRIES,
    ENTRY_ARGS,
    EXTENTS,
    FUNCTION,
    HEADER_LENGTH,
    NEW_BUFFER,
    NEW_CPU,
    NONSTOP,
    PID,
    PREAMBLES,
    TSC_WRAP,
    WALL_TIME,
    Block,
    Event,
    Header,
    Reader,
    Trace,
    block_of,
    trace_of,
)

MOST_EVENTS = 1_048_576
BASIC_VERSION, BASIC_TYPE = 3, 0
BASIC_RECORD = struct.Struct("<HBBIQIIQ")
MOST_BYTE = 255


def with_threads(trace):
    """The events in the file's order, each with its thread and its process."""
    return [(block.thread, block.pid, event) for block in trace.blocks for event in block.events]


# ---- Trace events


def event_object(name_of, thread, pid, event):
    """An event as JSON."""
    fields = {
        "name": name_of(event.function),
        "ph": "B" if event.action in ENTRIES else "E",
        "ts": event.tsc,
        "pid": pid,
        "tid": thread,
        "cpu": event.cpu,
    }
    return fields | ({"args": {"arg": event.arg}} if event.action == ENTRY_ARGS else {})


def events_text(trace, names):
    """What `convert --format trace-event` prints."""
    events = with_threads(trace)
    if len(events) > MOST_EVENTS:
        raise Refused("Many")
    objects = [event_object(namer(names, map_model.plain), *event) for event in events]
    return json.dumps({"traceEvents": objects}, sort_keys=True, separators=(",", ":"), ensure_ascii=False) + "\n"


def events_read(text):
    """The events of such a text, as (thread, process, name, CPU, whether it begins a call, counter, argument or None)."""
    return [
        (one["tid"], one["pid"], one["name"], one["cpu"], one["ph"] == "B", one["ts"], one.get("args", {}).get("arg"))
        for one in json.loads(text)["traceEvents"]
    ]


# ---- Basic logs


def basic_bytes(trace):
    """What `convert --format basic` prints."""
    events = with_threads(trace)
    for number, (_, _, event) in enumerate(events):
        if event.cpu > MOST_BYTE:
            raise Refused("Cpu", number)
    header = struct.pack("<HHIQ16x", BASIC_VERSION, BASIC_TYPE, CONSTANT | NONSTOP, trace.header.frequency)
    return header + b"".join(itertools.starmap(basic_record, events))


def basic_record(thread, pid, event):
    arg = event.arg if event.action == ENTRY_ARGS else 0
    return BASIC_RECORD.pack(0, event.cpu, event.action, event.function, event.tsc, thread, pid, arg)


def basic_trace(content):
    """The trace of a basic log. Its blocks are the runs of one thread and one process."""
    if len(content) < HEADER_LENGTH:
        raise Refused("Short", 0)
    version, form, flags, frequency = struct.unpack_from("<HHIQ", content)
    if version != BASIC_VERSION:
        raise Refused("Version", version)
    if form != BASIC_TYPE:
        raise Refused("Form", form)
    events = [basic_event(content, at) for at in range(HEADER_LENGTH, len(content), BASIC_RECORD.size)]
    runs = itertools.groupby(events, key=lambda event: event[:2])
    blocks = [Block(thread, (0, 0), pid, [event for *_, event in run]) for (thread, pid), run in runs]
    return Trace(Header(frequency, 0, flags % 4), blocks)


def basic_event(content, at):
    """The thread, the process and the event of the record at a place."""
    if len(content) - at < BASIC_RECORD.size:
        raise Refused("Short", at)
    tag, cpu, kind, function, tsc, thread, pid, arg = BASIC_RECORD.unpack_from(content, at)
    if tag:
        raise Refused("Tag", at, tag)
    if kind > ENTRY_ARGS:
        raise Refused("Kind", at, kind)
    return thread, pid, Event(cpu, function, kind, tsc, arg if kind == ENTRY_ARGS else 0)


# ---- Dumps

ACTION_WORDS = ("enter", "exit", "tail-exit", "enter-arg")
RECORD_LINES = {
    EXTENTS: "extents {}",
    NEW_BUFFER: "new-buffer {}",
    WALL_TIME: "wall-time {}.{}",
    PID: "pid {}",
    NEW_CPU: "new-cpu {} {}",
    TSC_WRAP: "tsc-wrap {}",
    CALL_ARGUMENT: "call-argument {}",
}  # fmt: skip


def record_words(kind, fields):
    if kind != FUNCTION:
        return RECORD_LINES[kind].format(*fields)
    function, action, delta = fields
    return f"function {ACTION_WORDS[action]} {function} delta {delta}"


def reader_of(content):
    """The records of a file whose header is that of a trace."""
    return Reader(content, PREAMBLES[trace_of(content[:HEADER_LENGTH]).header.version])


def readable(content):
    """The length of the longest prefix that is a trace."""
    reader = reader_of(content)
    end = reader.at
    while reader.at < len(content):
        try:
            block_of(reader)
        except Refused:
            break
        end = reader.at
    return end


def last_line(content, end):
    """Where the file ends, or where it can't be read further, and why."""
    try:
        trace_of(content)
    except Refused as refused:
        return f"stop {end} {refused.reason}"
    return f"end {end}"


def dump_text(content):
    """What `fdr-dump` prints."""
    end = readable(content)
    (version,) = struct.unpack_from("<H", content)
    lines = [f"0 header version {version} type 1"]
    reader = reader_of(content[:end])
    while reader.at < end:
        lines.append(f"{reader.at} {record_words(*reader.record())}")
        reader.at += reader.length()
    return "\n".join([*lines, last_line(content, end)]) + "\n"
