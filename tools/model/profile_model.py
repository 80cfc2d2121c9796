"""A model of `profile`: what the recorder of each thread comes to, and the rows of all threads.

It is written from docs/formats and docs/commands alone, and shares nothing with the program or its definitions.
"""
from . import run_model
from .report_model import DEPTH_LIMIT, stack_rows
from .trace_model import ENTRIES

LIVE, FULL, DEEP = "live", "full", "deep"


def state_of(events, nodes):
    """Whether a thread's recorder takes all events, or why it stops. A node is a distinct path that an entry opened."""
    is_open, paths = [], set()
    for event in events:
        if event.action in ENTRIES:
            is_open.append(event.function)
            if len(is_open) > DEPTH_LIMIT:
                return DEEP
            paths.add(tuple(is_open))
            if len(paths) > nodes:
                return FULL
        elif event.function in is_open:
            while is_open.pop() != event.function:
                pass
    return LIVE


def trouble_of(threads, nodes):
    """Why the least thread stops that does, or None if none does."""
    for thread, events in enumerate(threads, start=1):
        state = state_of(events, nodes)
        if state != LIVE:
            return f"{state} {thread}"
    return None


def profiled(image, commands, options, marks):
    """The threads of a run at their ends, the trouble of their recorders, and the rows, if the run may show these marks."""
    events = [[] for _ in marks]
    ended = run_model.ended_by(image, commands, options, marks, lambda thread, event: events[thread - 1].append(event))
    return ended, trouble_of(events, options["nodes"]), stack_rows(events)
