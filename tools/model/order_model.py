"""A model of the order of a finished run: a script that doesn't wait, and a schedule whose replay has the run's marks.

It is written from docs alone, and shares nothing with the program or its definitions.
"""
import itertools
import re

from .check_model import follows, marked, plain_end
from .image_model import ENTRY_ARGS, Refused
from .replay_model import HEAD, INITIALIZED, LINE_LIMIT, PATCHED_HEAD, WAITING, Words

# A passing of a patched sled loads all four parts at one place.
PARTS = 4

# ---- The script without its waits


def free_text(script, commands):
    """The text of a script without the lines of these commands that wait. All other lines stay as they are."""
    waiting = {command.line for command in commands if command.name in WAITING}
    lines = re.findall(rb"[^\n]*\n|[^\n]+", script)
    return b"".join(line for number, line in enumerate(lines, start=1) if number not in waiting)


def free_places(image, commands, threads):
    """For each place of a script, its place in the script without waits: the stores before it that aren't releases."""
    words = Words(image, threads)
    kept = []
    for command in commands:
        # A hold has no micro step, and a release and an await have one.
        kept += [0] if command.name in ("release", "await") else [1 for _ in words.stores([command])]
    return [0, *itertools.accumulate(kept)]


# ---- The loads of threads


def loads_of_passing(course, thread, passing, sled, mark, place):
    """The loads of a passing after a place, as pairs of their place and how many there are. Loads of a release aren't counted.

    Each load is at the first place at which it may lead to the mark. The id, the opcode and the offset are loaded where
    the head is found patched. Where an `f` needs either handler, it is looked for at the first place at which one is set.
    """
    if course.holds.get(thread) == passing:
        place = course.place_of(course.release[thread], (1).__eq__, place)
    head = 4 * sled + HEAD
    if mark == ".":
        return [(course.place_of(head, PATCHED_HEAD.__ne__, place), 1)]
    place = course.place_of(head, PATCHED_HEAD.__eq__, place)
    loads = [(place, PARTS)]
    for find in finds_of(course, course.kinds[sled] == ENTRY_ARGS, mark):
        place, count = find(place)
        loads.append((place, count))
    return loads


def finds_of(course, logs, mark):
    """What a passing of a patched sled has to find for a mark: functions from a place to the next one, with the number of loads."""
    handler, arg_handler, state = course.words.handler, course.words.arg_handler, course.words.state

    def found(word, accepts):
        return lambda place: (course.place_of(word, accepts, place), 1)

    def either(place):
        first = [at for at in (course.place_of(word, (1).__eq__, place) for word in (arg_handler, handler)) if at is not None]
        at = min(first)
        return at, 1 if course.place_of(arg_handler, (1).__eq__, at) == at else 2

    unset = [found(arg_handler, (0).__eq__)] if logs else []
    match mark:
        case "n":
            return [*unset, found(handler, (0).__eq__)]
        case "+":
            return [*unset, found(handler, (1).__eq__), found(state, INITIALIZED.__eq__)]
        case "a":
            return [found(arg_handler, (1).__eq__), found(state, INITIALIZED.__eq__)]
        case "f":
            return [either if logs else found(handler, (1).__eq__), found(state, INITIALIZED.__ne__)]


def loads_of_thread(course, thread, sleds, marks):
    """The loads of a thread that passes these sleds with these marks, passing by passing."""
    place = course.start
    for passing, (sled, mark) in enumerate(zip(sleds, marks)):
        loads = loads_of_passing(course, thread, passing, sled, mark, place)
        yield from loads
        place = loads[-1][0]


# ---- The schedule


def turns_of_run(course, free, threads, audit):
    """The turns of a run: those of its threads by place, and the patcher's between them, as (thread or 0, how many)."""
    loads = [
        (free[place], number, count)
        for number, (entry, thread) in enumerate(zip(audit.entries, threads), start=1)
        for place, count in loads_of_thread(course, number, thread.passed, entry.marks)
    ]
    at = free[course.start]
    for (place, number), group in itertools.groupby(sorted(loads), key=lambda load: load[:2]):
        if place > at:
            yield 0, place - at
            at = place
        yield number, sum(count for _, _, count in group)
    if free[course.total] > at:
        yield 0, free[course.total] - at


def line_of(turn):
    number, count = turn
    return f"t {number} {count}\n" if number else f"p {count}\n"


def schedule_text(image, commands, audit):
    """The schedule of the run of an audit, or why it has none."""
    options = audit.options
    for number, entry in enumerate(audit.entries, start=1):
        if (entry.end, entry.passings) != plain_end(image, number, options):
            raise Refused("Ends", number)
    course, threads, _ = marked(image, commands, audit)
    for number, (entry, thread) in enumerate(zip(audit.entries, threads), start=1):
        if not follows(course, number, thread.passed, entry):
            raise Refused("Marks", number)
    free = free_places(image, commands, options["threads"])
    lines = [line_of(turn) for turn in turns_of_run(course, free, threads, audit)]
    if len(lines) > LINE_LIMIT:
        raise Refused("Long")
    return "".join(lines).encode("ascii")
