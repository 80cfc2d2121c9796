"""A model of runs of threads beside a patcher: which marks follow a script, and which segments may be lost.

It is written from docs/formats and docs/commands alone, and shares nothing with the program or its definitions. No
schedule states the order of a run, so the model can't say what its outcome is. It judges the marks and the losses that
a run shows, and says what a run with these leaves.
"""
import bisect
import collections
import dataclasses
import re

from .image_model import ENTRY_ARGS
from .replay_model import ENTRY_HEAD, HEAD, ID, INITIALIZED, OFFSET, OPCODE, TracedThread, Words
from .trace_model import Buffers


class Unlawful(Exception):
    """What a run shows can't be an outcome of its script."""


# ---- What a run shows


@dataclasses.dataclass(frozen=True)
class Shown:
    """The marks of a thread, and how many of its segments are lost."""

    marks: str
    lost: int


def shown_by(audit):
    """What the threads of an audit show, thread 1 first, or None if the bytes aren't an audit."""
    head, *lines = audit.decode("ascii", errors="replace").splitlines() or [""]
    if head != "xray-audit 1":
        return None
    firsts = [re.fullmatch(r"thread [0-9]+ .* first ([0-9]+)", line) for line in lines]
    marks = [line.removeprefix("marks ") for line in lines if line.startswith("marks ")]
    firsts = [int(found[1]) for found in firsts if found]
    if len(firsts) != len(marks):
        return None
    return [Shown(marks_of(runs), lost) for runs, lost in zip(marks, firsts)]


def marks_shown_by(states):
    """The marks of the threads of state texts, thread 1 first."""
    return [marks_of(line.removeprefix("marks ")) for line in states.splitlines() if line.startswith("marks ")]


def marks_of(runs):
    """The marks of a text of runs."""
    return "".join(run[0] * int(run[1:]) for run in runs.split() if re.fullmatch(r"[.nf+a][0-9]+", run))


# ---- Places of a script, and the loads that a thread may make there


@dataclasses.dataclass(frozen=True)
class Await:
    """A micro step that waits until a thread has made some passings."""

    thread: int
    count: int


class Course:
    """The micro steps of a script, and which value each word has after some of them."""

    def __init__(self, image, commands, threads):
        words = Words(image, threads)
        self.words = words
        self.kinds = [entry.kind for entry in image.entries]
        self.release = {thread: words.state + thread for thread in range(1, threads + 1)}
        self.holds = {command.thread: command.numbers[1] for command in commands if command.name == "hold"}
        # For each word, the places at which its value changes, and the values from there on.
        self.places = [[0] for _ in words.values]
        self.values = [[value] for value in words.values]
        self.awaits = collections.defaultdict(list)
        self.start = self.total = 0
        for command in commands:
            if command.name == "go":
                self.start = self.total
            for step in self.micro_steps(command):
                self.make(step)

    def micro_steps(self, command):
        match command.name, command.numbers:
            case "release", (thread,):
                yield self.release[thread], 1
            case "await", (thread, count):
                yield Await(thread, count)
            case _:
                yield from self.words.stores([command])

    def make(self, step):
        match step:
            case Await(thread, count):
                # A smaller count after a greater one bounds nothing.
                if not self.awaits[thread] or count > self.awaits[thread][-1][0]:
                    self.awaits[thread].append((count, self.total))
            case (word, value):
                self.places[word].append(self.total + 1)
                self.values[word].append(value)
        self.total += 1

    def bound(self, thread, passing):
        """The last place of a passing: the patcher doesn't pass an await before the passings that it waits for."""
        awaits = self.awaits[thread]
        at = bisect.bisect_right(awaits, passing, key=lambda one: one[0])
        return awaits[at][1] if at < len(awaits) else self.total

    def place_of(self, word, accepts, place):
        """The first place from `place` on at which a word has a value that is accepted, or None."""
        places, values = self.places[word], self.values[word]
        at = bisect.bisect_right(places, place) - 1
        while at < len(values) and not accepts(values[at]):
            at += 1
        return max(place, places[at]) if at < len(values) else None

    def ways(self, thread, passing, sled, mark):
        """The ways to a mark: the words that a passing loads, each with a test of its value."""
        held = [(self.release[thread], (1).__eq__)] if self.holds.get(thread) == passing else []
        head = 4 * sled + HEAD
        if mark == ".":
            return [[*held, (head, self.is_unpatched(sled))]]
        patched = [(4 * sled + part, self.words.patched[sled][part].__eq__) for part in (HEAD, ID, OPCODE, OFFSET)]
        return [[*held, *patched, *way] for way in self.handler_ways(sled, mark)]

    def handler_ways(self, sled, mark):
        """The loads after the parts of a patched sled. Only a sled that logs arguments loads the argument handler's word.

        If that is set, the handler's word isn't loaded.
        """
        logs = self.kinds[sled] == ENTRY_ARGS
        state = self.words.state, INITIALIZED.__ne__ if mark == "f" else INITIALIZED.__eq__
        handler = self.words.handler, (0 if mark == "n" else 1).__eq__
        without = [(self.words.arg_handler, (0).__eq__)] if logs else []
        with_argument = [[(self.words.arg_handler, (1).__eq__), state]] if logs else []
        match mark:
            case "n":
                return [[*without, handler]]
            case "+":
                return [[*without, handler, state]]
            case "a":
                return with_argument
            case "f":
                return [[*without, handler, state], *with_argument]
        return []

    def is_unpatched(self, sled):
        if self.words.sleds[sled].name == "entry":
            return ENTRY_HEAD.__eq__
        return lambda head: head % 256 == 0xC3

    def check(self, thread, sleds, marks):
        """Checks that a thread which passes these sleds may have these marks.

        Each load is made as early as it may be, and of several ways to a mark that one is taken which ends first. If there
        are places for the marks at all, these are.
        """
        place = self.start
        for passing, (sled, mark) in enumerate(zip(sleds, marks)):
            ends = [self.end_of(way, place) for way in self.ways(thread, passing, sled, mark)]
            ends = [end for end in ends if end is not None]
            if not ends:
                raise Unlawful(f"thread {thread}: passing {passing} can't come to {mark} from {place}")
            place = min(ends)
            if place > self.bound(thread, passing):
                raise Unlawful(f"thread {thread}: passing {passing} comes to {place} for {mark}, past an await")

    def end_of(self, way, place):
        """The place of the last of these loads, if each is made as early as it may be, or None if one can't be made."""
        for word, accepts in way:
            place = self.place_of(word, accepts, place)
            if place is None:
                return None
        return place


# ---- Losses


def may_lose(options, segments, lost):
    """Whether threads with this many segments may lose this many of them.

    All threads share one pool of buffers. Each keeps its last segment, and no segment is lost while a buffer is unused.
    """
    sealed = [max(0, count - 1) for count in segments]
    spare = options["buffer-max"] - options["threads"]
    return all(one <= most for one, most in zip(lost, sealed)) and sum(lost) == max(0, sum(sealed) - spare)


# ---- Runs


class MarkedThread(TracedThread):
    """A thread whose passings have the marks that a run shows, and that notes which sleds it passes."""

    def __init__(self, image, number, options, words, record, marks):
        self.passed = []
        self.left = iter(marks)
        super().__init__(image, number, options, words, record)

    def passing(self, sled):
        """The mark is known, so no load is made."""
        self.passed.append(sled)
        yield from ()
        return next(self.left, "none")


class Segments(Buffers):
    """The segments of the threads of a run, without those that are lost."""

    def record(self, thread, event):
        self.threads[thread - 1].add(event)


def ended_by(image, commands, options, marks, record):
    """The threads of a run at their ends, if they may have these marks. `record` is called with what they record."""
    threads = range(1, options["threads"] + 1)
    if len(marks) != len(threads):
        raise Unlawful(f"the marks of {len(marks)} threads")
    course = Course(image, commands, options["threads"])
    ended = []
    for number, own in zip(threads, marks):
        thread = MarkedThread(image, number, options, course.words, record, own)
        if len(thread.marks) != len(own):
            raise Unlawful(f"thread {number}: {len(own)} marks of {len(thread.marks)} passings")
        course.check(number, thread.passed, own)
        ended.append(thread)
    return ended


def ran(image, commands, options, shown):
    """The threads of a run at their ends, and the segments of what they recorded, if the run may show this."""
    segments = Segments(options["threads"], options["buffer-size"], options["buffer-max"])
    ended = ended_by(image, commands, options, [one.marks for one in shown], segments.record)
    for recorded, one in zip(segments.threads, shown):
        recorded.lost = one.lost
    counts = [len(one.segments) for one in segments.threads]
    lost = [one.lost for one in shown]
    if not may_lose(options, counts, lost):
        raise Unlawful(f"segments {counts}, lost {lost}")
    return ended, segments
