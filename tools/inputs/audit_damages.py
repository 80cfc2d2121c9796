"""Damages of what a run left: of its audit, its trace, and the script and the image that they are checked against."""
import dataclasses
import re

from model import check_model
from model.check_model import Audit, audit_of, trace_of_audit
from model.image_model import image_of
from model.replay_model import commands_of, runs_text
from model.trace_model import AuditLine, audit_text, file_bytes, trace_of


@dataclasses.dataclass(frozen=True)
class Left:
    """What a run left, and what it was made from."""

    image: bytes
    script: bytes
    trace: bytes
    audit: bytes

    @property
    def lines(self):
        """The lines of the audit, each with its line feed."""
        return self.audit.decode("ascii").splitlines(keepends=True)

    def with_lines(self, lines):
        return dataclasses.replace(self, audit="".join(lines).encode("ascii"))

    def with_trace(self, trace):
        return dataclasses.replace(self, trace=trace)


class Unfit(Exception):
    """There is nothing to damage in this way."""


def one_of(draw, items):
    items = list(items)
    if not items:
        raise Unfit
    return draw.choice(items)


# ---- Numbers of an audit


def other_number(draw, number):
    return max(0, draw.choice([number + 1, number + 1, number - 1, 0, 1, 2 * number, 1 << 32, 1 << 64]))


def with_other_number(draw, left, pattern):
    """Another number in the place of one that stands after these words."""
    found = one_of(draw, re.finditer(pattern + rb"([0-9]+)", left.audit))
    number = b"%d" % other_number(draw, int(found[1]))
    return dataclasses.replace(left, audit=left.audit[: found.start(1)] + number + left.audit[found.end(1) :])


def number_after(pattern):
    return lambda draw, left, other: with_other_number(draw, left, pattern)


SETTINGS = [
    "threads", "buffer-size", "buffer-max", "fuel", "passings", "tick", "tsc", "cpus", "migrate", "pid", "wall", "frequency",
]  # fmt: skip
NUMBERS = {f"the setting {name}": number_after(rb"[ \n]" + name.encode() + b"=") for name in SETTINGS}
NUMBERS |= {
    "the microseconds": number_after(rb"wall=[0-9]+\."),
    "the number of a thread": number_after(rb"thread "),
    "a number of passings": number_after(rb" passings "),
    "a number of recorded passings": number_after(rb" recorded "),
    "a number of segments": number_after(rb" segments "),
    "a number of lost segments": number_after(rb" first "),
    "the number of recycled segments": number_after(rb"\nrecycled "),
    "a number of marks": number_after(rb"[.nf+a]"),
}
ENDS = ["returned", "fuel", "passings", "output-full", "stack-full", "stack-empty", "bad-target", "gone"]


def other_end(draw, left, other):
    audit = re.sub(rb"(\nthread 1) [a-z-]+", rb"\1 " + one_of(draw, ENDS).encode(), left.audit)
    return dataclasses.replace(left, audit=audit)


# ---- Marks


def with_marks(draw, left, change):
    """Other marks of a thread that has some. The counts stay."""
    lines = left.lines
    at = one_of(draw, (at for at, line in enumerate(lines) if line.startswith("marks ") and line != "marks -\n"))
    runs = lines[at].split()[1:]
    return left.with_lines([*lines[:at], "marks " + change(runs) + "\n", *lines[at + 1 :]])


def of_marks(change):
    """A damage that changes the marks one by one."""

    def damage(draw, left, other):
        def changed(runs):
            marks = [mark for run in runs for mark in run[0] * int(run[1:])]
            change(draw, marks)
            return runs_text("".join(marks))

        return with_marks(draw, left, changed)

    return damage


def of_runs(change):
    """A damage that changes the runs of marks as they are written."""

    def damage(draw, left, other):
        def changed(runs):
            change(draw, runs)
            return " ".join(runs)

        return with_marks(draw, left, changed)

    return damage


def change_mark(draw, marks):
    marks[draw.randrange(len(marks))] = draw.choice(".nf+a")


def drop_mark(draw, marks):
    marks.pop(draw.randrange(len(marks)))


def add_mark(draw, marks):
    marks.insert(draw.randrange(len(marks) + 1), draw.choice(".nf+a"))


def exchange_marks(draw, marks):
    one, other = draw.randrange(len(marks)), draw.randrange(len(marks))
    marks[one], marks[other] = marks[other], marks[one]


def exchange_runs(draw, runs):
    one, other = draw.randrange(len(runs)), draw.randrange(len(runs))
    runs[one], runs[other] = runs[other], runs[one]


def double_run(draw, runs):
    at = draw.randrange(len(runs))
    runs.insert(at, runs[at])


def exchange_threads(draw, left, other):
    """The marks of two threads, each in the place of the other's."""
    lines = left.lines
    places = [at for at, line in enumerate(lines) if line.startswith("marks ")]
    one, two = one_of(draw, places), one_of(draw, places)
    lines[one], lines[two] = lines[two], lines[one]
    return left.with_lines(lines)


def fitted(left, audit):
    """An audit of other marks or losses, with counts and a trace that fit them. So only these can be found to be wrong."""
    image = image_of(left.image)
    commands = commands_of(left.script, image, audit.options["threads"])
    _, _, segments = check_model.marked(image, commands, audit)
    counts = [len(recorded.segments) for recorded in segments.threads]
    said = [
        AuditLine(
            entry.end, entry.passings, sum(mark in "+a" for mark in entry.marks), count, entry.first, runs_text(entry.marks)
        )
        for entry, count in zip(audit.entries, counts)
    ]
    wall = audit.options["wall"], audit.options["micros"]
    text = audit_text(audit.options, wall, said).encode("ascii")
    return dataclasses.replace(left, audit=text, trace=trace_of_audit(audit, segments))


def with_entry(draw, left, change):
    audit = audit_of(left.audit)
    at = draw.randrange(len(audit.entries))
    entries = list(audit.entries)
    entries[at] = change(entries[at])
    return fitted(left, Audit(audit.options, entries, audit.recycled))


def fit_mark(draw, left, other):
    def changed(entry):
        if not entry.marks:
            raise Unfit
        marks = list(entry.marks)
        change_mark(draw, marks)
        return dataclasses.replace(entry, marks="".join(marks))

    return with_entry(draw, left, changed)


def fit_marks(draw, left, other):
    """Marks of one kind from a passing on."""

    def changed(entry):
        at = draw.randrange(len(entry.marks) + 1)
        return dataclasses.replace(entry, marks=entry.marks[:at] + draw.choice(".nf+") * (len(entry.marks) - at))

    return with_entry(draw, left, changed)


def fit_loss(draw, left, other):
    return with_entry(draw, left, lambda entry: dataclasses.replace(entry, first=entry.first + 1))


# ---- Lines


def drop_line(draw, left, other):
    lines = left.lines
    lines.pop(draw.randrange(len(lines)))
    return left.with_lines(lines)


def double_line(draw, left, other):
    lines = left.lines
    at = draw.randrange(len(lines))
    return left.with_lines([*lines[:at], lines[at], *lines[at:]])


def exchange_lines(draw, left, other):
    lines = left.lines
    one, two = draw.randrange(len(lines)), draw.randrange(len(lines))
    lines[one], lines[two] = lines[two], lines[one]
    return left.with_lines(lines)


def cut_audit(draw, left, other):
    return dataclasses.replace(left, audit=left.audit[: draw.randrange(len(left.audit))])


def more_audit(draw, left, other):
    return dataclasses.replace(left, audit=left.audit + draw.choice([b"\n", b"x", b"recycled 0\n", left.audit]))


def change_character(draw, left, other):
    at = draw.randrange(len(left.audit))
    new = draw.choice([b"0", b" ", b"\n", b"\r\n", b"9", b"\xff", left.audit[at : at + 1] * 2])
    return dataclasses.replace(left, audit=left.audit[:at] + new + left.audit[at + 1 :])


def other_audit(draw, left, other):
    return dataclasses.replace(left, audit=other.audit)


# ---- The trace


def of_blocks(change):
    """A damage that changes the blocks of the trace, of which there has to be one."""

    def damage(draw, left, other):
        trace = trace_of(left.trace)
        blocks = list(trace.blocks)
        if not blocks:
            raise Unfit
        change(draw, blocks)
        return left.with_trace(file_bytes(dataclasses.replace(trace, blocks=blocks)))

    return damage


def drop_block(draw, blocks):
    blocks.pop(draw.randrange(len(blocks)))


def double_block(draw, blocks):
    at = draw.randrange(len(blocks))
    blocks.insert(at, blocks[at])


def exchange_blocks(draw, blocks):
    one, other = draw.randrange(len(blocks)), draw.randrange(len(blocks))
    blocks[one], blocks[other] = blocks[other], blocks[one]


def in_block(change):
    def changed(draw, blocks):
        at = draw.randrange(len(blocks))
        blocks[at] = change(draw, blocks[at])

    return of_blocks(changed)


def later_event(draw, block):
    events = list(block.events)
    at = draw.randrange(len(events)) if events else 0
    if not events:
        raise Unfit
    events[at] = dataclasses.replace(events[at], tsc=(events[at].tsc + 1) % (1 << 64))
    return dataclasses.replace(block, events=events)


def fewer_events(draw, block):
    return dataclasses.replace(block, events=block.events[:-1])


def of_another_thread(draw, block):
    return dataclasses.replace(block, thread=block.thread + 1)


def change_byte(draw, left, other):
    at = draw.randrange(len(left.trace))
    return left.with_trace(left.trace[:at] + bytes([left.trace[at] ^ 1 << draw.randrange(8)]) + left.trace[at + 1 :])


def change_last_byte(draw, left, other):
    return left.with_trace(left.trace[:-1] + bytes([left.trace[-1] ^ 1]))


def cut_trace(draw, left, other):
    return left.with_trace(left.trace[: draw.randrange(len(left.trace))])


def more_trace(draw, left, other):
    return left.with_trace(left.trace + draw.choice([b"\0", bytes(16), left.trace]))


def other_trace(draw, left, other):
    return left.with_trace(other.trace)


# ---- What they are checked against


def drop_command(draw, left, other):
    lines = left.script.splitlines(keepends=True)
    lines.pop(one_of(draw, range(len(lines))))
    return dataclasses.replace(left, script=b"".join(lines))


def other_script(draw, left, other):
    return dataclasses.replace(left, script=other.script)


def other_image(draw, left, other):
    return dataclasses.replace(left, image=other.image)


# The damages by their names. Each is given random numbers, what a run left, and what another run left.
DAMAGES = NUMBERS | {
    "an end": other_end,
    "a mark": of_marks(change_mark),
    "a mark less": of_marks(drop_mark),
    "a mark more": of_marks(add_mark),
    "two marks exchanged": of_marks(exchange_marks),
    "two runs of marks exchanged": of_runs(exchange_runs),
    "a run of marks twice": of_runs(double_run),
    "the marks of two threads exchanged": exchange_threads,
    "a mark, and all the rest fits it": fit_mark,
    "many marks, and all the rest fits them": fit_marks,
    "a lost segment, and all the rest fits it": fit_loss,
    "a line less": drop_line,
    "a line twice": double_line,
    "two lines exchanged": exchange_lines,
    "an audit that is cut": cut_audit,
    "an audit with more at its end": more_audit,
    "a character of the audit": change_character,
    "the audit of another run": other_audit,
    "a block less": of_blocks(drop_block),
    "a block twice": of_blocks(double_block),
    "two blocks exchanged": of_blocks(exchange_blocks),
    "an event one cycle later": in_block(later_event),
    "an event less": in_block(fewer_events),
    "a block of another thread": in_block(of_another_thread),
    "a byte of the trace": change_byte,
    "the last byte of the trace": change_last_byte,
    "a trace that is cut": cut_trace,
    "a trace with more at its end": more_trace,
    "the trace of another run": other_trace,
    "a command of the script less": drop_command,
    "another script": other_script,
    "another image": other_image,
}
