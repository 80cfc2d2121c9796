"""A model of flame graphs: the frames that the rows of a stack report make, and the picture of them in SVG.

It is written from the README of `flame_graph` alone, and shares nothing with the program or its definitions. The rows
are `PathRow`s in ascending order of their paths. Frames are found in tables of prefixes, and not by a stack.
"""
import collections
import dataclasses
import re

MOST = 2**128 - 1
LARGE = 2**107
LARGE_UNIT = 2**21

ACROSS = 1_180_000
LEAST_WIDTH = 100
DEPTH_LIMIT = 4096

# ---- Frames


@dataclasses.dataclass(frozen=True)
class PathRow:
    """A row of the stack report: a path of function ids, outermost first, and its numbers."""

    path: tuple
    count: int
    sum: int
    own: int


@dataclasses.dataclass(frozen=True)
class Frame:
    """A prefix of a path, where it begins and ends in cycles, and the row with its path, if there is one."""

    path: tuple
    start: int
    end: int
    row: PathRow


def frames_of(rows):
    """All frames, by the last row that begins with each, and by their lengths."""
    first, last, weight, before = {}, {}, collections.Counter(), 0
    row_of = {row.path: row for row in rows}
    for number, row in enumerate(rows):
        for size in range(1, len(row.path) + 1):
            path = row.path[:size]
            first.setdefault(path, before)
            last[path] = number
            weight[path] += row.own
        before += row.own
    order = sorted(last, key=lambda path: (last[path], len(path)))
    none = PathRow((), 0, 0, 0)
    return [
        Frame(path, min(first[path], MOST), min(first[path] + weight[path], MOST), row_of.get(path, none))
        for path in order
    ]


# ---- Text

OUTSIDE = re.compile("[\0-\x1f\x7f\ud800-\udfff\ufffe\uffff]")


def escaped(name):
    """A name in XML. What has no place there is replaced by U+FFFD: control characters, U+FFFE, U+FFFF, and bytes that are
    no UTF-8, for which a name has surrogates."""
    special = {"&": "&amp;", "<": "&lt;", ">": "&gt;", '"': "&quot;"}
    return "".join(special.get(one, "\ufffd" if OUTSIDE.match(one) else one) for one in name)


def shortened(name, room):
    """The name, or its start and two dots."""
    return escaped(name) if len(name) <= room else escaped(name[: room - 2]) + ".."


def pixels(thousandths):
    """Thousandths of a pixel, in pixels."""
    return f"{thousandths // 1000}.{thousandths % 1000:03}"


def colour(function):
    """The colour of a function, by its id."""
    return f"rgb({205 + function * 31 % 50},{100 + function * 89 % 120},{function * 37 % 55})"


def total_words(total, frequency):
    """A total in cycles, or in seconds."""
    if frequency == 0:
        return f"{total} cycles"
    return f"{total // frequency}.{total % frequency * 1_000_000 // frequency:06} seconds"


def frame_line(frame, left, width, top, name):
    """The line of a frame."""
    room = max(width - 6000, 0) // 7300
    label = ""
    if room >= 3:
        label = f'<text x="{pixels(left + 13_000)}" y="{top + 12}">{shortened(name, room)}</text>'
    row = frame.row
    return (
        f"<g><title>{escaped(name)}: count {row.count}, sum {row.sum}, self {row.own}</title>"
        f'<rect x="{pixels(left + 10_000)}" y="{top}" width="{pixels(width)}" height="15" rx="2" fill="{colour(frame.path[-1])}"/>'
        f"{label}</g>\n"
    )


def flame_text(rows, named, frequency):
    """The picture. `named` gives the name of a function."""
    total = min(sum(row.own for row in rows), MOST)
    levels = min(max((len(row.path) for row in rows), default=0), DEPTH_LIMIT)
    unit = 1 if total < LARGE else LARGE_UNIT
    height = 80 + 16 * levels

    def thousandths(place):
        return place // unit * ACROSS // (total // unit) if total // unit else 0

    lines, left_out = [], 0
    for frame in frames_of(rows):
        left, right = thousandths(frame.start), thousandths(frame.end)
        if len(frame.path) > DEPTH_LIMIT or right - left < LEAST_WIDTH:
            left_out += 1
            continue
        top = 48 + 16 * (levels - len(frame.path))
        lines.append(frame_line(frame, left, right - left, top, named(frame.path[-1])))
    return (
        f'<svg xmlns="http://www.w3.org/2000/svg" width="1200" height="{height}" viewBox="0 0 1200 {height}"'
        ' font-family="monospace" font-size="12">\n'
        f'<rect width="1200" height="{height}" fill="#f8f4e4"/>\n'
        f'<text x="600" y="28" font-size="17" text-anchor="middle">Flame graph: {total_words(total, frequency)}</text>\n'
        + "".join(lines)
        + f'<text x="10" y="{68 + 16 * levels}">Frames narrower than 0.1 pixels, which are left out: {left_out}</text>\n'
        "</svg>\n"
    )
