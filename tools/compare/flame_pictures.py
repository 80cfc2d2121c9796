#!/usr/bin/env python3
"""Compares the pictures of `xray stack --format svg`, as Python's XML parser reads them, with the rows of `xray stack`.

usage: tools/compare/flame_pictures.py [PROGRAM] [--runs N] [--seed N]
    PROGRAM: the built program, crates/xray/out/xray if left out
    --runs: how many random traces, 1000 if left out
    --seed: the seed of everything random, 1 if left out

Each picture is read as XML. A box stands on the box below it whose ends are not inside its own, and so each box has a
path. The paths, places, widths, counts, sums and times have to be those that follow from the rows that the program
prints without the option. The text has to be that of flame_model.py. No box may stick out of the one below it, and the
lowest row has to be as wide as the whole, with what is left out. Beside random traces there are some of few rows, of
many, and of deep calls. A difference is reported, and then the status is 1.
"""
import collections
import pathlib
import random
import re
import subprocess
import sys
import tempfile
import time
import xml.etree.ElementTree

sys.dont_write_bytecode = True  # the modules are in the repository, and their compiled forms aren't
sys.path.insert(0, str(pathlib.Path(__file__).resolve().parents[1]))
from command_line import CommandLine  # noqa: E402
from inputs.random_traces import random_trace  # noqa: E402
from model import flame_model, trace_model  # noqa: E402

SPACE = "{http://www.w3.org/2000/svg}"
HINT = re.compile(r"(.*): count (\d+), sum (\d+), self (\d+)")
LEFT_OUT = re.compile(r"Frames narrower than 0.1 pixels, which are left out: (\d+)")
MARGIN, ABOVE, LEVEL = 10_000, 48, 16

# ---- The traces


def trace_of(calls, frequency=0):
    """A trace of one thread, whose events are functions that are entered (+) or left (-), with the counters of each."""
    events = [
        trace_model.Event(0, abs(function), trace_model.ENTRY if function > 0 else trace_model.EXIT, counter)
        for function, counter in calls
    ]
    header = trace_model.Header(frequency, 88)
    return trace_model.file_bytes(trace_model.Trace(header, [trace_model.Block(1, (0, 0), 1, events)] if events else []))


def recursion(depth, ends):
    """A function that calls itself up to a depth, and of whose calls the innermost ones end."""
    entered = [(1, 3 * at) for at in range(depth)]
    return trace_of(entered + [(-1, 3 * depth + 5 * at) for at in range(ends)])


def wide(count):
    """So many functions that a function calls, one after another."""
    calls = [(1, 0)]
    for at in range(count):
        calls += [(at + 2, 10 * at), (-at - 2, 10 * at + 7)]
    return trace_of([*calls, (-1, 10 * count)])


FEW = {
    "no row": trace_of([]),
    "one row": trace_of([(1, 0), (-1, 7)]),
    "seconds": trace_of([(1, 0), (-1, 7)], frequency=3),
    "no time": trace_of([(1, 5), (2, 5), (-2, 5), (-1, 5)]),
    "a caller without a row": trace_of([(1, 0), (2, 1), (-2, 3), (3, 3), (-3, 9)]),
    "callees in the order of their ids": trace_of([(1, 0), (9, 0), (-9, 50), (2, 50), (-2, 51), (5, 51), (-5, 60), (-1, 60)]),
    "long calls": trace_of([(1, 0), (-1, (1 << 64) - 1), (1, 0), (-1, (1 << 64) - 1), (2, 0), (-2, (1 << 64) - 2)]),
    "narrow frames": trace_of([(1, 0), (2, 0), (-2, 1), (3, 1), (-3, 30_000), (-1, 30_001)]),
    "a recursion": recursion(200, 200),
    "deep calls": recursion(4096, 2),
    "many rows": wide(3000),
}

# ---- The pictures


def thousandths(pixels):
    whole, part = pixels.split(".")
    return int(whole) * 1000 + int(part)


def boxes_of(text):
    """The boxes by their paths: the left end, the width, count, sum and self. A path has the names of its boxes, lowest first."""
    picture = xml.etree.ElementTree.fromstring(text)
    height = int(picture.get("height"))
    levels = (height - 80) // LEVEL
    rows = collections.defaultdict(list)
    for group in picture.iter(f"{SPACE}g"):
        box = group.find(f"{SPACE}rect")
        name, *numbers = HINT.fullmatch(group.find(f"{SPACE}title").text).groups()
        level = levels - 1 - (int(box.get("y")) - ABOVE) // LEVEL
        left, width = thousandths(box.get("x")) - MARGIN, thousandths(box.get("width"))
        rows[level].append((left, width, name, tuple(map(int, numbers))))
    found, below = {}, [(0, flame_model.ACROSS, ())]
    for level in range(levels):
        here = []
        for left, width, name, numbers in rows[level]:
            on = [path for start, size, path in below if start <= left and left + width <= start + size]
            if len(on) != 1:
                raise ValueError(f"{name} at {left} in row {level} stands on {len(on)} boxes")
            path = (*on[0], name)
            if path in found:
                raise ValueError(f"{path} is there twice")
            found[path] = (left, width, *numbers)
            here.append((left, left + width, path))
        here.sort()
        for (_, end, path), (start, _, other) in zip(here, here[1:]):
            if end > start:
                raise ValueError(f"{path} and {other} overlap")
        below = [(left, end - left, path) for left, end, path in here]
    left_out = int(LEFT_OUT.fullmatch(picture.findall(f"{SPACE}text")[-1].text).group(1))
    return found, left_out


def wanted_boxes(rows):
    """The same from rows: all frames, and those of them that are drawn."""
    total = sum(own for *_, own in rows)
    frames, before = {}, 0
    numbers = {path: (count, time, own) for path, count, time, own in rows}
    for path, _, _, own in rows:
        for size in range(1, len(path) + 1):
            start, _ = frames.get(path[:size], (before, None))
            frames[path[:size]] = (start, before + own)
        before += own
    boxes = {}
    for path, (start, end) in frames.items():
        left, right = (place * flame_model.ACROSS // total if total else 0 for place in (start, end))
        boxes[path] = (left, right - left, *numbers.get(path, (0, 0, 0)))
    return boxes, {path: box for path, box in boxes.items() if box[1] >= flame_model.LEAST_WIDTH}


def rows_of(text):
    """The rows that are printed for readers."""
    rows = []
    for line in text.splitlines()[1:]:
        *numbers, path = line.split()
        rows.append((tuple(path.split(";")), *map(int, numbers)))
    return rows


def differences(rows, picture, frequency):
    found, left_out = boxes_of(picture)
    frames, wanted = wanted_boxes(rows)
    if found != wanted:
        yield f"{len(found)} boxes for {len(wanted)} frames, {len(set(found.items()) ^ set(wanted.items()))} of them differ"
    if left_out != len(frames) - len(wanted):
        yield f"{left_out} frames are left out, and not {len(frames) - len(wanted)}"
    lowest = sum(box[1] for path, box in frames.items() if len(path) == 1)
    if any(own for *_, own in rows) and lowest != flame_model.ACROSS:
        yield f"the lowest row is {lowest} wide"
    model_rows = [flame_model.PathRow(tuple(int(name[1:]) for name in path), *numbers) for path, *numbers in rows]
    if picture != flame_model.flame_text(model_rows, lambda function: f"#{function}", frequency):
        yield "the text isn't that of the model"


# ---- The runs


def run(program, trace, *options):
    return subprocess.run([program, "stack", trace, *options], capture_output=True, text=True)


def main():
    parser = CommandLine(__doc__)
    parser.add_program()
    parser.add_argument("--runs", type=int, default=1000, metavar="N")
    parser.add_argument("--seed", type=int, default=1, metavar="N")
    args = parser.parse_args()
    program = str(args.program)
    counts, wrong, longest = collections.Counter(), 0, 0.0
    with tempfile.TemporaryDirectory() as folder:
        trace = pathlib.Path(folder) / "trace"

        def compare(name, content):
            nonlocal wrong, longest
            trace.write_bytes(content)
            rows = run(program, trace)
            began = time.monotonic()
            picture = run(program, trace, "--format", "svg")
            longest = max(longest, time.monotonic() - began)
            if rows.returncode != picture.returncode:
                found = [f"statuses {rows.returncode} and {picture.returncode}"]
            elif rows.returncode:
                counts["refused"] += 1
                return
            else:
                frequency = int.from_bytes(content[8:16], "little")
                found = list(differences(rows_of(rows.stdout), picture.stdout, frequency))
                counts["pictures"] += 1
                counts["boxes"] += picture.stdout.count("<g>")
            for difference in found:
                print(f"{name}: {difference}")
            wrong += bool(found)

        for name, content in FEW.items():
            compare(name, content)
        number = 0
        while counts["pictures"] < args.runs + len(FEW):
            number += 1
            compare(f"trace {number}", random_trace(random.Random(f"{args.seed} {number}"), damaged_share=0.1))
    print(f"{counts['pictures']} pictures with {counts['boxes']} boxes, {counts['refused']} traces refused, "
          f"{longest:.2f} seconds at most, {wrong} differ")  # fmt: skip
    sys.exit(wrong > 0)


if __name__ == "__main__":
    main()
