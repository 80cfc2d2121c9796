#!/usr/bin/env python3
"""Replays threads that fill all buffers of the largest trace, of 67,108,864 bytes, and compares each byte of it.

usage: tools/compare/full_trace.py [PROGRAM]
    PROGRAM: the built program, crates/xray/out/xray if left out

Fourteen threads call an empty function over and over. In the first run each of them fills fourteen buffers to their
last byte, and no buffer is used twice. In the second run each thread passes one more sled, so it takes one more buffer.
The last thread then takes all buffers of the first. The expected bytes follow from the position of an event in its
thread, without the model. A difference is reported, and then the status is 1.
"""
import pathlib
import subprocess
import sys
import tempfile

sys.dont_write_bytecode = True  # the modules are in the repository, and their compiled forms aren't
sys.path.insert(0, str(pathlib.Path(__file__).resolve().parents[1]))
from command_line import CommandLine  # noqa: E402
from worked_runs import TRACED, image, lines  # noqa: E402

IMAGE = image("fn main always / again: / call f / jmp again / fn f always / ret")
THREADS, SEGMENTS, ROOM = 14, 14, 42_789
SIZE = 48 + 16 + 8 * ROOM
MOST = THREADS * SEGMENTS
FULL_TRACE = 67_108_864
MAIN_ENTERED, ENTERED, LEFT = 0x10, 0x20, 0x22
OPTIONS = f"--threads {THREADS} --buffer-size {SIZE} --buffer-max {MOST} --wall 0"


def record(first, delta=0):
    return first.to_bytes(4, "little") + delta.to_bytes(4, "little")


def kind(at):
    """The event of a passing: `main` is entered once, and after that `f` is entered and left."""
    return MAIN_ENTERED if at == 0 else ENTERED if at % 2 else LEFT


def counter(at):
    """A turn of the loop is a call, a return and a jump. `f` is entered after the call, and left at once."""
    return 0 if at == 0 else 1 + 3 * ((at - 1) // 2)


def records(first, last):
    """The records of the events from `first` on, up to one before `last`: the first has no delta."""
    written = bytearray(record(kind(first)))
    at = first + 1
    while at < last and (at < 3 or at % 2 == 0):
        written += record(kind(at), counter(at) - counter(at - 1))
        at += 1
    pairs = record(ENTERED, 3) + record(LEFT)
    written += pairs * ((last - at) // 2) + pairs[: 8 * ((last - at) % 2)]
    return bytes(written)


def metadata(first, *fields):
    return (bytes([first]) + b"".join(value.to_bytes(size, "little") for value, size in fields)).ljust(16, b"\0")


def block(thread, first, last):
    """The block of a segment of a thread on CPU 0."""
    segment = metadata(0x01, (thread, 4)) + metadata(0x09) + metadata(0x13, (1, 4))
    segment += metadata(0x05, (0, 2), (counter(first), 8)) + records(first, last)
    return metadata(0x0F, (len(segment), 8)) + segment


def trace(passings, lost):
    """The trace of threads that make this many passings. `lost` says how many of its segments a thread has lost."""
    header = bytes.fromhex("03 00 01 00 03 00 00 00") + bytes(8) + SIZE.to_bytes(8, "little") + bytes(8)
    starts = range(0, passings, ROOM)
    blocks = (
        block(thread, start, min(start + ROOM, passings))
        for thread in range(1, THREADS + 1)
        for start in starts[lost.get(thread, 0):]
    )
    return header + b"".join(blocks)


def audit(passings, lost):
    setup = f"threads={THREADS} buffer-size={SIZE} buffer-max={MOST} fuel=10000000 passings={passings} tick=1 tsc=0"
    said = [f"xray-audit 1 / {setup} cpus=1 migrate=1048576 pid=1 wall=0.0 frequency=0"]
    for thread in range(1, THREADS + 1):
        counts = f"passings {passings} recorded {passings} segments {-(-passings // ROOM)} first {lost.get(thread, 0)}"
        said.append(f"thread {thread} passings {counts} / marks +{passings}")
    return lines(" / ".join([*said, f"recycled {sum(lost.values())}"]))


def differences(program, folder, passings, lost):
    """What a replay of this many passings leaves, if that isn't what is expected."""
    words = f"sim i s c t a --passings {passings} {OPTIONS}".split()
    done = subprocess.run([program, *words], cwd=folder, capture_output=True, check=False)
    if done.returncode != 0:
        yield f"{passings} passings: status {done.returncode}, {done.stderr.decode()}"
        return
    for name, wanted in (("t", trace(passings, lost)), ("a", audit(passings, lost))):
        found = (folder / name).read_bytes()
        if found != wanted:
            at = next((at for at, (one, other) in enumerate(zip(found, wanted)) if one != other), min(len(found), len(wanted)))
            yield f"{passings} passings: {name} has {len(found)} bytes for {len(wanted)}, and differs at {at}"


def account_differences(program, folder):
    """In each thread `main` is open at the end, and so is the last call of `f`. A call of `f` takes no time."""
    pairs = THREADS * ((SEGMENTS * ROOM - 1) // 2)
    wanted = (
        "funcid,count,min,med,90p,99p,max,sum,entries,exits,function\n"
        f"1,0,-,-,-,-,-,-,{THREADS},0,main\n2,{pairs},0,0,0,0,0,0,{THREADS},0,f\n"
    )
    done = subprocess.run([program, *"account t i --format csv".split()], cwd=folder, capture_output=True, check=False)
    if (done.returncode, done.stdout.decode()) != (0, wanted):
        yield f"account: status {done.returncode}, {done.stdout.decode()}{done.stderr.decode()}"


def main():
    parser = CommandLine(__doc__)
    parser.add_program()
    program = parser.parse_args().program
    full, one_more = SEGMENTS * ROOM, SEGMENTS * ROOM + 1
    assert len(trace(full, {})) == FULL_TRACE
    with tempfile.TemporaryDirectory() as name:
        folder = pathlib.Path(name)
        for file, content in (("i", IMAGE), ("s", lines(TRACED)), ("c", b"")):
            (folder / file).write_bytes(content)
        found = [*differences(program, folder, full, {}), *account_differences(program, folder)]
        found += differences(program, folder, one_more, {1: SEGMENTS})
    for difference in found:
        print(difference)
    print(f"a trace of {FULL_TRACE} bytes, and one whose buffers are used twice: {len(found)} differences")
    return 1 if found else 0


if __name__ == "__main__":
    sys.exit(main())
