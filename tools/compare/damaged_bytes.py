#!/usr/bin/env python3
"""Damages one trace in every place, runs `xray` on each damaged file, and reports where it differs from the model.

usage: tools/compare/damaged_bytes.py [PROGRAM] [--step N] [--memory MB] [--seconds N]
    PROGRAM: the built program, crates/xray/out/xray if left out
    --step: only each Nth damage, 1 if left out
    --memory, --seconds: as those of damaged_files.py

The trace has three blocks of one event each, of two threads: 296 bytes. It is cut at each place, and each of its bytes
gets each other value. `account` and `convert` read every damaged file. Their statuses and both streams have to be those
of the model (xray_model.py), so a refusal has the right name and place, and the rules of damaged_files.py have to hold.
Of the prefixes of the trace, those with 32, 120, 208 and 296 bytes have to be accepted, and no other one.

The last lines say how often each answer came, and what the slowest run took. A difference is reported with the folder
in which its files are kept, and then the status is 1.
"""
import pathlib
import sys

sys.dont_write_bytecode = True  # the modules are in the repository, and their compiled forms aren't
sys.path.insert(0, str(pathlib.Path(__file__).resolve().parents[1]))
from command_line import CommandLine  # noqa: E402
from damaged_files import Most, Tries, judged  # noqa: E402
from model.trace_model import EXIT, Block, Event, Header, Trace, file_bytes  # noqa: E402

COMMANDS = [["account", "trace"], ["convert", "trace"]]
TRACE = file_bytes(
    Trace(
        Header(frequency=0, size=88),
        [
            Block(1, (0, 0), 1, [Event(0, 1, EXIT, 2)]),
            Block(2, (0, 0), 1, [Event(0, 2, EXIT, 1)]),
            Block(2, (0, 0), 1, [Event(0, 1, EXIT, 2)]),
        ],
    )
)
# The lengths of its prefixes that are traces.
ACCEPTED = [32, 120, 208, 296]


def damages():
    """What is done to the trace, and the file then."""
    for length in range(len(TRACE) + 1):
        yield f"cut-to-{length}", TRACE[:length]
    for at, was in enumerate(TRACE):
        for byte in range(256):
            if byte != was:
                yield f"byte-{at}-is-{byte}", TRACE[:at] + bytes([byte]) + TRACE[at + 1 :]


def acceptance_differences(content, taken):
    """A line if a prefix of the trace is accepted and may not be, or isn't and has to be."""
    if content != TRACE[: len(content)] or (taken.outcome.status == 0) == (len(content) in ACCEPTED):
        return []
    return [f"status {taken.outcome.status} for the first {len(content)} bytes of the trace"]


def tried(tries, damage, content):
    """Gives a damaged file to each command."""
    tries.summary.files += 1
    files = {"trace": content}
    for command in COMMANDS:
        taken, lines = judged(tries.program, tries.folder, tries.streams, command, files, tries.most)
        lines += acceptance_differences(content, taken)
        tries.summary.add("trace", taken)
        if lines:
            tries.keep(damage, command, files, lines)


def arguments():
    parser = CommandLine(__doc__)
    parser.add_program()
    parser.add_argument("--step", type=int, default=1, metavar="N")
    parser.add_argument("--memory", type=int, default=64, metavar="MB")
    parser.add_argument("--seconds", type=float, default=1, metavar="N")
    given = parser.parse_args()
    if given.step < 1:
        parser.error("--step is less than 1")
    return given


def main():
    given = arguments()
    tries = Tries(given.program, 0, ["trace"], Most(given.memory, given.seconds))
    for number, (damage, content) in enumerate(damages()):
        if number % given.step == 0:
            tried(tries, damage, content)
    tries.end()
    tries.summary.print()
    sys.exit(1 if tries.summary.differ else 0)


if __name__ == "__main__":
    main()
