#!/usr/bin/env python3
"""Prints what each two bytes begin, as runs in ascending order: the table of two_byte_starts.rt of layer_tests.

usage: tools/values/two_byte_starts.py

It lists the encodings of the ten instructions with all sixteen registers, by the tables of the Intel
SDM, volume 2, and looks which of them continue each start. It has no decoder.
"""
import pathlib
import sys

sys.dont_write_bytecode = True  # the modules are in the repository, and their compiled forms aren't
sys.path.insert(0, str(pathlib.Path(__file__).resolve().parents[1]))
from command_line import CommandLine  # noqa: E402

RESERVED = (4, 10)
ANY = None  # a byte of an immediate, a distance or a port


def with_register(opcode, number):
    return [0x41] * (number >= 8) + [opcode | number % 8]


def encodings():
    """Each encoding as its bytes and its reserved registers, the destination before the source."""
    for number in range(16):
        reserved = [n for n in (number,) if n in RESERVED]
        yield with_register(0xB8, number) + [ANY] * 4, reserved
        yield with_register(0x50, number), reserved
        yield with_register(0x58, number), reserved
    for dst in range(16):
        for src in range(16):
            rex = 0x48 | (src >= 8) << 2 | (dst >= 8)
            modrm = 0b11 << 6 | src % 8 << 3 | dst % 8
            reserved = [n for n in (dst, src) if n in RESERVED]
            yield [rex, 0x01, modrm], reserved
            yield [rex, 0x29, modrm], reserved
    yield [0xE8] + [ANY] * 4, []
    yield [0xE9] + [ANY] * 4, []
    yield [0x0F, 0x85] + [ANY] * 4, []
    yield [0xC3], []
    yield [0xE6, ANY], []


def answer(start, alive):
    """The shortest prefix of the start that decides."""
    for length in range(len(start) + 1):
        if length:
            byte = start[length - 1]
            alive = [e for e in alive if e[0][length - 1] in (byte, ANY)]
        if not alive:
            return ("First", "Second")[length - 1]
        named = [code for code, reserved in alive if not reserved]
        if not named:
            (register,) = {reserved[0] for _, reserved in alive}
            return {4: "Rsp", 10: "R10"}[register]
        if any(len(code) == length for code in named):
            return ("One", "Two")[length - 1]
    return "Short"


def main():
    CommandLine(__doc__).parse_args()
    every = list(encodings())
    runs = []
    for start in range(1 << 16):
        found = answer(start.to_bytes(2, "big"), every)
        if runs and runs[-1][1] == found:
            runs[-1][0] = start
        else:
            runs.append([start, found])
    print(f"pub const RUNS: [(u16, Start); {len(runs)}] = [")
    for last, found in runs:
        print(f"    (0x{last:04X}, Start::{found}),")
    print("];")


if __name__ == "__main__":
    main()
