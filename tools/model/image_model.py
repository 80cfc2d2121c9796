"""A model of image files: their units, their functions and sleds, why one is refused, and the sled map's text.

It is written from docs/formats alone, and shares nothing with the program or its definitions.
"""
import bisect
import dataclasses
import itertools
import re
import struct

from . import image_container as container
from .image_container import SLED_LENGTH

CODE_LIMIT = 1_048_576
FUNCTION_LIMIT = 1024
SLED_LIMIT = 4096
BASE_LIMIT = 0x7FFF00000000
NEWEST_VERSION = 2

# The kinds of sleds in the map. A sled of the last kind is an entry that logs arguments.
ENTRY, EXIT, TAIL, ENTRY_ARGS = range(container.KINDS)

RSP, R10 = 4, 10
RESERVED = (RSP, R10)


class Refused(Exception):
    """An input isn't what it has to be. The words say why."""

    def __init__(self, *words):
        super().__init__(*words)
        self.reason = " ".join(str(word) for word in words)


# ---- Instructions and units


@dataclasses.dataclass(frozen=True)
class Unit:
    """An instruction by its name, a sled ("entry" or "exit") or an alignment byte ("align").

    `operands` are the registers and numbers of an instruction, the destination first, or the displacement of a sled.
    `end` is the place after it.
    """

    place: int
    end: int
    name: str
    operands: tuple = ()

    @property
    def is_sled(self):
        return self.name in ("entry", "exit")


class Bytes:
    """The code from a place on, read byte by byte."""

    def __init__(self, code, place):
        self.code = code
        self.at = place

    def one(self):
        if self.at >= len(self.code):
            raise Refused("Short")
        self.at += 1
        return self.code[self.at - 1]

    def four(self, form):
        taken = bytes(self.one() for _ in range(4))
        return struct.unpack("<" + form, taken)[0]


def named(*registers):
    """The registers, the destination first. All of them may be named."""
    for register in registers:
        if register in RESERVED:
            raise Refused("Register", register)
    return registers


def instruction(code, place):
    """The instruction at a place of the code."""
    left = Bytes(code, place)
    name, operands = told_by(left)
    return Unit(place, left.at, name, operands)


def told_by(left):
    first = left.one()
    if first in (0x48, 0x49, 0x4C, 0x4D):
        return sum_of(left, source_high=first & 4 != 0, target_high=first & 1 != 0)
    high = 8 if first == 0x41 else 0
    opcode = left.one() if high else first
    register = high + opcode % 8
    if 0xB8 <= opcode <= 0xBF:
        named(register)
        return "mov", (register, left.four("I"))
    if 0x50 <= opcode <= 0x5F:
        return "push" if opcode < 0x58 else "pop", named(register)
    if high:
        raise Refused("Unknown", opcode)
    match opcode:
        case 0xE8:
            return "call", (left.four("i"),)
        case 0xE9:
            return "jmp", (left.four("i"),)
        case 0x0F:
            second = left.one()
            if second != 0x85:
                raise Refused("Unknown", second)
            return "jnz", (left.four("i"),)
        case 0xC3:
            return "ret", ()
        case 0xE6:
            return "out", (left.one(),)
    raise Refused("Unknown", opcode)


def sum_of(left, source_high, target_high):
    """An `add` or a `sub`, after its prefix byte."""
    opcode = left.one()
    if opcode not in (0x01, 0x29):
        raise Refused("Unknown", opcode)
    both = left.one()
    if both < 0xC0:
        raise Refused("Unknown", both)
    target, source = 8 * target_high + both % 8, 8 * source_high + both // 8 % 8
    return "add" if opcode == 0x01 else "sub", named(target, source)


NOP = container.NOP[:5]


def unit(code, place):
    """The unit at a place of the code, or why there is none."""
    is_entry = code[place] == 0xEB
    is_exit = code[place : place + 2] == b"\xC3\x2E"
    if is_entry or is_exit:
        head = container.ENTRY_HEAD if is_entry else container.EXIT_HEAD
        whole = code[place : place + 7] == head + NOP and place + SLED_LENGTH <= len(code)
        if not whole or place % 2 == 1:
            raise Refused("Sled", place)
        displacement = struct.unpack_from("<I", code, place + SLED_LENGTH - 4)
        return Unit(place, place + SLED_LENGTH, "entry" if is_entry else "exit", displacement)
    if code[place] == 0x90:
        return Unit(place, place + 1, "align")
    try:
        return instruction(code, place)
    except Refused as fault:
        raise Refused("Code", place, fault.reason)


def units_of(code):
    """All units of the code, by their places."""
    units = {}
    place = 0
    while place < len(code):
        units[place] = unit(code, place)
        place = units[place].end
    return units


# ---- Images


@dataclasses.dataclass(frozen=True)
class Entry:
    """An entry of the sled map, with absolute addresses."""

    address: int
    function: int
    kind: int
    always: bool
    version: int


@dataclasses.dataclass
class Image:
    base: int
    units: dict
    functions: list  # (start, name)
    entries: list
    entry: int
    trampolines: tuple

    @property
    def sleds(self):
        """The sleds in the order of their addresses."""
        return [unit for unit in self.units.values() if unit.is_sled]

    @property
    def start(self):
        """The place at which threads start."""
        return self.functions[self.entry][0] - self.base

    @property
    def ids(self):
        """The function id of each entry of the map."""
        numbers = {}
        return [numbers.setdefault(entry.function, len(numbers) + 1) for entry in self.entries]


def image_of(file):
    """The image in a file's bytes."""
    try:
        check_header(container.header_of(file))
        draft = container.draft_of(file)
    except container.Cut:
        raise Refused("Short")
    if draft.length < len(file):
        raise Refused("Trailing")
    functions = [(start, name) for start, name in draft.functions]
    entries = [
        Entry(address, function, kind, always != 0, version)
        for address, function, kind, always, version, _ in draft.entries
    ]
    image = Image(draft.base, units_of(draft.code), functions, entries, draft.entry, tuple(draft.trampolines))
    check_names(image)
    check_map(image)
    check_targets(image)
    return image


def check_header(header):
    if header.magic != container.MAGIC:
        raise Refused("Magic")
    if header.version != container.VERSION:
        raise Refused("Version")
    if header.length > CODE_LIMIT:
        raise Refused("Limit Code")
    if not 1 <= header.functions <= FUNCTION_LIMIT:
        raise Refused("Limit Functions")
    if header.sleds > SLED_LIMIT:
        raise Refused("Limit Sleds")
    if header.entry >= header.functions:
        raise Refused("Limit Entry")
    if header.base % 16 != 0 or header.base > BASE_LIMIT:
        raise Refused("Limit Base")


def check_names(image):
    before, names = -1, set()
    for number, (start, name) in enumerate(image.functions):
        stands = start - image.base in image.units and (number > 0 or start == image.base) and start > before
        if not stands or not re.fullmatch(rb"[A-Za-z0-9_.$]+", name) or name in names:
            raise Refused("Names", number)
        before = start
        names.add(name)


def check_map(image):
    """What has to hold of the map: first the order of all entries, then the rest of all, then the distances of all."""
    both = itertools.zip_longest(image.entries, image.sleds)
    for number, (entry, sled) in enumerate(both):
        if entry is None or sled is None or entry.address != image.base + sled.place:
            raise Refused("MapOrder", number)
    starts = [start for start, _ in image.functions]
    for number, (entry, sled) in enumerate(zip(image.entries, image.sleds)):
        function = starts[bisect.bisect_right(starts, entry.address) - 1]
        kinds = (ENTRY, TAIL, ENTRY_ARGS) if sled.name == "entry" else (EXIT,)
        if entry.function != function or entry.kind not in kinds or entry.version > NEWEST_VERSION:
            raise Refused("Odd", number)
    for number, entry in enumerate(image.entries):
        distance = image.trampolines[entry.kind] - (entry.address + SLED_LENGTH)
        if not -(1 << 31) <= distance < 1 << 31:
            raise Refused("Far", number)


def check_targets(image):
    for place, unit in image.units.items():
        if unit.name in ("call", "jmp", "jnz") and unit.end + unit.operands[0] not in image.units:
            raise Refused("Target", place)


# ---- The sled map's text

KINDS = ["function-enter", "function-exit", "tail-exit", "function-enter-arg"]


def sled_map_text(image):
    names = dict(image.functions)
    lines = ["---"]
    for number, entry in zip(image.ids, image.entries):
        lines.append(
            f"- {{ id: {number}, address: 0x{entry.address:016x}, function: 0x{entry.function:016x}, "
            f"kind: {KINDS[entry.kind]}, always-instrument: {str(entry.always).lower()}, "
            f"function-name: '{names[entry.function].decode('ascii')}' }}"
        )
    return "".join(line + "\n" for line in [*lines, "..."])
