"""The container of images: which bytes an image file has for its parts, and the parts of an image file.

It is written from docs/formats/images.md alone. It only lays out: whether a file is an image, image_model says. All
comparisons and measurements pack their images by it.
"""
import dataclasses
import struct

MAGIC = b"XRIM"
VERSION = 1
# Where the code of an image starts, unless something else is said.
BASE = 0x1000
HEADER = struct.Struct("<4sIQIIII4Q")
FUNCTION = struct.Struct("<QB")
ENTRY = struct.Struct("<QQBBB13s")
HEADER_LENGTH = HEADER.size
ENTRY_LENGTH = ENTRY.size
# How far above the base address the sled map is, and how far behind an entry's start the field of the function is.
MAP_DISTANCE = 0x100000
FUNCTION_FIELD = 8
# The version of map entries whose addresses count from their fields.
RELATIVE_VERSION = 2

# The kinds of sleds in the map. A sled of the last kind is an entry that logs arguments.
KINDS = 4
ENTRY_SLED, EXIT_SLED, TAIL_SLED, ARGS_SLED = range(KINDS)
# What sleds begin with, and what follows: a nop, whose last four bytes may have any value.
ENTRY_HEAD, EXIT_HEAD = b"\xEB\x09", b"\xC3\x2E"
NOP = bytes.fromhex("660F1F840000020000")
SLED_LENGTH = len(ENTRY_HEAD + NOP)


def sled(kind):
    """An unpatched sled of a kind."""
    return (EXIT_HEAD if kind == EXIT_SLED else ENTRY_HEAD) + NOP


def absolute(version, at, field):
    """The address that a field at an address says."""
    return (at + field) % (1 << 64) if version == RELATIVE_VERSION else field


def trampolines_above(base):
    """The trampolines of an image that says nothing else about them."""
    return [base + 0x200000 + 16 * kind for kind in range(KINDS)]


@dataclasses.dataclass
class Draft:
    """The parts of an image file, with any values. The header has their counts, plus what `counts` adds to them."""

    base: int
    code: bytes
    functions: list  # [start, name]
    entries: list  # [address, function, kind, always, version, padding], with absolute addresses
    entry: int = 0
    trampolines: list = dataclasses.field(default_factory=list)
    magic: bytes = MAGIC
    version: int = VERSION
    counts: list = dataclasses.field(default_factory=lambda: [0, 0, 0])

    def file(self):
        sizes = [len(self.code), len(self.functions), len(self.entries)]
        counts = [(size + more) % (1 << 32) for size, more in zip(sizes, self.counts)]
        addresses = [address % (1 << 64) for address in self.trampolines]
        version, base, entry = self.version % (1 << 32), self.base % (1 << 64), self.entry % (1 << 32)
        header = HEADER.pack(self.magic, version, base, *counts, entry, *addresses)
        named = b"".join(FUNCTION.pack(start % (1 << 64), len(name)) + name for start, name in self.functions)
        mapped = b"".join(self.entry_bytes(number, *entry) for number, entry in enumerate(self.entries))
        return header + bytes(self.code) + named + mapped

    @property
    def length(self):
        """How many bytes the parts have."""
        return (
            HEADER_LENGTH + len(self.code) + sum(FUNCTION.size + len(name) for _, name in self.functions)
            + ENTRY_LENGTH * len(self.entries)
        )  # fmt: skip

    def entry_at(self, number):
        """The address of an entry of the map."""
        return self.base + MAP_DISTANCE + ENTRY_LENGTH * number

    def entry_bytes(self, number, address, function, kind, always, version, padding):
        if version == RELATIVE_VERSION:
            address -= self.entry_at(number)
            function -= self.entry_at(number) + FUNCTION_FIELD
        return ENTRY.pack(address % (1 << 64), function % (1 << 64), kind, always, version, padding)

    def keep_fields(self, number, version):
        """Gives an entry of the map another version, but not other bytes in its fields."""
        address, function, *_ = ENTRY.unpack(self.entry_bytes(number, *self.entries[number]))
        at = self.entry_at(number)
        self.entries[number][0] = absolute(version, at, address)
        self.entries[number][1] = absolute(version, at + FUNCTION_FIELD, function)
        self.entries[number][4] = version


class Cut(Exception):
    """A file ends before its parts do."""


@dataclasses.dataclass(frozen=True)
class Header:
    """The fields of a header. Three of them count: the bytes of the code, the functions, and the sleds."""

    magic: bytes
    version: int
    base: int
    length: int
    functions: int
    sleds: int
    entry: int
    trampolines: list


class Parts:
    """The parts of a file, taken one after the other."""

    def __init__(self, file):
        self.file = file
        self.at = 0

    def taken(self, count):
        if self.at + count > len(self.file):
            raise Cut
        self.at += count
        return self.file[self.at - count : self.at]

    def fields(self, form):
        return form.unpack(self.taken(form.size))

    def header(self):
        magic, version, base, length, functions, sleds, entry, *trampolines = self.fields(HEADER)
        return Header(magic, version, base, length, functions, sleds, entry, trampolines)

    def function(self):
        start, count = self.fields(FUNCTION)
        return [start, self.taken(count)]


def header_of(file):
    return Parts(file).header()


def draft_of(file):
    """The parts of a file, as many as its header counts, whatever their values are. The file may go on after them."""
    parts = Parts(file)
    header = parts.header()
    code = bytearray(parts.taken(header.length))
    functions = [parts.function() for _ in range(header.functions)]
    draft = Draft(header.base, code, functions, [], header.entry, header.trampolines, header.magic, header.version)
    for number in range(header.sleds):
        address, function, kind, always, version, padding = parts.fields(ENTRY)
        address = absolute(version, draft.entry_at(number), address)
        function = absolute(version, draft.entry_at(number) + FUNCTION_FIELD, function)
        draft.entries.append([address, function, kind, always, version, padding])
    return draft


def image_file(code, functions=((0, b"main"),), sleds=(), base=BASE):
    """The file of an image by places: functions (place, name), and sleds (place, place of the function, kind).

    Threads start at the first function, and every function is always instrumented.
    """
    named = [[base + place, name] for place, name in functions]
    entries = [[base + place, base + function, kind, 1, 0, bytes(13)] for place, function, kind in sleds]
    return Draft(base, code, named, entries, 0, trampolines_above(base)).file()
