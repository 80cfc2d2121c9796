"""A model of the assembler: the lines of assembler texts, which of them are refused, and the image of a text.

It is written from docs/formats alone, and shares nothing with the program or its definitions.
"""
import dataclasses
import enum
import re
import struct

from . import image_container as container
from .image_container import SLED_LENGTH
from .image_model import BASE_LIMIT, CODE_LIMIT, FUNCTION_LIMIT, SLED_LIMIT, Refused
from .text_model import lines_of, words_of

# ---- The limits and words of the language

TEXT_LIMIT = 4_194_304
NAME_LIMIT = 255
NUMBER_LIMIT = (1 << 64) - 1
MOV_LIMIT = 4_294_967_295
OUT_LIMIT = 255
THRESHOLD_LIMIT = 4_294_967_295

WITHOUT_BASE = 4096
WITHOUT_THRESHOLD = 1

# The registers' names by their numbers, in a `mov` and in all other lines.
LOW = ["eax", "ecx", "edx", "ebx", "esp", "ebp", "esi", "edi"] + [f"r{number}d" for number in range(8, 16)]
WIDE = ["rax", "rcx", "rdx", "rbx", "rsp", "rbp", "rsi", "rdi"] + [f"r{number}" for number in range(8, 16)]
RESERVED = ["esp", "rsp", "r10d", "r10"]

LABEL = ":"
BRANCHES = ["call", "jmp", "jnz", "tailjmp"]
INSTRUCTIONS = ["mov", "add", "sub", "push", "pop", *BRANCHES, "ret", "out"]

ALIGNMENT = b"\x90"


class Choice(enum.Enum):
    """What a `fn` line says about its function's sleds."""

    BY_LENGTH = ""
    ALWAYS = "always"
    NEVER = "never"
    ARGS = "args"


class Sled(enum.IntEnum):
    """The kinds of sleds, with their numbers in the sled map."""

    ENTRY = container.ENTRY_SLED
    EXIT = container.EXIT_SLED
    TAIL = container.TAIL_SLED
    ARGS = container.ARGS_SLED


class Refusal(enum.Enum):
    """Why a text has no image, by the program's words."""

    SYNTAX = "Syntax"
    REGISTER = "Register"
    RANGE = "Range"
    REPEAT = "Repeat"
    LIMIT = "Limit"
    LABEL = "Label"
    TOO_LONG = "too long"


class TextRefused(Refused):
    """A text is refused. All refusals except that of its length have a line."""

    def __init__(self, refusal, line=None):
        super().__init__(refusal.value, line)
        self.refusal = refusal
        self.line = line


# ---- Words and what they say


@dataclasses.dataclass(frozen=True)
class Register:
    """A register by its number. Registers that may not be named have none."""

    number: int | None

    @property
    def low(self):
        """The three bits in an opcode or an operand byte."""
        return self.number % 8

    @property
    def is_extended(self):
        """The fourth bit, which is in a prefix byte."""
        return self.number >= 8


UNNAMED = Register(None)


# Each of these reads a word as an operand, and gives None if the word isn't of its kind.


def as_register(word, names):
    """The register that a word is by these names."""
    if word in RESERVED:
        return UNNAMED
    return Register(names.index(word)) if word in names else None


def as_low(word):
    return as_register(word, LOW)


def as_wide(word):
    return as_register(word, WIDE)


def as_low_first(word):
    """A register of a `mov` before a comma."""
    return as_low(word[:-1]) if word.endswith(",") else None


def as_wide_first(word):
    """A register of another line before a comma."""
    return as_wide(word[:-1]) if word.endswith(",") else None


def as_number(word):
    if re.fullmatch(r"[0-9]+", word):
        value = int(word)
    elif re.fullmatch(r"0x[0-9A-Fa-f]+", word):
        value = int(word, 16)
    else:
        return None
    return value if value <= NUMBER_LIMIT else None


def as_name(word):
    is_name = re.fullmatch(r"[A-Za-z_.$][A-Za-z0-9_.$]*", word) and len(word) <= NAME_LIMIT
    return word if is_name else None


def as_choice(word):
    return {"always": Choice.ALWAYS, "never": Choice.NEVER, "args": Choice.ARGS}.get(word)


# What the words after each keyword have to be, by how many there are.
OPERANDS = {
    ("base", 1): [as_number],
    ("entry", 1): [as_name],
    ("fn", 1): [as_name],
    ("fn", 2): [as_name, as_choice],
    ("mov", 2): [as_low_first, as_number],
    ("add", 2): [as_wide_first, as_wide],
    ("sub", 2): [as_wide_first, as_wide],
    ("push", 1): [as_wide],
    ("pop", 1): [as_wide],
    ("call", 1): [as_name],
    ("jmp", 1): [as_name],
    ("jnz", 1): [as_name],
    ("tailjmp", 1): [as_name],
    ("ret", 0): [],
    ("out", 1): [as_number],
}


@dataclasses.dataclass(frozen=True)
class Statement:
    """What a line says: its keyword, or that it is a label, and its operands."""

    line: int
    keyword: str
    operands: list

    @property
    def name(self):
        """The name in an `entry`, a `fn`, a label or a branch."""
        return self.operands[0]

    @property
    def choice(self):
        """What a `fn` says about sleds."""
        return self.operands[1] if len(self.operands) == 2 else Choice.BY_LENGTH

    @property
    def is_function(self):
        return self.keyword == "fn"

    @property
    def is_label(self):
        return self.keyword == LABEL

    @property
    def is_instruction(self):
        return self.keyword in INSTRUCTIONS


def statement(line, words):
    """What the words of a line say, or None."""
    keyword, *behind = words
    if keyword.endswith(":") and not behind:
        label = as_name(keyword[:-1])
        return None if label is None else Statement(line, LABEL, [label])
    readers = OPERANDS.get((keyword, len(behind)))
    if readers is None:
        return None
    operands = [reader(word) for reader, word in zip(readers, behind)]
    return None if None in operands else Statement(line, keyword, operands)


# ---- Instructions, and the places of a line's units


def encoding(said, distance=0):
    """The bytes of a line's instruction, with the distance of a branch. None for a line without an instruction."""
    relative = struct.pack("<i", distance)
    match said.keyword, said.operands:
        case "mov", [target, immediate]:
            return prefix(target) + bytes([0xB8 + target.low]) + struct.pack("<I", immediate)
        case "add" | "sub", [target, source]:
            first = 0x48 + 4 * source.is_extended + target.is_extended
            opcode = 0x01 if said.keyword == "add" else 0x29
            return bytes([first, opcode, 0xC0 + 8 * source.low + target.low])
        case "push", [source]:
            return prefix(source) + bytes([0x50 + source.low])
        case "pop", [target]:
            return prefix(target) + bytes([0x58 + target.low])
        case "call", _:
            return b"\xE8" + relative
        case "jmp" | "tailjmp", _:
            return b"\xE9" + relative
        case "jnz", _:
            return b"\x0F\x85" + relative
        case "ret", _:
            return b"\xC3"
        case "out", [port]:
            return bytes([0xE6, port])
        case _:
            return b""


def prefix(register):
    return b"\x41" if register.is_extended else b""


# What a `fn` line says of a function that is instrumented however long it is.
ALWAYS = (Choice.ALWAYS, Choice.ARGS)

# The lines that have a sled if their function is instrumented.
SLEDS = {"fn": Sled.ENTRY, "ret": Sled.EXIT, "tailjmp": Sled.TAIL}


def sled_kind(said):
    """The kind of a line's sled. That of a function that logs its first argument has a kind of its own."""
    return Sled.ARGS if said.is_function and said.choice is Choice.ARGS else SLEDS[said.keyword]


@dataclasses.dataclass(frozen=True)
class Placed:
    """A line with the place of its first byte, that of its sled if it has one, and the place after it."""

    said: Statement
    first: int
    sled: int | None
    end: int

    @property
    def start(self):
        """What names before this line stand for: a function starts at its entry sled, not at a byte before that."""
        return self.sled if self.said.is_function and self.sled is not None else self.first

    def code(self, places):
        """The bytes of the line's units, by the places that names stand for. A distance counts from their end."""
        distance = places[self.said.name] - self.end if self.said.keyword in BRANCHES else 0
        if self.sled is None:
            return encoding(self.said, distance)
        kind = sled_kind(self.said)
        sled = ALIGNMENT * (self.sled - self.first) + container.sled(kind)
        return sled if kind is Sled.EXIT else sled + encoding(self.said, distance)


def placed(said, place, is_instrumented):
    """A line whose units begin at a place. An exit sled is all of its `ret`. A tail sled has its jump after it."""
    length = len(encoding(said))
    if not is_instrumented or said.keyword not in SLEDS:
        return Placed(said, place, None, place + length)
    sled = place + place % 2
    behind = 0 if said.keyword == "ret" else length
    return Placed(said, place, sled, sled + SLED_LENGTH + behind)


# ---- Which lines are refused


class Reader:
    """The lines that were read, and what the refusal of the next one depends on.

    Sleds and code are counted as if each function that doesn't say `never` were instrumented.
    """

    def __init__(self):
        self.statements = []
        self.keywords = set()
        self.names = set()
        self.is_bare = False  # The last function has no instruction line.
        self.may_have_sleds = False
        self.functions = 0
        self.sleds = 0
        self.code = 0

    def read(self, line, words):
        """Takes one more line, or raises the first refusal that applies to it."""
        said = statement(line, words)
        if said is None or self.is_misplaced(said):
            raise TextRefused(Refusal.SYNTAX, line)
        if UNNAMED in said.operands:
            raise TextRefused(Refusal.REGISTER, line)
        if is_out_of_range(said):
            raise TextRefused(Refusal.RANGE, line)
        if (said.is_function or said.is_label) and said.name in self.names:
            raise TextRefused(Refusal.REPEAT, line)
        self.take(said)
        if self.functions > FUNCTION_LIMIT or self.sleds > SLED_LIMIT or self.code > CODE_LIMIT:
            raise TextRefused(Refusal.LIMIT, line)

    def is_misplaced(self, said):
        if said.keyword in ("base", "entry"):
            return said.keyword in self.keywords or self.functions > 0
        return self.is_bare if said.is_function else self.functions == 0

    def take(self, said):
        self.statements.append(said)
        self.keywords.add(said.keyword)
        if said.is_function or said.is_label:
            self.names.add(said.name)
        if said.is_function:
            self.functions += 1
            self.is_bare = True
            self.may_have_sleds = said.choice is not Choice.NEVER
        if said.is_instruction:
            self.is_bare = False
        units = placed(said, self.code, self.may_have_sleds)
        self.sleds += units.sled is not None
        self.code = units.end


def is_out_of_range(said):
    match said.keyword, said.operands:
        case "base", [address]:
            return address % 16 != 0 or address > BASE_LIMIT
        case "mov", [_, immediate]:
            return immediate > MOV_LIMIT
        case "out", [port]:
            return port > OUT_LIMIT
        case _:
            return False


def read(text):
    """What the lines of a text say, or raises its refusal."""
    if len(text) > TEXT_LIMIT:
        raise TextRefused(Refusal.TOO_LONG)
    reader = Reader()
    lines = lines_of(text)
    for line, content in enumerate(lines, 1):
        words = words_of(content)
        if words is None:
            raise TextRefused(Refusal.SYNTAX, line)
        if words:
            reader.read(line, words)
    if reader.functions == 0 or reader.is_bare:
        raise TextRefused(Refusal.SYNTAX, len(lines) + 1)
    check_names(reader.statements, reader.names)
    return reader.statements


def check_names(statements, names):
    """Raises the first line whose name stands for nothing."""
    functions = {said.name for said in statements if said.is_function}
    last_unit = max(said.line for said in statements if said.is_function or said.is_instruction)
    for said in statements:
        no_function = said.keyword == "entry" and said.name not in functions
        no_target = said.keyword in BRANCHES and said.name not in names
        no_place = said.is_label and said.line > last_unit
        if no_function or no_target or no_place:
            raise TextRefused(Refusal.LABEL, said.line)


# ---- The image


def functions_of(statements):
    """The lines of each function, from its `fn` on."""
    functions = []
    for said in statements:
        if said.is_function:
            functions.append([])
        if functions:
            functions[-1].append(said)
    return functions


def is_instrumented(function, threshold):
    choice = function[0].choice
    instructions = sum(said.is_instruction for said in function)
    return choice in ALWAYS or (choice is Choice.BY_LENGTH and instructions >= threshold)


def layout(functions, threshold):
    """All lines of the functions, with their places."""
    rows = []
    place = 0
    for function in functions:
        has_sleds = is_instrumented(function, threshold)
        for said in function:
            rows.append(placed(said, place, has_sleds))
            place = rows[-1].end
    return rows


def places_of(rows):
    """The place that each name stands for. A label is where the next line starts that isn't a label."""
    places = {}
    names = []
    for row in rows:
        if row.said.is_function or row.said.is_label:
            names.append(row.said.name)
        if not row.said.is_label:
            places.update((name, row.start) for name in names)
            names = []
    return places


def map_of(rows, base):
    """The entries of the sled map: address, function, kind and whether the function says `always`."""
    entries = []
    for row in rows:
        if row.said.is_function:
            function = base + row.start
            is_always = row.said.choice in ALWAYS
        if row.sled is not None:
            entries.append((base + row.sled, function, sled_kind(row.said), is_always))
    return entries


def said_once(statements, keyword, default):
    """The operand of the line with a keyword, if there is one."""
    return next((said.operands[0] for said in statements if said.keyword == keyword), default)


def assembled(text, threshold, relative=False):
    """The image file of a text, or raises its refusal. The addresses of its map may be relative."""
    statements = read(text)
    rows = layout(functions_of(statements), threshold)
    places = places_of(rows)
    code = b"".join(row.code(places) for row in rows)
    functions = [row.said.name for row in rows if row.said.is_function]
    base = said_once(statements, "base", WITHOUT_BASE)
    entry = functions.index(said_once(statements, "entry", functions[0]))
    named = [[base + places[name], name.encode("ascii")] for name in functions]
    version = container.RELATIVE_VERSION if relative else 0
    sleds = [[*sled, version, bytes(13)] for sled in map_of(rows, base)]
    return container.Draft(base, code, named, sleds, entry, container.trampolines_above(base)).file()
