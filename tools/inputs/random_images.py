"""Random image files for comparisons with the model: of random assembler texts, of random units, of functions that call
each other, and damaged in all the ways in which an image is refused.
"""
import struct

from model import image_model as model
from model.asm_model import assembled
from model.image_container import ENTRY_HEAD, EXIT_HEAD, Draft, draft_of, trampolines_above

from . import random_texts as texts

# Sleds without the displacement at their end.
ENTRY_SLED, EXIT_SLED = (head + model.NOP for head in (ENTRY_HEAD, EXIT_HEAD))
PLAIN_REGISTERS = [number for number in range(16) if number not in model.RESERVED]


def assembled_draft(draw):
    """The image of a random assembler text without a fault."""
    while True:
        text = texts.written(draw, texts.program(draw))
        try:
            return draft_of(assembled(text, draw.choice([0, 1, 2, 4]), draw.choice([False, True])))
        except model.Refused:
            continue


def number_32(draw):
    return draw.choice([0, 1, 65, 255, 256, 0x7FFFFFFF, 0x80000000, 0xFFFFFFFF, draw.randrange(1 << 32)])


def straight(draw, registers=PLAIN_REGISTERS):
    """The bytes of an instruction that isn't a branch."""
    one, two = draw.choice(registers), draw.choice(registers)
    high = b"\x41" if one >= 8 else b""
    sum_prefix = 0x48 + 4 * (two >= 8) + (one >= 8)
    operands = 0xC0 + 8 * (two % 8) + one % 8
    return draw.choice(
        [
            high + bytes([0xB8 + one % 8]) + struct.pack("<I", number_32(draw)),
            bytes([sum_prefix, draw.choice([0x01, 0x29]), operands]),
            high + bytes([0x50 + one % 8]),
            high + bytes([0x58 + one % 8]),
            bytes([0xE6, draw.randrange(256)]),
        ]
    )


BRANCHES = [b"\xE8", b"\xE9", b"\x0F\x85"]


class Units:
    """Random units, one after the other, with their places, the ends of branches, and the sleds."""

    def __init__(self, draw, base):
        self.draw = draw
        self.base = base
        self.code = bytearray()
        self.places = []
        self.branches = []
        self.sleds = []  # (place, kind)
        self.few = draw.sample(PLAIN_REGISTERS, 3)

    def add(self, unit):
        self.places.append(len(self.code))
        self.code += unit

    def add_any(self):
        draw = self.draw
        match draw.choice(["straight", "straight", "straight", "branch", "sled", "sled", "ret", "align", "address"]):
            case "straight":
                self.add(straight(draw, draw.choice([self.few, PLAIN_REGISTERS])))
            case "branch":
                self.add(draw.choice(BRANCHES) + bytes(4))
                self.branches.append(len(self.code))
            case "sled":
                self.add_sled()
            case "ret":
                self.add(b"\xC3")
            case "align":
                self.add(b"\x90")
            case "address":
                self.add_address()

    def add_sled(self):
        if len(self.code) % 2 == 1:
            self.add(b"\x90")
        kind = self.draw.choice([0, 0, 1, 1, 2, 3])
        displacement = self.draw.choice([bytes.fromhex("00020000"), self.draw.randbytes(4)])
        self.add((EXIT_SLED if kind == 1 else ENTRY_SLED) + displacement)
        self.sleds.append((self.places[-1], kind))

    def add_address(self):
        """A push of an address for a `ret`, perhaps one where no unit begins."""
        target = self.base + self.draw.choice([*self.places, self.draw.randrange(len(self.code) + 9)])
        register = self.draw.choice([0, 1, 2, 3])
        self.add(bytes([0xB8 + register]) + struct.pack("<I", target % (1 << 32)))
        self.add(bytes([0x50 + register]))

    def aim_branches(self):
        for end in self.branches:
            struct.pack_into("<i", self.code, end - 4, self.draw.choice(self.places) - end)


def units_draft(draw):
    """Random units, so there are branches and sleds that no text has."""
    base = 16 * texts.up_to(draw, model.BASE_LIMIT // 16)
    units = Units(draw, base)
    for _ in range(draw.randint(1, 25)):
        units.add_any()
    units.aim_branches()
    others = units.places[1:]
    starts = [0, *sorted(draw.sample(others, min(len(others), draw.randint(0, 3))))]
    names = draw.sample(texts.NAMES + ["1", "9x"], len(starts))
    functions = [[base + start, name.encode()] for start, name in zip(starts, names)]
    entries = []
    for place, kind in units.sleds:
        function = max(start for start in starts if start <= place)
        version, always = draw.choice([0, 1, 2]), draw.choice([0, 1, 1, 2, 255])
        padding = draw.choice([bytes(13), draw.randbytes(13)])
        entries.append([base + place, base + function, kind, always, version, padding])
    return Draft(base, units.code, functions, entries, draw.randrange(len(functions)), trampolines_above(base))


BETWEEN_CALLS = ["mov eax, 7", "add rax, rdi", "sub rdi, rax", "out 1"]


def calling_draft(draw):
    """Functions with sleds that call one another, so that threads pass many sleds."""
    names = [f"f{number}" for number in range(draw.randint(1, 5))]
    lines = [f"base {16 * texts.up_to(draw, model.BASE_LIMIT // 16)}"]
    for at, name in enumerate(names):
        later = names[at + 1 :]
        lines.append(f"fn {name} {draw.choice(['always', 'always', 'always', 'args', 'args', 'never'])}")
        for _ in range(draw.randint(0, 3)):
            # A call back is a recursion, which the fuel or the stack ends.
            callees = later if later and draw.random() < 0.95 else names
            lines += [draw.choice(BETWEEN_CALLS), f"call {draw.choice(callees)}"] if later else [draw.choice(BETWEEN_CALLS)]
        lines.append(f"tailjmp {draw.choice(later)}" if later and draw.random() < 0.3 else "ret")
    return draft_of(assembled("\n".join(lines).encode("ascii"), 1))


# ---- Damages


def near(draw, value):
    return value + draw.choice([-16, -2, -1, 1, 1, 2, 16])


def other_header(draw, draft):
    match draw.randrange(9):
        case 0:
            draft.magic = draw.choice([b"XRIN", b"xrim", b"\0\0\0\0", b"MIRX"])
        case 1:
            draft.version = draw.choice([0, 2, 0x100, 0xFFFFFFFF])
        case 2:
            draft.base = draw.choice([near(draw, draft.base), 0x7FFF00000010, 0x7FFF00000000, 8, 0, (1 << 64) - 16])
        case 3:
            length = len(draft.code)
            draft.counts[0] = draw.choice([-1, 1, 8, 1_048_576 - length, 1_048_577 - length, -(1 << 31)])
        case 4:
            functions = len(draft.functions)
            least, most = -functions, (1 << 32) - 1 - functions
            draft.counts[1] = draw.choice([least, -1, 1, 1024 - functions, 1025 - functions, most])
        case 5:
            sleds = len(draft.entries)
            draft.counts[2] = draw.choice([-1, 1, 4096 - sleds, 4097 - sleds, (1 << 32) - 1 - sleds])
        case 6:
            draft.entry = draw.choice([len(draft.functions), len(draft.functions) - 1, 0xFFFFFFFF])
        case 7:
            # All addresses move with the base.
            by = draw.choice([8, 16, -draft.base, model.BASE_LIMIT - draft.base])
            draft.base += by
            draft.functions = [[start + by, name] for start, name in draft.functions]
            draft.entries = [[address + by, function + by, *rest] for address, function, *rest in draft.entries]
            draft.trampolines = [address + by for address in draft.trampolines]
        case 8:
            draft.trampolines[draw.randrange(4)] = draw.randrange(1 << 64)


def far_trampoline(draw, draft):
    """A trampoline at the end of the reach of one of the sleds, or one past it."""
    if draft.entries:
        address, _, kind, *_ = draw.choice([draft.entries[0], draft.entries[-1], draw.choice(draft.entries)])
        edge = draw.choice([-(1 << 31), -(1 << 31) - 1, (1 << 31) - 1, 1 << 31])
        if 0 <= address + 11 + edge < 1 << 64:
            draft.trampolines[kind % 4] = address + 11 + edge


def other_code(draw, draft):
    if not draft.code:
        return
    at = draw.randrange(len(draft.code))
    odd = draw.choice([0xEB, 0xC3, 0x2E, 0x90, 0x41, 0x48, 0x4D, 0x0F, 0x85, 0xBC, 0x54, 0x01, 0xE8, draw.randrange(256)])
    match draw.randrange(4):
        case 0:
            draft.code[at] = odd
        case 1:
            draft.code.insert(at, odd)
        case 2:
            del draft.code[at]
        case 3:
            del draft.code[at:]


ENDS = [
    "41", "48", "48 01", "0F", "BC", "54", "41 BA", "E6", "E8 00 00 00", "C3", "C3 2E", "EB", "EB 09 66 0F 1F 84",
    "C3 2E 66 0F 1F 84 00 00 00 00", "48 01 C4", "49 01 D2", "4C 29 D4", "48 01 05", "4A 01 C0", "0F 84", "90",
]  # fmt: skip


def other_end(draw, draft):
    """Bytes after the code's last unit."""
    draft.code += bytes.fromhex(draw.choice(ENDS))


# Names with a byte that isn't allowed, many of them next to bytes that are; the last is a name.
WRONG_NAMES = [b"", b"a b", b"a-b", b"a\x80", b"'", b"a\0", b"@", b"`", b"[", b"/", b":", b"{", b"1"]


def other_function(draw, draft):
    function = draw.choice(draft.functions)
    match draw.randrange(6):
        case 0:
            function[0] = near(draw, function[0])
        case 1:
            function[0] = draw.choice(draft.functions)[0]
        case 2:
            function[1] = draw.choice(WRONG_NAMES)
        case 3:
            function[1] = draw.choice(draft.functions)[1]
        case 4:
            draft.functions.append([draft.base + len(draft.code), b"end"])
        case 5:
            draft.functions.reverse()


def other_entry(draw, draft):
    if not draft.entries:
        draft.entries.append([draft.base, draft.base, 0, 1, 0, bytes(13)])
        return
    at = draw.randrange(len(draft.entries))
    entry = draft.entries[at]
    match draw.randrange(9):
        case 0:
            entry[0] = near(draw, entry[0])
        case 1:
            entry[1] = draw.choice([near(draw, entry[1]), *[start for start, _ in draft.functions]])
        case 2:
            entry[2] = draw.choice([0, 1, 2, 3, 3, 4, 255])
        case 3:
            entry[4] = draw.choice([0, 1, 2, 3, 255])
        case 4:
            del draft.entries[at]
        case 5:
            draft.entries.insert(at, list(entry))
        case 6:
            draft.entries.reverse()
        case 7:
            entry[5] = draw.randbytes(13)
            entry[3] = draw.randrange(256)
        case 8:
            draft.keep_fields(at, draw.choice([0, 1, 2, 3]))


def other_branch(draw, draft):
    """A distance a little further, or to the code's ends."""
    places = [at for at, byte in enumerate(draft.code) if byte in (0xE8, 0xE9, 0x85) and at + 5 <= len(draft.code)]
    if places:
        at = draw.choice(places) + 1
        (old,) = struct.unpack_from("<i", draft.code, at)
        ends = [-(at + 4), -(at + 5), len(draft.code) - at - 4, 1 << 30, -(1 << 31), (1 << 31) - 1]
        new = draw.choice([near(draw, old), near(draw, old), *ends])
        struct.pack_into("<I", draft.code, at, new % (1 << 32))


PARTS = [
    other_header, far_trampoline, other_code, other_code, other_end, other_function, other_entry, other_entry, other_branch,
]  # fmt: skip


def other_file(draw, file):
    """A file that is cut or lengthened, or has another byte."""
    anywhere = draw.randint(0, len(file))
    at = draw.choice([0, 4, 63, 64, len(file) - 1, len(file) - 32, anywhere, anywhere])
    at = max(0, min(at, len(file)))
    byte = draw.randbytes(1)
    inside = [file[:at], file[:at] + byte + file[at + 1 :], file[:at] + byte + file[at:]]
    return draw.choice([*inside, file + byte, file + bytes(32)])


def random_image(draw, kinds, damaged_share):
    draft = draw.choice(kinds)(draw)
    is_damaged = draw.random() < damaged_share
    if is_damaged:
        for damage in draw.choices(PARTS, k=draw.choice([0, 1, 1, 1, 2])):
            damage(draw, draft)
    file = draft.file()
    return other_file(draw, file) if is_damaged and draw.random() < 0.2 else file
