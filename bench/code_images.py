"""Image files for the bench, put together from a few lines of code each.

Code is a list of functions: a name, whether it has sleds, and its lines. A line is a tuple of an
instruction's name and its operands, registers by number, or a label's name with a colon. `call`,
`jmp` and `jnz` name a label or a function.
"""
import struct

from model.image_container import ENTRY_SLED, EXIT_SLED, image_file, sled

ALIGNMENT = b"\x90"


def opcode(code, register):
    prefix = b"" if register < 8 else b"\x41"
    return prefix + bytes([code + register % 8])


def two_registers(code, dst, src):
    return bytes([0x48 + 4 * (src // 8) + dst // 8, code, 0xC0 + 8 * (src % 8) + dst % 8])


def encode(line, labels, place):
    """The bytes of an instruction. `place` counts from the code's start."""
    name, *operands = line
    if name == "mov":
        return opcode(0xB8, operands[0]) + struct.pack("<I", operands[1])
    if name in ("add", "sub"):
        return two_registers({"add": 0x01, "sub": 0x29}[name], *operands)
    if name in ("push", "pop"):
        return opcode({"push": 0x50, "pop": 0x58}[name], *operands)
    if name in ("call", "jmp", "jnz"):
        head = {"call": b"\xE8", "jmp": b"\xE9", "jnz": b"\x0F\x85"}[name]
        behind = place + len(head) + 4
        return head + struct.pack("<i", labels.get(operands[0], 0) - behind)
    if name == "out":
        return bytes([0xE6, operands[0]])
    return b"\xC3"


def lay_out(functions, labels):
    """The code, the functions' places, the sleds, and the place of each label.

    `labels` has the places of the labels from an earlier pass.
    """
    code, starts, sleds, found = bytearray(), [], [], {}

    def add_sled(kind):
        if len(code) % 2 == 1:
            code.extend(ALIGNMENT)
        sleds.append((len(code), starts[-1][0], kind))
        code.extend(sled(kind))

    for name, traced, lines in functions:
        if traced and len(code) % 2 == 1:
            code.extend(ALIGNMENT)
        found[name] = len(code)
        starts.append((len(code), name.encode()))
        if traced:
            add_sled(ENTRY_SLED)
        for line in lines:
            if isinstance(line, str):
                found[line.rstrip(":")] = len(code)
            elif line == ("ret",) and traced:
                add_sled(EXIT_SLED)
            else:
                code.extend(encode(line, labels, len(code)))
    return bytes(code), starts, sleds, found


def image(functions):
    """The file of an image that starts at its first function."""
    *_, labels = lay_out(functions, {})
    code, starts, sleds, _ = lay_out(functions, labels)
    return image_file(code, starts, sleds)


RAX, RCX, RDX, RDI = 0, 1, 2, 7


def counting_loop(rounds):
    """Three instructions per round: adds up the numbers from `rounds` down to 1 in rax."""
    lines = [
        ("mov", RCX, rounds),
        ("mov", RDX, 1),
        "again:",
        ("add", RAX, RCX),
        ("sub", RCX, RDX),
        ("jnz", "again"),
        ("ret",),
    ]
    return image([("main", True, lines)])


def fibonacci(n):
    """The nth Fibonacci number in rax, by a recursive function with sleds."""
    main = [("mov", RDI, n), ("call", "fib"), ("ret",)]
    fib = [
        ("mov", RCX, 0),
        ("add", RDI, RCX),
        ("jnz", "positive"),
        ("ret",),
        "positive:",
        ("mov", RCX, 1),
        ("sub", RDI, RCX),
        ("jnz", "large"),
        ("add", RAX, RCX),
        ("ret",),
        "large:",
        ("push", RDI),
        ("call", "fib"),
        ("pop", RDI),
        ("mov", RCX, 1),
        ("sub", RDI, RCX),
        ("call", "fib"),
        ("ret",),
    ]
    return image([("main", False, main), ("fib", True, fib)])
