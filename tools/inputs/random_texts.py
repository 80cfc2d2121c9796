"""Random assembler texts: programs without a fault, with faults, written in all allowed ways, and at limits."""
from model.asm_model import (
    BASE_LIMIT, BRANCHES, CODE_LIMIT, FUNCTION_LIMIT, INSTRUCTIONS, LOW, MOV_LIMIT, NAME_LIMIT, NUMBER_LIMIT, OUT_LIMIT, RESERVED,
    SLED_LENGTH, SLED_LIMIT, TEXT_LIMIT, THRESHOLD_LIMIT, WIDE,
)  # fmt: skip
from model.image_container import RELATIVE_VERSION

# ---- Programs without a fault, each line a list of words

NAMES = [
    "main", "a", "A", "_", ".L0", "$x", "f1", "x.y$z_9", "ret", "fn", "always", "never", "args", "rax", "n" * NAME_LIMIT,
]  # fmt: skip
NAMED_LOW = [word for word in LOW if word not in RESERVED]
NAMED_WIDE = [word for word in WIDE if word not in RESERVED]
# What follows the name in a `fn` line. Nothing is more frequent, since thresholds need it.
CHOICES = ["", "", " always", " never", " args"]


def program(draw):
    """A text without a fault: some functions of a few instructions, with labels among them."""
    names = draw.sample(NAMES, draw.randint(1, 8))
    functions = names[: draw.randint(1, 4)]
    address = 16 * up_to(draw, BASE_LIMIT // 16)
    header = [["base", spelled(draw, address)], ["entry", draw.choice(functions)]]
    lines = draw.sample(header, draw.choice([0, 0, 1, 2]))
    first = len(lines)
    for function in functions:
        lines.append(f"fn {function}{draw.choice(CHOICES)}".split(" "))
        lines += [instruction(draw, names) for _ in range(draw.randint(1, 6))]
    for label in names[len(functions) :]:
        # After the first `fn`, and before the last instruction.
        lines.insert(draw.randrange(first + 1, len(lines)), [label + ":"])
    return lines


def instruction(draw, names):
    """An instruction line. Those with sleds are more frequent."""
    keyword = draw.choice([*INSTRUCTIONS, "ret", "tailjmp"])
    if keyword == "mov":
        return [keyword, draw.choice(NAMED_LOW) + ",", spelled(draw, up_to(draw, MOV_LIMIT))]
    if keyword in ("add", "sub"):
        return [keyword, draw.choice(NAMED_WIDE) + ",", draw.choice(NAMED_WIDE)]
    if keyword in ("push", "pop"):
        return [keyword, draw.choice(NAMED_WIDE)]
    if keyword in BRANCHES:
        return [keyword, draw.choice(names)]
    if keyword == "out":
        return [keyword, spelled(draw, up_to(draw, OUT_LIMIT))]
    return [keyword]


def up_to(draw, limit):
    """A number within a limit, often the first or the last one."""
    return draw.choice([0, 1, limit, draw.randint(0, limit), draw.randint(0, limit)])


def spelled(draw, value):
    """A number as a word."""
    zeros = "0" * draw.choice([0, 0, 0, 1, 20])
    return draw.choice([f"{zeros}{value}", f"0x{zeros}{value:x}", f"0x{zeros}{value:X}"])


# ---- Faults

# Lines that aren't of the language, each for another reason.
STRANGE = [
    "nop", "Ret", "ret ret", "ret: ret", "a :", ":", "a::", "1a:", "a-b:", "n" * (NAME_LIMIT + 1) + ":",
    "fn", "FN a", "fn 1a", "fn a b", "fn a Always", "fn a always never", "fn a,", "fn a:",
    "fn a arg", "fn a Args", "fn a args always",
    "base", "base 0x", "base 16 16", "base a", "base 18446744073709551616", "entry", "entry a b", "entry 1",
    "mov", "mov eax 1", "mov eax,1", "mov eax , 1", "mov ,eax 1", "mov eax,, 1", "mov eax,", "mov eax, 1 1",
    "mov 1, eax", "mov eax, ecx", "mov eax, esp", "mov rax, 1", "mov al, 1", "mov EAX, 1", "mov r16d, 1",
    "mov esp 1", "mov eax, x", "mov eax, +1", "mov eax, -1", "mov eax, 0X1", "mov eax, 0x", "mov eax, 1_000",
    "mov eax, 1h", "mov eax, 0x1g", "mov eax, 18446744073709551616", "mov esp, 0x10000000000000000",
    "add", "add rax,", "add rax,rcx", "add rax rcx", "add rax, rcx,", "add rax, 1", "add eax, ecx", "add rsp, 1",
    "sub rax", "sub rax, rcx, rdx", "push", "push eax", "push rax,", "push rsp,", "push 1", "pop r16", "pop rax rcx",
    "call", "call 1", "call a b", 'call "a"', "jmp a,", "jmp a:", "jnz 0x1000", "jnz @a", "tailjmp", "tailjmp -a",
    "out", "out al", "out 1,", "out 1 2", "out 1, al",
]
# Numbers out of range, and registers that may not be named, also in one line.
FAR = ["base 0x7FFF00000010", "base 8", "base 4097", "mov eax, 4294967296", "mov r9d, 0xFFFFFFFFFFFFFFFF", "out 256"]
TAKEN = ["mov X, 1", "mov X, 4294967296", "add X, rax", "add rcx, X", "sub X, X", "sub r15, X", "push X", "pop X"]


def insert(draw, lines, words):
    lines.insert(draw.randint(0, len(lines)), words)


def strange_line(draw, lines):
    insert(draw, lines, draw.choice(STRANGE).split(" "))


def stray_line(draw, lines):
    """A line that is right, but perhaps in a wrong place."""
    name = draw.choice(NAMES)
    right = [["base", "32"], ["entry", name], ["fn", name], [name + ":"], instruction(draw, NAMES)]
    insert(draw, lines, draw.choice(right))


def far_number(draw, lines):
    insert(draw, lines, draw.choice(FAR).split(" "))


def taken_register(draw, lines):
    insert(draw, lines, draw.choice(TAKEN).replace("X", draw.choice(RESERVED)).split(" "))


def repeated_name(draw, lines):
    """A second function or label with the name of a function."""
    names = [words[1] for words in lines if words[0] == "fn" and len(words) > 1]
    if names:
        insert(draw, lines, draw.choice([["fn", draw.choice(names)], [draw.choice(names) + ":"]]))


def late_label(draw, lines):
    lines.append([draw.choice(NAMES) + ":"])


def late_function(draw, lines):
    """A function without an instruction line, at the end."""
    lines.append(["fn", draw.choice(NAMES)])


def unknown_name(draw, lines):
    """Another name in a line that goes to a name. It may be undefined, or not a function."""
    users = [words for words in lines if words[0] in ("entry", *BRANCHES) and len(words) > 1]
    if users:
        draw.choice(users)[1] = draw.choice(NAMES)


def entry_at_label(draw, lines):
    """An `entry` before all lines that names a label."""
    labels = [words[0].removesuffix(":") for words in lines if words[0].endswith(":")]
    if labels:
        lines.insert(0, ["entry", draw.choice(labels)])


def missing_line(draw, lines):
    del lines[draw.randrange(len(lines))]


def repeated_line(draw, lines):
    insert(draw, lines, list(draw.choice(lines)))


def moved_line(draw, lines):
    insert(draw, lines, lines.pop(draw.randrange(len(lines))))


def other_word(draw, lines):
    """A word of this or another kind for a word."""
    words = draw.choice(lines)
    others = draw.choice([draw.choice(lines), NAMES, LOW, WIDE, INSTRUCTIONS])
    words[draw.randrange(len(words))] = draw.choice(others)


def added_word(draw, lines):
    words = draw.choice(lines)
    words.insert(draw.randint(0, len(words)), draw.choice(draw.choice(lines)))


FAULTS = [
    strange_line,
    stray_line,
    far_number,
    taken_register,
    repeated_name,
    late_label,
    late_function,
    unknown_name,
    entry_at_label,
    missing_line,
    repeated_line,
    moved_line,
    other_word,
    added_word,
]
FAULT_SHARE = 0.45


def small_text(draw):
    """A program, perhaps with a fault, or with two faults, one of which has to be reported."""
    lines = program(draw)
    if draw.random() < FAULT_SHARE:
        for fault in draw.choices(FAULTS, k=draw.choice([1, 2])):
            fault(draw, lines)
    return written(draw, lines)


# ---- Ways to write them

AROUND = ["", " ", " ", "    ", "\t", " \t "]
BETWEEN = [" ", " ", "  ", "\t", " \t"]
# The ends that the lines of one text have.
ENDS = [[b"\n"], [b"\n"], [b"\r\n"], [b"\n", b"\r\n"]]
# Bytes that mean something, and bytes next to those that a line may hold.
ODD = b"\0\t\n\r\x1F #,:0x\"@\x7E\x7F\x80\xFF"
COMMENT_SHARE = 0.15
DAMAGE_SHARE = 0.08


def written(draw, lines):
    """The bytes of lines with blanks, comments, empty lines and ends of all kinds, sometimes damaged."""
    ends = draw.choice(ENDS)
    text = b""
    for words in lines:
        while draw.random() < COMMENT_SHARE:
            text += written_line(draw, []) + draw.choice(ends)
        text += written_line(draw, words) + draw.choice(ends)
    if draw.random() < 0.3:
        text = text.removesuffix(b"\n").removesuffix(draw.choice([b"\r", b"\r", b""]))
    return damaged(draw, text) if draw.random() < DAMAGE_SHARE else text


def written_line(draw, words):
    """The bytes of a line without its end."""
    said = ""
    for word in words:
        said += draw.choice(BETWEEN if said else AROUND) + word
    said += draw.choice(AROUND)
    comment = b"#" + commented(draw) if draw.random() < COMMENT_SHARE else b""
    return said.encode("ascii") + comment


def commented(draw):
    return draw.choice([b"", b" a comment", draw.randbytes(draw.randint(1, 9)).replace(b"\n", b"#")])


def damaged(draw, text):
    """A text with a byte too many or too few, or with another one, or cut."""
    at = draw.randint(0, len(text))
    odd = bytes([draw.choice([*ODD, draw.randrange(256)])])
    return text[:at] + draw.choice([odd + text[at:], text[at + 1 :], odd + text[at + 1 :], b""])


# ---- Texts at a limit, or past it by the given amount

# Lines of one instruction, with their bytes.
FILLERS = {
    "push rax": 1,
    "pop r15": 2,
    "out 3": 2,
    "add rax, r9": 3,
    "mov eax, 7": 5,
    "jmp last": 5,
    "call a": 5,
    "jnz last": 6,
    "mov r8d, 1": 6,
}
# Lines with sleds, with their bytes at an even place.
WITH_SLEDS = {"ret": SLED_LENGTH, "tailjmp a": SLED_LENGTH + 5, "fn b": SLED_LENGTH}
# Fillers of any length end this far before the limit, and single bytes do the rest.
ROOM = 64


def joined(lines):
    return "".join(line + "\n" for line in lines).encode("ascii")


def full_code(draw, past):
    """As much code as allowed, sometimes a byte less, since sleds can't end at some places."""
    says = draw.choice(CHOICES)
    place = 0 if says == " never" else SLED_LENGTH
    ends = FILLERS if says == " never" else FILLERS | WITH_SLEDS
    last = draw.choice(list(ends))
    end = CODE_LIMIT + past - draw.choice([0, 0, 1])
    lines = ["fn a" + says]
    fillers = list(FILLERS.items())
    while place < end - ROOM:
        filler, length = draw.choice(fillers)
        lines.append(filler)
        place += length
    lines += ["push rax"] * (end - ends[last] - place) + ["last:", last]
    return joined(lines + ["ret"] * draw.choice([0, 0, 1]))


def full_sled_map(draw, past):
    """As many sleds as allowed."""
    left = SLED_LIMIT + past
    lines = []
    functions = 0
    while left > 0:
        says = draw.choice(CHOICES)
        has_sleds = says != " never"
        lines.append(f"fn f{functions}{says}")
        functions += 1
        left -= has_sleds
        for _ in range(draw.randrange(300)):
            if left > 0:
                lines.append(draw.choice(["ret", "tailjmp f0"]))
                left -= has_sleds
            if draw.random() < 0.3:
                lines.append("push rcx")
        lines.append("out 1")
    return joined(lines)


def full_function_list(draw, past):
    """As many functions as allowed."""
    lines = []
    for function in range(FUNCTION_LIMIT + past):
        lines.append(f"fn f{function}{draw.choice(CHOICES)}")
        lines.append(draw.choice(["ret", "push rax", "jmp f0", "tailjmp f0"]))
    return joined(lines)


def full_length(draw, past):
    """A text as long as allowed, by a comment."""
    text = written(draw, program(draw))
    return text + b"#" * (TEXT_LIMIT + past - len(text))


def longest_name(draw, past):
    """A name as long as allowed, of a function or a label."""
    function, label = draw.sample(["short", "n" * (NAME_LIMIT + past)], 2)
    return joined([f"entry {function}", f"fn {function}", f"{label}:", f"jmp {label}"])


def largest_number(draw, past):
    """A number as large as its line allows, or as a number may be at all."""
    words, limit = draw.choice([("base", BASE_LIMIT), ("mov r9d,", MOV_LIMIT), ("out", OUT_LIMIT)])
    value = draw.choice([limit, NUMBER_LIMIT]) + past
    line = f"{words} {spelled(draw, value)}"
    return joined([line, "fn a", "ret"] if words == "base" else ["fn a", line, "ret"])


LIMITS = [full_code, full_sled_map, full_function_list, full_length, longest_name, largest_number]
LIMIT_TURNS = [(kind, past) for kind in LIMITS for past in (0, 1)]
# One in this many texts is at a limit or one past it, by turns.
LIMIT_EVERY = 20
# The functions of small texts have few instructions, so many of these decide. None leaves the option out.
THRESHOLDS = [None, None, 0, 1, 2, 3, 4, 5, 6, 7, THRESHOLD_LIMIT]
MAP_VERSIONS = [None, 0, RELATIVE_VERSION]
