"""Random sled maps as texts: spelled in all ways that are read, and damaged in the ways in which a map is refused."""

KINDS = "function-enter function-exit tail-exit function-enter-arg log-args-enter custom-event typed-event".split()
NAMES = [
    b"main", b"f", b"", b"a,b", b"it's", b"std::vector<int, std::allocator<int> >::push_back(int const&)", b"caf\xc3\xa9", b"a;b",
    b'say "x"', b"back\\slash", b"#1", b"operator()", b"\xe2\x80\x8d", b"n" * 300, b"a b\tc", b"^.-_", b"'", b"''",
]  # fmt: skip
PLAIN = set(b"abcdefghijklmnopqrstuvwxyzABCDEFGHIJKLMNOPQRSTUVWXYZ0123456789_-^., \t")


def spelled(draw, name):
    """A name between single or double marks, or without any where that says the same."""
    ways = [b"'" + name.replace(b"'", b"''") + b"'"]
    if b"\\" not in name:
        ways.append(b'"' + name.replace(b'"', b'\\"') + b'"')
    if name and set(name) <= PLAIN and not name.startswith(b" "):
        ways.append(name)
    return draw.choice(ways)


def number(draw):
    digits = draw.choice(["0", "1000", "22E90", "22e90", "FFFFFFFFFFFFFFFF", "0000000000001012"])
    return b"0x" + digits.encode()


def line(draw):
    function = draw.choice([1, 1, 2, 3, 3, 4, 7, 0, 1_000_000, (1 << 32) - 1])
    version = draw.choice([b"", b", version: 0", b", version: 1", b", version: 2", b", version: 2"])
    truth = draw.choice([b"true", b"false"])
    name = b", function-name: " + spelled(draw, draw.choice(NAMES)) if draw.random() < 0.85 else b""
    return b"- { id: %d, address: %s, function: %s, kind: %s, always-instrument: %s%s%s%s" % (
        function, number(draw), number(draw), draw.choice(KINDS).encode(), truth, name, version, draw.choice([b" }", b" }", b" }", b"}"]),
    )  # fmt: skip


COMMENTS = [b"# a comment", b"#", b"  # one behind blanks", b"\t#", b"#---", b"# ..."]


def with_comments(draw, lines):
    for _ in range(draw.choice([1, 2, 4])):
        lines.insert(draw.randint(0, len(lines)), draw.choice(COMMENTS))


DAMAGES = [
    (b"id: ", b"id: x"), (b"0x", b""), (b"kind: ", b"kind: x"), (b"true", b"yes"), (b"version: ", b"version: 3"), (b"id: ", b"id: 9999999999"),
    (b" }", b""), (b"'", b""), (b"name: ", b"name: }"), (b"- {", b"-{"), (b"0x", b"0x1FFFFFFFFFFFFFFFF"), (b", ", b",", ),
]  # fmt: skip


def random_map(draw):
    lines = [b"---", *(line(draw) for _ in range(draw.choice([0, 1, 3, 8]))), b"..."]
    if draw.random() < 0.3:
        at = draw.randrange(len(lines))
        match draw.randrange(4):
            case 0:
                del lines[at]
            case 1:
                lines.insert(at, draw.choice([b"", b" ", b"---", b"...", b"x # x", lines[at]]))
            case 2 | 3:
                lines[at] = lines[at].replace(*draw.choice(DAMAGES), 1)
    if draw.random() < 0.3:
        with_comments(draw, lines)
    end = draw.choice([b"\n", b"\n", b"\r\n"])
    text = end.join(lines) + (b"" if draw.random() < 0.1 else end)
    return text[: draw.randrange(len(text) + 1)] if draw.random() < 0.04 else text
