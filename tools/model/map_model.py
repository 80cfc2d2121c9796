"""A model of sled maps as texts: the names that a map gives to functions, and how reports write a name.

It is written from what LLVM's and our own `extract` print, and shares nothing with the program or its definitions.
"""

import re

from .image_model import Refused

KINDS = "function-enter function-exit tail-exit function-enter-arg log-args-enter custom-event typed-event".split()
ENTRY = re.compile(
    rb"- \{ id: (\d+), address: 0x([0-9A-Fa-f]+), function: 0x([0-9A-Fa-f]+), kind: ("
    + "|".join(KINDS).encode()
    + rb"), always-instrument: (?:true|false)(?:, function-name: "
    rb"(?:'((?:[^']|'')*)'|\"((?:[^\"\\]|\\.)*)\"|([A-Za-z0-9_^.,\- \t]+?)))?(?:, version: [012])?(?: \}|(?<! )\})",
    re.DOTALL,
)


def lines_of(text):
    lines = text.split(b"\n")
    if lines[-1] == b"":
        lines.pop()
        return [line.removesuffix(b"\r") for line in lines]
    return [line.removesuffix(b"\r") for line in lines[:-1]] + lines[-1:]


def entry_of(line, number):
    found = ENTRY.fullmatch(line)
    if found is None:
        raise Refused("Syntax", number)
    function, address, start, _, single, double, plain = found.groups()
    if int(function) >= 1 << 32 or int(address, 16) >= 1 << 64 or int(start, 16) >= 1 << 64:
        raise Refused("Syntax", number)
    if single is not None:
        return int(function), single.replace(b"''", b"'")
    if double is not None:
        return int(function), re.sub(rb'\\(["\\])', rb"\1", double)
    return int(function), plain or b""


def is_comment(line):
    return line.lstrip(b" \t").startswith(b"#")


def names_of(text):
    """The names by ids. Comments may stand anywhere."""
    lines = lines_of(text)
    said = [(number, line) for number, line in enumerate(lines, start=1) if not is_comment(line)]
    if said and said[0][1] != b"---":
        raise Refused("Syntax", said[0][0])
    names = {}
    for at, (number, line) in enumerate(said[1:], start=2):
        if line == b"...":
            if at < len(said):
                raise Refused("Syntax", said[at][0])
            return names
        function, name = entry_of(line, number)
        if name:
            names.setdefault(function, name)
    raise Refused("Syntax", len(lines) + 1)


def plain(name):
    return name


def csv_field(name):
    return b'"' + name.replace(b'"', b'""') + b'"' if re.search(rb'[,"\r\n]', name) else name


def frame(name):
    return name.replace(b";", b":")


def yaml_text(name):
    return b"'" + name.replace(b"'", b"''") + b"'"
