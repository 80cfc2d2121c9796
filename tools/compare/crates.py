#!/usr/bin/env python3
"""Lists the crates by layers, with what each uses directly, and compares the list with docs/ARCHITECTURE.md.

usage: tools/compare/crates.py [--write] [ROOT]
    --write: writes the list into docs/ARCHITECTURE.md
    ROOT: the folder of the repository, that of this file if left out

The layers are the comments of crates.txt. What a crate is stands in the first line of its README. It uses a crate directly
if its sources or its definitions name it; what only its proofs name isn't counted. If the page differs from the sources,
the first lines that differ are reported, and the status is 1. If a crate uses one that crates.txt has below it, this is
reported too.
"""
import difflib
import pathlib
import re
import sys

sys.dont_write_bytecode = True  # the modules are in the repository, and their compiled forms aren't
sys.path.insert(0, str(pathlib.Path(__file__).resolve().parents[1]))
from command_line import ROOT, CommandLine  # noqa: E402

PAGE = "docs/ARCHITECTURE.md"
BEGIN = "<!-- made by tools/compare/crates.py -->\n"
END = "<!-- the end of what is made -->\n"


def layers_of(root):
    """The layers of crates.txt, from the lowest on: the sentence of each, and the names of its crates."""
    layers = []
    for line in (root / "crates.txt").read_text(encoding="utf-8").split("\n")[1:]:
        if line.startswith("# "):
            layers.append((line[2:], []))
        elif line.strip():
            layers[-1][1].append(line.split(":")[0].split()[0])
    return layers


def used_by(root, crate, crates):
    """The crates that the sources or the definitions of a crate name."""
    folder, text = root / "crates" / crate, ""
    for path in [*sorted((folder / "src").rglob("*.rt")), *sorted((folder / "specs").rglob("*.antt"))]:
        for line in path.read_text(encoding="utf-8").split("\n"):
            if not line.lstrip().startswith(("//", "--")):
                text += line + "\n"
    return [other for other in crates if other != crate and re.search(rf"\b{other}(?:::|\.specs)|Rattle\.{other}\b", text)]


def what_it_is(root, crate):
    heading = (root / "crates" / crate / "README.md").read_text(encoding="utf-8").split("\n")[0]
    return heading.partition(": ")[2]


def made_list(root):
    """The list, and what is out of order."""
    layers = layers_of(root)
    crates = [crate for _, names in layers for crate in names]
    lines, wrong = [], []
    for sentence, names in layers:
        lines += [f"**{sentence}**", "", "| Crate | What it is | It uses |", "|---|---|---|"]
        for crate in names:
            used = used_by(root, crate, crates)
            wrong += [f"{crate} uses {other}, which crates.txt has below it" for other in used if crates.index(other) > crates.index(crate)]
            lines.append(f"| [`{crate}`](../crates/{crate}/README.md) | {what_it_is(root, crate)} | {', '.join(used) or 'no other'} |")
        lines.append("")
    return "\n".join(lines), wrong


def main():
    parser = CommandLine(__doc__)
    parser.add_argument("--write", action="store_true")
    parser.add_argument("root", nargs="?", type=pathlib.Path, default=ROOT, metavar="ROOT")
    given = parser.parse_args()
    made, wrong = made_list(given.root)
    print("".join(f"{line}\n" for line in wrong), end="")
    place = given.root / PAGE
    before, begin, rest = place.read_text(encoding="utf-8").partition(BEGIN)
    was, end, after = rest.partition(END)
    if not begin or not end:
        print(f"{PAGE} has no place for the list: {BEGIN.strip()} and {END.strip()}")
        return 1
    if given.write:
        place.write_text(f"{before}{BEGIN}\n{made}{END}{after}", encoding="utf-8")
        return int(bool(wrong))
    changes = list(difflib.unified_diff(was.splitlines(), f"\n{made}".splitlines(), PAGE, "the sources", lineterm="", n=0))
    if changes:
        print(f"{PAGE} differs from the sources; tools/compare/crates.py --write makes the list anew:")
        print("\n".join(line[:300] for line in changes[:20]))
    return int(bool(changes or wrong))


if __name__ == "__main__":
    sys.exit(main())
