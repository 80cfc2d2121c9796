#!/usr/bin/env python3
"""Lists lemmas that nothing uses, and signatures that stand in more than one crate.

usage: tools/compare/lemmas.py [--unused | --twice] [ROOT]
    --unused: the lemmas and private definitions that no contract, no public definition and no answer to a goal reaches
    --twice: the signatures of lemmas that stand in several crates, with the names that they have there
    ROOT: the folder of the repository, that of this file if left out

Without an option both lists are made. A lemma is found by its name alone, so one that shares its name with a lemma that is
used counts as used. A lemma without variables is an example, and is never listed as unused. Neither is one of a file that
has modules with parameters. Each list ends with its length. The status is 1 if a lemma is unused.
"""
import collections
import pathlib
import re
import sys

sys.dont_write_bytecode = True  # the modules are in the repository, and their compiled forms aren't
sys.path.insert(0, str(pathlib.Path(__file__).resolve().parents[1]))
from command_line import ROOT, CommandLine  # noqa: E402

MODIFIERS = r"(?:(?:pub|abbrev|unfoldable|opaque) )*"
OPENS = re.compile(MODIFIERS + r"(?:(?:record|data) )?([^\s:(]+)(?: : | \()")
WORD = re.compile(r"[^\s(){}\[\],;.\"`]+")
KEYWORDS = {"use", "mod", "module", "infix", "infixl", "infixr", "where", "unfolding", "let"}
# the files that a goal of the prover names
GOALS = {"Answers.antt", "Invariants.antt", "Proof.antt", "Measures.antt"}
SHORT = 30  # a signature with fewer characters isn't worth a lemma of its own


class Block:
    """A definition or a lemma: its name, its lines and its signature. Lines that belong to none have no name."""

    def __init__(self, crate, path, name, signature):
        self.crate, self.path, self.name = crate, path, name
        self.signature = signature
        self.lines = []

    def words(self):
        return {word for line in self.lines for word in WORD.findall(line)}

    def is_example(self):
        return "→" not in self.signature and "(" not in self.signature.split("≡")[0].split(":")[0]


def blocks_of(crate, path):
    """The blocks of a file of antt."""
    current = None
    for line in path.read_text(encoding="utf-8").split("\n"):
        if line.startswith("--") or not line.strip():
            continue
        opened = None if line.startswith((" ", "}", ")")) else OPENS.match(line)
        if opened and opened[1] not in KEYWORDS and line.split()[0] not in KEYWORDS:
            if current is None or opened[1] != current.name:
                if current:
                    yield current
                current = Block(crate, path, opened[1], line[opened.end(1):])
        elif line.startswith(("use ", "pub use ", "mod ", "pub mod ", "infix")):
            if current:
                yield current
            current = None
            continue
        if current:
            if len(current.lines) and line.startswith("    ") and not any(is_clause(current, old) for old in current.lines):
                current.signature += " " + line.strip()
            current.lines.append(line)
    if current:
        yield current


def is_clause(block, line):
    return re.match(re.escape(block.name) + r"(?![^\s=]).*", line) is not None and not re.match(MODIFIERS + re.escape(block.name) + " : ", line)


def is_root(path, folder):
    """Whether all that stands in a file is wanted for itself."""
    parts = path.relative_to(folder).parts
    return path.name in GOALS or (parts[0] == "specs" and "private" not in parts)


def read(root):
    """The blocks of all crates, and the words of their sources."""
    blocks, wanted = [], set()
    for folder in sorted((root / "crates").iterdir()):
        for path in sorted((folder / "src").rglob("*.rt")) if (folder / "src").is_dir() else []:
            wanted |= set(re.findall(r"[^\s(){}\[\],;.:\"`]+", path.read_text(encoding="utf-8")))
        for part in ("specs", "proofs"):
            for path in sorted((folder / part).rglob("*.antt")) if (folder / part).is_dir() else []:
                text = path.read_text(encoding="utf-8")
                if "module _" in text:
                    wanted |= set(WORD.findall(text))
                    continue
                for block in blocks_of(folder.name, path):
                    if is_root(path, folder) or block.is_example():
                        wanted |= block.words()
                    else:
                        blocks.append(block)
    return blocks, wanted


def unused(blocks, wanted):
    """The blocks that the words which are wanted don't reach."""
    by_name = collections.defaultdict(list)
    for block in blocks:
        by_name[block.name].append(block)
    ahead, reached = list(wanted), set(wanted)
    while ahead:
        for block in by_name.get(ahead.pop(), []):
            new = block.words() - reached
            reached |= new
            ahead += new
    return [block for block in blocks if block.name not in reached]


def twice(blocks):
    """The signatures of several crates, each with its blocks."""
    found = collections.defaultdict(list)
    for block in blocks:
        signature = re.sub(r"\s+", " ", block.signature.removeprefix(" :")).strip()
        if len(signature) > SHORT and "goal." not in signature:
            found[signature].append(block)
    return {signature: same for signature, same in found.items() if len({block.crate for block in same}) > 1}


def main():
    parser = CommandLine(__doc__)
    parser.add_argument("--unused", action="store_true")
    parser.add_argument("--twice", action="store_true")
    parser.add_argument("root", nargs="?", type=pathlib.Path, default=ROOT, metavar="ROOT")
    given = parser.parse_args()
    both = given.unused == given.twice
    blocks, wanted = read(given.root)
    left = unused(blocks, wanted) if both or given.unused else []
    if both or given.unused:
        for block in left:
            print(f"{block.path.relative_to(given.root)}: {block.name}")
        print(f"{len(left)} lemmas that nothing uses")
    if both or given.twice:
        same = twice(blocks)
        for signature, blocks_there in sorted(same.items()):
            places = ", ".join(sorted({f"{block.crate} {block.name}" for block in blocks_there}))
            print(f"{places}: {signature[:160]}")
        print(f"{len(same)} signatures in several crates")
    return int(bool(left))


if __name__ == "__main__":
    sys.exit(main())
