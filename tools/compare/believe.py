#!/usr/bin/env python3
"""Lists the definitions that the contract of the top call reaches, and compares the list with docs/BELIEVE.md.

usage: tools/compare/believe.py [--write | --names] [ROOT]
    --write: writes docs/BELIEVE.md
    --names: lists the names that more than one of these definitions and types have
    ROOT: the folder of the repository, that of this file if left out

A contract is worth no more than its definitions. They are in crates/*/specs. From those that the contract names
(CONTRACT) this goes on to each definition that one of them names, through the `use` lines of its file. Types of the
code, which the logic sees as they are declared in src, are listed apart. The definitions of the standard library aren't
listed.

If the page differs from the sources, the first lines that differ are reported, and the status is 1. A line of specs/ that
can't be read as part of a definition is reported too, and each public name that was not read as a definition. The status
is then 2, since the page might leave something out.
"""
import difflib
import pathlib
import re
import sys

sys.dont_write_bytecode = True  # the modules are in the repository, and their compiled forms aren't
sys.path.insert(0, str(pathlib.Path(__file__).resolve().parents[1]))
from command_line import ROOT, CommandLine  # noqa: E402

PAGE = "docs/BELIEVE.md"
CONTRACT = [
    ("xray_program", "Answers", "Answered"),
    ("command_words", "Words", "reading"),
    ("command_words", "Items", "texts"),
    ("xray_io", "World", "desk_view"),
    ("xray_io", "World", "sink_view"),
    ("xray_program", "Commands", "IsStill"),
    ("fdr_buffer", "Times", "IsTime"),
]
# what is promised of an image, a script and a schedule that were read, and what says it of the bytes of the inputs
HEADLINE = [
    ("xray_program", "Headline", "RanBySchedule"),
    ("xray_program", "Run", "RanBeside"),
    ("xray_program", "Traced", "IsTraced"),
]
HEADLINE_OF_BYTES = [("xray_program", "Headline", name) for name in ("SimIsTraced", "RunIsTraced")]
MODIFIERS = r"(?:(?:abbrev|unfoldable|opaque|pub) )*"
OPENS = re.compile(MODIFIERS + r"(?:(?:record|data) ([^\s:(]+)|([^\s:(]+)(?: \{[^}]*\})* :(?= |$))")
PUBLIC = re.compile(r"\s*(?:(?:abbrev|unfoldable|opaque) )+pub (?:(?:record|data) )?([^\s:(]+)|\s*pub (?:record|data) ([^\s:(]+)|pub (?!use |mod )([^\s:(]+)")
MODULE = re.compile(r"module _ .* where$")
WORD = re.compile(r"[^\s(){}\[\],;\"λ]+")
USE = re.compile(r"^use (Rattle\.[^\s]+?)(?:\.\{(.*)\})?(?: as (\S+))?$")
INTRO = """# What has to be believed

The prover checks that the program meets its contract. Only a reader can say whether the contract is what a user wants.
Both top calls promise it ([call.rt](../crates/xray_program/src/call.rt)): the record `Answered`, over what the words
say (`reading` of their `texts`) and over what the desk and the sinks hold (`desk_view`, `sink_view`). The microseconds
of the wall time have to be below 1,000,000 (`IsTime`). One of the calls takes only words of commands that never wait
(`IsStill`). Below are all definitions of this repository that this contract reaches. Whoever has read them has read all
that is promised. In each list a file comes before the files whose definitions it uses. So you can read from the top,
and stop where a name says enough. [MODEL.md](MODEL.md) says the same in words.

`tools/compare/believe.py` makes this page from the sources, and the gate compares them. Lines are those of the
definitions. Comments aren't counted.
"""
HEADLINE_INTRO = """What `sim` and `run` promise about threads, marks and traces stands on these definitions alone, once the image, the
script and the schedule are read: the threads have run by the schedule (`RanBySchedule`) or beside the script
(`RanBeside`), and what is written is left of such runs (`IsTraced`)."""
BYTES_INTRO = """`SimIsTraced` and `RunIsTraced` say the same of the bytes that the desk held. These definitions say what the bytes of an
image, of a script and of a schedule mean, and what the options of a command set."""


def split_uses(text):
    """The names in the braces of a `use` line, with the parts of the module before each."""
    parts, depth, start = [], 0, 0
    for at, char in enumerate(text):
        if char == "{":
            depth += 1
        elif char == "}":
            depth -= 1
        elif char == "," and depth == 0:
            parts.append(text[start:at].strip())
            start = at + 1
    parts.append(text[start:].strip())
    for part in parts:
        nested = re.match(r"(\S+?)\.\{(.*)\}$", part)
        if nested:
            for before, name in split_uses(nested[2]):
                yield f"{nested[1]}.{before}".rstrip("."), name
        elif part:
            yield "", part


class Unread(Exception):
    """A line of specs/ that can't be read as part of a definition."""


class File:
    """A file of definitions: what it uses, and its definitions with their lines."""

    def __init__(self, crate, path, root):
        self.crate = crate
        self.module = ".".join(path.relative_to(root / "crates" / crate / "specs").with_suffix("").parts)
        self.place = path.relative_to(root)
        # `shared` has the line of the module with parameters that a definition stands in.
        self.uses, self.others, self.items, self.shared = {}, {}, {}, {}
        lines = path.read_text(encoding="utf-8").split("\n")
        self.read(lines)
        self.check(lines)

    def read(self, lines):
        above, current, module = [], None, None
        for at, line in enumerate(lines, 1):
            indented = line.startswith((" ", "\t"))
            if module and line.strip() and not indented:
                module = None
            inner = line[2:] if module else line
            if not line.strip():
                above = []
            elif inner.startswith("--"):
                above, current = above + [inner], None
            elif inner.startswith(("use ", "pub use ")):
                self.read_use(inner.removeprefix("pub "))
                above, current = [], None
            elif inner.startswith(("pub mod ", "mod ", "infix")):
                above, current = [], None
            elif MODULE.match(inner):
                above, current, module = [], None, line
            elif inner.startswith((" ", "\t")):
                if current is None:
                    raise Unread(f"{self.place}:{at}: this line belongs to no definition: {line.strip()}")
                self.items[current].append(inner)
            else:
                above, current = [], self.read_opening(inner, above, current, module, at)

    def read_opening(self, line, above, current, module, at):
        """The definition that a line opens, or whose clause it is."""
        opened = OPENS.match(line)
        if opened:
            name = opened[1] or opened[2]
            self.items.setdefault(name, []).extend(above + [line])
            if module:
                self.shared[name] = module
            return name
        first = line.split()[0]
        name = first if first in self.items else current
        if name is None or above:
            raise Unread(f"{self.place}:{at}: this line opens no definition: {line}")
        self.items[name].append(line)
        return name

    def check(self, lines):
        """Each public name was read as a definition."""
        for at, line in enumerate(lines, 1):
            found = PUBLIC.match(line)
            name = found and (found[1] or found[2] or found[3])
            if name and name not in self.items:
                raise Unread(f"{self.place}:{at}: the public name {name} was not read as a definition")

    def read_use(self, line):
        found = USE.match(line.strip())
        if not found:
            return
        module, names, alias = found.groups()
        if names is None:
            self.others[alias or module.rsplit(".", 1)[1]] = module
            return
        for before, name in split_uses(names):
            real, _, new = name.partition(" as ")
            self.uses[(new or real).strip()] = (f"{module}.{before}".rstrip("."), real.strip())

    def constructors(self):
        """The name of each constructor of a `data`, and the type that it makes."""
        made = {}
        for name, lines in self.items.items():
            if any(re.match(r"pub data ", line) for line in lines):
                for line in lines:
                    found = re.match(r"  (\S+) : ", line)
                    if found:
                        made[found[1]] = name
        return made


class Book:
    """All files of definitions."""

    def __init__(self, root):
        self.root = root
        self.crates = sorted(path.name for path in (root / "crates").iterdir() if (path / "specs").is_dir())
        self.files = {}
        for crate in self.crates:
            for path in sorted((root / "crates" / crate / "specs").rglob("*.antt")):
                file = File(crate, path, root)
                self.files[crate, file.module] = file
        self.made = {key: file.constructors() for key, file in self.files.items()}

    def home(self, module, name):
        """Where a name of a module is defined: a definition, or a type that is declared in the code."""
        parts = module.split(".")
        if len(parts) < 3 or parts[0] != "Rattle" or parts[2] != "specs" or parts[1] not in self.crates:
            return None
        crate, rest = parts[1], parts[3:]
        if rest[:1] == ["declared"]:
            return ("declared", crate, tuple(part for part in rest[1:] if part not in ("TheVariants", "TheConstants")), name)
        file = self.files.get((crate, ".".join(rest)))
        if file is None:
            return None
        return self.within(file, name)

    def within(self, file, name):
        if name in file.items:
            return (file.crate, file.module, name)
        made = self.made[file.crate, file.module].get(name)
        if made:
            return (file.crate, file.module, made)
        if name in file.uses:
            return self.home(*file.uses[name])
        return None

    def cited(self, key):
        """The definitions that one names, in the order of the text."""
        crate, module, name = key
        file = self.files[crate, module]
        for line in [file.shared.get(name, ""), *file.items[name]]:
            if line.startswith("--"):
                continue
            code = re.sub(r'"(?:[^"\\]|\\.)*"', " ", line.split(" -- ")[0])
            for word in WORD.findall(code):
                for part in (word, word.split(".")[0], f"◌{word}◌"):
                    found = self.within(file, part)
                    if found is None and part in file.others and "." in word:
                        found = self.home(file.others[part], word.split(".")[1])
                    if found and found != key:
                        yield found

    def closure(self, roots):
        """All definitions that some reach, and types that are declared in the code, in the order in which they are reached."""
        seen, declared, ahead = {}, {}, list(roots)
        while ahead:
            key = ahead.pop(0)
            if key[0] == "declared":
                declared.setdefault(key)
            elif key not in seen:
                seen[key] = list(dict.fromkeys(self.cited(key)))
                ahead += seen[key]
        return seen, declared

    def lines(self, key):
        return sum(not line.lstrip().startswith("--") for line in self.files[key[:2]].items[key[2]])


def reading_order(seen):
    """The files of some definitions, each before the files whose definitions it uses."""
    uses = {}
    for key, cited in seen.items():
        at = uses.setdefault(key[:2], [])
        at += [other[:2] for other in cited if other[0] != "declared" and other[:2] != key[:2]]
    order, state = [], {}

    def visit(file):
        state[file] = True
        for other in reversed(list(dict.fromkeys(uses[file]))):
            if other not in state:
                visit(other)
        order.append(file)

    for file in list(uses):
        if file not in state:
            visit(file)
    return order[::-1]


def declared_rows(declared):
    """The types that are declared in the code, by crate and file."""
    rows = {}
    for _, crate, parts, name in declared:
        module, kind = ("/".join(parts[:-1]), parts[-1]) if parts and parts[-1][:1].isupper() else ("/".join(parts), name)
        rows.setdefault((crate, module), []).append(kind)
    return {key: list(dict.fromkeys(kinds)) for key, kinds in rows.items()}


def table(book, keys):
    """The rows of definitions, by files in reading order."""
    rows = ["| File | Lines | Definitions |", "|---|---|---|"]
    for file in reading_order({key: [other for other in book.cited(key) if other in keys] for key in keys}):
        own = sorted((key for key in keys if key[:2] == file), key=lambda key: list(book.files[file].items).index(key[2]))
        names = ", ".join(f"`{key[2]}`" for key in own)
        rows.append(f"| [{file[0]}: {file[1]}](../{book.files[file].place}) | {sum(map(book.lines, own))} | {names} |")
    return rows


def page(book):
    seen, declared = book.closure(CONTRACT)
    headline, _ = book.closure(HEADLINE)
    of_bytes, _ = book.closure(HEADLINE_OF_BYTES)
    inputs = {key: None for key in of_bytes if key not in headline}
    others = {key: None for key in seen if key not in of_bytes}
    counted = lambda keys: f"{len(keys)} definitions in {len({key[:2] for key in keys})} files, {sum(map(book.lines, keys)):,} lines"
    text = [INTRO, f"- the headline: {counted(headline)}", f"- its inputs: {counted(inputs)}", f"- all: {counted(seen)}", ""]
    text += ["## The headline", "", HEADLINE_INTRO, "", *table(book, headline), ""]
    text += ["## The inputs of the headline", "", BYTES_INTRO, "", *table(book, inputs), ""]
    text += ["## The rest of the contract", "", *table(book, others), ""]
    text += ["## Types of the code", "", "The logic sees them as they are declared.", "", "| File | Types and constants |", "|---|---|"]
    for (crate, module), kinds in sorted(declared_rows(declared).items()):
        source = f"crates/{crate}/src/{module}.rt" if module else f"crates/{crate}/src/lib.rt"
        text.append(f"| [{crate}: {module or 'lib'}](../{source}) | {', '.join(f'`{kind}`' for kind in kinds)} |")
    return "\n".join(text) + "\n"


def shared_names(book):
    """The names that several of the definitions and types have, each with the files where it has a meaning."""
    seen, declared = book.closure(CONTRACT)
    homes = {}
    for crate, module, name in seen:
        homes.setdefault(name, set()).add(f"{crate}: {module}")
    for (crate, module), kinds in declared_rows(declared).items():
        for kind in kinds:
            homes.setdefault(kind, set()).add(f"{crate}: {module or 'lib'}.rt")
    return {name: sorted(places) for name, places in sorted(homes.items()) if len(places) > 1}


def main():
    parser = CommandLine(__doc__)
    parser.add_argument("--write", action="store_true")
    parser.add_argument("--names", action="store_true")
    parser.add_argument("root", nargs="?", type=pathlib.Path, default=ROOT, metavar="ROOT")
    given = parser.parse_args()
    try:
        book = Book(given.root)
    except Unread as fault:
        print(fault)
        return 2
    if given.names:
        shared = shared_names(book)
        for name, places in shared.items():
            print(f"{name}: {', '.join(places)}")
        return int(bool(shared))
    made = page(book)
    place = given.root / PAGE
    if given.write:
        place.write_text(made, encoding="utf-8")
        return 0
    was = place.read_text(encoding="utf-8") if place.is_file() else ""
    changes = list(difflib.unified_diff(was.splitlines(), made.splitlines(), PAGE, "the sources", lineterm="", n=0))
    if changes:
        print(f"{PAGE} differs from the sources; tools/compare/believe.py --write makes it anew:")
        print("\n".join(line[:300] for line in changes[:20]))
        return 1
    return 0


if __name__ == "__main__":
    sys.exit(main())
