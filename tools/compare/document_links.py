#!/usr/bin/env python3
"""Compares the links of the documents with what they lead to, and reports those that lead nowhere.

usage: tools/compare/document_links.py [ROOT]
    ROOT: the folder of the repository, that of this file if left out

A link is relative to its document, and may name a heading after `#`. Links to other places aren't followed. It runs
nothing. If a link leads nowhere, it is reported with its document and line, and then the status is 1.
"""
import functools
import pathlib
import re
import sys

sys.dont_write_bytecode = True  # the modules are in the repository, and their compiled forms aren't
sys.path.insert(0, str(pathlib.Path(__file__).resolve().parents[1]))
from command_line import ROOT, CommandLine, finish  # noqa: E402

FOLDERS = ("docs", "crates", "tools", "bench", "examples")
LINK = re.compile(r"\]\(([^)\s]+)\)")


def documents(root):
    found = [*root.glob("*.md"), *(page for folder in FOLDERS for page in (root / folder).rglob("*.md"))]
    return sorted(page for page in found if "out" not in page.parts)


def text_of(page):
    """The lines of a page, without those in blocks of code."""
    lines, in_block = [], False
    for line in page.read_text(encoding="utf-8").splitlines():
        is_fence = line.lstrip().startswith("```")
        in_block = in_block != is_fence
        lines.append("" if in_block or is_fence else line)
    return lines


@functools.cache
def headings_of(page):
    """The names by which links lead to the headings of a page."""
    names = set()
    for line in text_of(page):
        if line.startswith("#"):
            heading = re.sub(r"\[([^]]*)\]\([^)]*\)", r"\1", line.lstrip("#").strip())
            names.add(re.sub(r"[^\w\- ]", "", heading.lower()).replace(" ", "-"))
    return names


def links_of(page):
    """The links of a page with their lines. A link may be broken over two lines."""
    for number, line in enumerate(text_of(page), start=1):
        for found in LINK.finditer(re.sub(r"`[^`]*`", "", line)):
            yield number, found[1]


def leads_nowhere(page, link):
    path, _, heading = link.partition("#")
    target = (page.parent / path).resolve() if path else page
    if not target.exists():
        return True
    return bool(heading) and heading not in headings_of(target)


def main():
    words = CommandLine(__doc__)
    words.add_argument("root", nargs="?", type=pathlib.Path, default=ROOT, metavar="ROOT")
    root = words.parse_args().root.resolve()
    pages, count, differ = documents(root), 0, []
    for page in pages:
        for number, link in links_of(page):
            if re.match(r"[a-z]+:", link):
                continue
            count += 1
            if leads_nowhere(page, link):
                differ.append(f"{page.relative_to(root)}:{number}: {link}")
    finish(differ, f"{count} links in {len(pages)} documents")


if __name__ == "__main__":
    main()
