#!/usr/bin/env python3
"""Prints the three inputs that `soak` draws from a number, as the model has them.

usage: tools/values/inputs_of.py NUMBER [FOLDER]
    NUMBER: the number, from 0 to 18446744073709551615
    FOLDER: where the inputs are written, as the files text, script and schedule; if left out, their lengths in bytes and the
        first lines of each are printed

The tests of crates/layer_tests and crates/whole_runs have these values.
"""
import pathlib
import sys

sys.dont_write_bytecode = True  # the modules are in the repository, and their compiled forms aren't
sys.path.insert(0, str(pathlib.Path(__file__).resolve().parents[1]))
from command_line import CommandLine  # noqa: E402
from model.soak_inputs import inputs_of  # noqa: E402


def main():
    words = CommandLine(__doc__)
    words.add_argument("number", type=int, metavar="NUMBER")
    words.add_argument("folder", nargs="?", type=pathlib.Path, metavar="FOLDER")
    given = words.parse_args()
    for name, lines in inputs_of(given.number):
        written = "".join(line + "\n" for line in lines)
        if given.folder is None:
            print(name, len(written), lines[:8])
        else:
            (given.folder / name).write_text(written)


if __name__ == "__main__":
    main()
