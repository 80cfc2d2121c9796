"""What all commands of tools and bench share: the repository, the built program, the reading of their words, and how a
comparison ends.
"""
import argparse
import pathlib
import sys

ROOT = pathlib.Path(__file__).resolve().parents[1]
BUILT = ROOT / "crates/xray/out/xray"


class CommandLine(argparse.ArgumentParser):
    """Reads the words of a command. `--help` prints the text at the head of its file, which has a paragraph `usage:`."""

    def __init__(self, text):
        super().__init__()
        self.text = text.strip() + "\n"
        self.must_exist = True
        self.needless = ""

    def format_help(self):
        return self.text

    def format_usage(self):
        _, _, usage = self.text.partition("usage: ")
        return f"usage: {usage.partition(chr(10) * 2)[0]}\n"

    def add_program(self, default=BUILT, must_exist=True, unless=""):
        """Adds the word PROGRAM. None as the default says that it may be left out.

        The program must exist, unless `must_exist` says otherwise, or the option is given that `unless` names.
        """
        self.add_argument("program", nargs="?", type=pathlib.Path, default=default, metavar="PROGRAM")
        self.must_exist = must_exist
        self.needless = unless

    def parse_args(self, *given, **named):
        words = super().parse_args(*given, **named)
        program = getattr(words, "program", None)
        if program is not None:
            if self.must_exist and not getattr(words, self.needless, False) and not program.is_file():
                self.error(f"there is no program {program}")
            words.program = program.resolve()
        return words


def only_program(text):
    """The program of a command that takes no other word. `text` is the text at the head of its file."""
    words = CommandLine(text)
    words.add_program()
    return words.parse_args().program


def finish(differ, compared):
    """Prints the differences, and how many there are among what was compared. The status is 1 if there are any."""
    for text in differ:
        print(text)
    print(f"{compared}, {len(differ)} differences")
    sys.exit(1 if differ else 0)
