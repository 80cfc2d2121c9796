#!/usr/bin/env python3
"""Shows what `xray` does on faults of the operating system, and compares it with the sentences of the manual.

usage: tools/compare/real_faults.py [PROGRAM] [--list]
    PROGRAM: the built program, crates/xray/out/xray if left out
    --list: prints each sentence with its commands, and runs nothing

Each row below has a sentence, the shell commands that show it, and what they print. They run in a folder of their own
with the files of all examples and some longer ones. As root, commands after `$OTHER` run as a user without rights, and
`$SMALL` is a file system of 16 KiB; rows that need one are skipped if it can't be mounted. What differs is printed, and
then the status is 1.
"""
import dataclasses
import os
import pathlib
import shutil
import signal
import subprocess
import sys
import tempfile

sys.dont_write_bytecode = True  # the modules are in the repository, and their compiled forms aren't
sys.path.insert(0, str(pathlib.Path(__file__).resolve().parents[1]))
from command_line import ROOT, CommandLine  # noqa: E402

EXAMPLES = ["first-run", "asm", "live-patching", "reports"]
NOBODY = 65534
# Seconds after which the commands of a row count as endless.
LONGEST_ROW = 120

# What each row begins with. The image `long.xrim` and the trace `whole.trace` are longer than a pipe holds.
BEFORE = r"""
sim() { xray sim main.xrim traced.script order.schedule "$@" --wall 0; }
long_sim() { xray sim fibonacci.xrim traced.script /dev/null "$@" --wall 0 --passings 10000 --buffer-max 1024; }
same() { cmp "$1" "$2" && echo "$1 is whole"; }
prefix() { local n; n=$(wc -c < "$1"); cmp -n "$n" "$1" "$2" && [ "$n" -lt "$(wc -c < "$2")" ] && echo "$1 is a prefix"; }
absent() { [ -e "$1" ] || echo "no $1"; }
"""
# Makes the files that rows compare with.
PREPARE = (
    BEFORE
    + r"""
{ echo 'fn main'; yes '    mov eax, 7' | head -n 20000; echo '    ret'; } > long.asm
printf 'fn main\nagain:\n    add rax, rcx\n    jmp again\n' > loop.asm
for name in long loop fibonacci call; do xray asm $name.asm $name.xrim; done
sim whole.small.trace whole.small.audit > whole.small.out
long_sim whole.trace whole.audit > whole.out
for number in $(seq 1000); do printf 'fn f%d always\n    ret\n' $number; done > map.asm
xray asm map.asm map.xrim
"""
)


@dataclasses.dataclass(frozen=True)
class Row:
    """A sentence, the commands that show it, and what they print. Some rows need a small file system."""

    sentence: str
    commands: str
    prints: str
    is_on_small: bool = False


FULL_DISK = [
    Row(
        "If the disk is full and the image could be created, the status is 4 and the image holds a prefix of its bytes.",
        "echo old > $SMALL/made; xray asm long.asm $SMALL/made; echo $?; prefix $SMALL/made long.xrim",
        "xray: SMALL/made: write fault\n4\nSMALL/made is a prefix\n",
        is_on_small=True,
    ),
    Row(
        "If TRACE failed, it holds a prefix of its bytes, AUDIT isn't touched, and nothing is written to standard output.",
        "echo old > audit; long_sim $SMALL/trace audit; echo $?; prefix $SMALL/trace whole.trace; cat audit",
        "xray: SMALL/trace: write fault\n4\nSMALL/trace is a prefix\nold\n",
        is_on_small=True,
    ),
    Row(
        "If AUDIT failed, TRACE is whole, and nothing is written to standard output.",
        "head -c 100000 /dev/zero > $SMALL/fill 2> /dev/null\n"
        "long_sim trace $SMALL/audit; echo $?; same trace whole.trace; prefix $SMALL/audit whole.audit",
        "xray: SMALL/audit: write fault\n4\ntrace is whole\nSMALL/audit is a prefix\n",
        is_on_small=True,
    ),
    Row(
        "If standard output couldn't be written, the outputs are whole, and it holds a prefix of the text.",
        "head -c 100000 /dev/zero > $SMALL/fill 2> /dev/null\n"
        "sim trace audit > $SMALL/out; echo $?; same trace whole.small.trace; same audit whole.small.audit\n"
        "prefix $SMALL/out whole.small.out",
        "xray: output: write fault\n4\ntrace is whole\naudit is whole\nSMALL/out is a prefix\n",
        is_on_small=True,
    ),
    Row(
        "The same under a limit of the length of files, if SIGXFSZ is ignored.",
        "(trap '' XFSZ; ulimit -f 1; xray asm long.asm made; echo $?; long_sim trace audit > out; echo $?)\n"
        "prefix made long.xrim; prefix trace whole.trace; absent audit; wc -c < out",
        "xray: made: write fault\n4\nxray: trace: write fault\n4\nmade is a prefix\ntrace is a prefix\nno audit\n0\n",
    ),
    Row(
        "A device that is full: the line names the file that failed, or `output`.",
        "xray asm call.asm /dev/full; echo $?; sim /dev/full audit; echo $?; absent audit\n"
        "sim trace /dev/full; echo $?; same trace whole.small.trace\n"
        "sim trace audit > /dev/full; echo $?; same audit whole.small.audit\n"
        "xray plain main.xrim > /dev/full; echo $?; xray soak 1 > /dev/full; echo $?",
        "xray: /dev/full: write fault\n4\nxray: /dev/full: write fault\n4\nno audit\nxray: /dev/full: write fault\n4\n"
        "trace is whole\nxray: output: write fault\n4\naudit is whole\nxray: output: write fault\n4\nxray: output: write fault\n4\n",
    ),
    Row(
        "What `run` leaves is the same.",
        "run() { xray run main.xrim traced.script \"$@\" --wall 0; }; run trace audit > out; cp trace whole; cp audit all\n"
        "echo old > audit; run /dev/full audit; echo $?; cat audit; run trace /dev/full; echo $?; same trace whole\n"
        "run trace audit > /dev/full; echo $?; same trace whole; same audit all",
        "xray: /dev/full: write fault\n4\nold\nxray: /dev/full: write fault\n4\ntrace is whole\n"
        "xray: output: write fault\n4\ntrace is whole\naudit is whole\n",
    ),
    Row(
        "Each command that prints reports that standard output can't be written.",
        "for words in 'plain call.xrim' 'extract call.xrim' 'account TRACE' 'account TRACE call.xrim --format csv' \\\n"
        "'stack TRACE' 'stack TRACE --format flame' 'stack TRACE --format svg' 'convert TRACE' 'soak 7'\n"
        "do xray ${words/TRACE/whole.small.trace} > /dev/full; echo $?; done",
        "xray: output: write fault\n4\n" * 9,
    ),
]

PIPES = [
    Row(
        "If the reader of a pipe ends early, the status is 4, and `xray: output: write fault` is printed.",
        "xray extract map.xrim | head -n 1; echo ${PIPESTATUS[0]}",
        "---\nxray: output: write fault\n4\n",
    ),
    Row(
        "The same if the reader has ended before the program starts.",
        "{ sleep 0.2; sim trace audit; echo $? > status; } | true; cat status; same trace whole.small.trace\n"
        "same audit whole.small.audit",
        "xray: output: write fault\n4\ntrace is whole\naudit is whole\n",
    ),
    Row(
        "If standard error can't be written, its line is lost, and everything else is the same.",
        "{ sleep 0.2; xray nothing; echo $? > status; } 2>&1 > /dev/null | true; cat status\n"
        "xray plain gone 2> /dev/full; echo $?; xray plain long.asm 2>&-; echo $?",
        "1\n3\n2\n",
    ),
    Row(
        "If only a part of the line on standard error can be written, the line is cut, and everything else is the same.",
        "head -c 1014 /dev/zero > err; (trap '' XFSZ; ulimit -f 1; xray plain gone 2>> err); echo $?\n"
        "wc -c < err; tail -c 10 err",
        "3\n1024\nxray: gone",
    ),
    Row(
        "If the reader of an output's pipe ends early, that output failed.",
        "mkfifo pipe; head -c 10 < pipe > first & long_sim pipe audit; echo $?; wait; prefix first whole.trace; absent audit",
        "xray: pipe: write fault\n4\nfirst is a prefix\nno audit\n",
    ),
    Row(
        "Names can be pipes, both for inputs and for outputs, and each input is read once.",
        "(head -c 100 main.xrim; sleep 0.2; tail -c +101 main.xrim) | xray plain /dev/stdin | head -n 1\n"
        "mkfifo pipe; cat pipe > got & sim pipe audit > out; echo $?; wait; same got whole.small.trace\n"
        "xray asm call.asm /dev/stdout | cat > made; same made call.xrim",
        "thread 1 returned instructions 3 passings 2\n0\ngot is whole\nmade is whole\n",
    ),
    Row(
        "If standard output is closed, it can't be written.",
        "xray plain main.xrim >&-; echo $?; sim trace audit >&-; echo $?; same audit whole.small.audit",
        "xray: output: write fault\n4\nxray: output: write fault\n4\naudit is whole\n",
    ),
    Row(
        "If standard input is closed too, no output takes the place of standard output.",
        "sim trace audit <&- >&-; echo $?; wc -c < trace; absent audit",
        "xray: trace: write fault\n4\n0\nno audit\n",
    ),
]

NAMES = [
    Row(
        "A folder can't be read or written.",
        "mkdir folder; xray plain folder; echo $?; xray asm call.asm folder; echo $?; sim trace folder; echo $?\n"
        "same trace whole.small.trace; xray plain main.xrim/; echo $?; xray asm call.asm folder/no/made; echo $?",
        "xray: folder: read fault\n3\nxray: folder: write fault\n4\nxray: folder: write fault\n4\ntrace is whole\n"
        "xray: main.xrim/: read fault\n3\nxray: folder/no/made: write fault\n4\n",
    ),
    Row(
        "No input can be a folder.",
        "mkdir folder; for words in 'asm folder made' 'plain folder' 'extract folder' 'account folder' 'stack folder' \\\n"
        "'convert folder' 'account whole.small.trace folder' 'sim folder traced.script order.schedule t a' \\\n"
        "'sim main.xrim folder order.schedule t a' 'sim main.xrim traced.script folder t a' \\\n"
        "'run folder traced.script t a' 'run main.xrim folder t a'; do xray $words; echo $?; done\n"
        "absent made; absent t; absent a",
        "xray: folder: read fault\n3\n" * 12 + "no made\nno t\nno a\n",
    ),
    Row(
        "A file without permission can't be read, and an output without permission stays as it was.",
        "chmod 000 main.xrim; $OTHER xray plain main.xrim; echo $?; echo old > made; chmod 444 made; chmod 555 .\n"
        "$OTHER xray asm call.asm made; echo $?; cat made; $OTHER xray asm call.asm new; echo $?; absent new; chmod 755 .",
        "xray: main.xrim: read fault\n3\nxray: made: write fault\n4\nold\nxray: new: write fault\n4\nno new\n",
    ),
    Row(
        "If a name isn't UTF-8, the command line is bad. Such a file can be read as /dev/stdin.",
        "cp main.xrim $'\\xff'; xray plain $'\\xff'; echo $?; xray plain /dev/stdin < $'\\xff' | head -n 1",
        "xray: bad command line\n1\nthread 1 returned instructions 3 passings 2\n",
    ),
    Row(
        "A line on standard error contains the name as it was given, also with a line feed in it.",
        "xray plain $'a\\nb'; echo $?; xray plain -; echo $?; xray plain ''; echo $?",
        "xray: a\nb: read fault\n3\nxray: -: read fault\n3\nxray: : read fault\n3\n",
    ),
]

SIGNALS = [
    Row(
        "A signal can end the program, without a line. Nothing is written while threads run.",
        "for signal in TERM INT KILL; do\n"
        "timeout --foreground --preserve-status -s $signal 0.3 xray plain loop.xrim --fuel 1000000000 --threads 16 > out 2> err\n"
        "echo $?; wc -c < out; wc -c < err; done\n"
        "timeout --preserve-status 0.3 xray run loop.xrim patch.script trace audit --fuel 1000000000 --threads 16 > out 2> err\n"
        "echo $?; wc -c < out; wc -c < err; absent trace; absent audit",
        "143\n0\n0\n130\n0\n0\n137\n0\n0\n143\n0\n0\nno trace\nno audit\n",
    ),
    Row(
        "A signal while an output is written: this output holds a prefix, and later ones are as they were.",
        "mkfifo pipe; (xray sim fibonacci.xrim traced.script /dev/null pipe audit > out 2> err & echo $! > id\n"
        "(head -c 10 > first; kill $(cat id); sleep 0.2) < pipe; wait $(cat id); echo $?) 2> /dev/null\n"
        "prefix first whole.trace; absent audit; wc -c < out; wc -c < err",
        "143\nfirst is a prefix\nno audit\n0\n0\n",
    ),
    Row(
        "A signal while an input is read: nothing is written, and outputs are as they were.",
        "mkfifo pipe; echo old > audit; (xray sim main.xrim traced.script pipe trace audit > out 2> err & echo $! > id\n"
        "(sleep 0.2; kill $(cat id); sleep 0.1) > pipe; wait $(cat id); echo $?) 2> /dev/null\n"
        "absent trace; cat audit; wc -c < out; wc -c < err",
        "143\nno trace\nold\n0\n0\n",
    ),
    Row(
        "A program that is stopped and continued does the same as without.",
        "mkfifo pipe\n"
        "xray sim main.xrim traced.script pipe trace audit --wall 0 > out & exec 3> pipe\n"
        "head -c 5 order.schedule >&3; kill -STOP $!; sleep 0.1; kill -CONT $!; tail -c +6 order.schedule >&3; exec 3>&-\n"
        "wait $!; echo $?; same trace whole.small.trace; same audit whole.small.audit; same out whole.small.out",
        "0\ntrace is whole\naudit is whole\nout is whole\n",
    ),
    Row(
        "SIGXFSZ ends the program. The shell then reports status 153, and the file holds a prefix of the image.",
        "{ (ulimit -c 0; ulimit -f 1; xray asm long.asm made); echo $?; } 2> /dev/null; prefix made long.xrim; wc -c < made",
        "153\nmade is a prefix\n1024\n",
    ),
]

SAME_FILES = [
    Row(
        "An output isn't compared with the file of standard error, so the line there may overwrite its start.",
        "sim f /dev/full 2> f; echo $?; head -c 29 f; cmp -i 29 f whole.small.trace; wc -c < f",
        "4\nxray: /dev/full: write fault\n128\n",
    ),
    Row(
        "Names are compared as they are written: an output with the name of another file is a bad command line.",
        "sim trace trace; echo $?; sim main.xrim audit; echo $?; absent trace; absent audit",
        "xray: bad command line\n1\nxray: bad command line\n1\nno trace\nno audit\n",
    ),
    Row(
        "An output that is an input by another path can't be created, and the file stays as it was.",
        "cp main.xrim old; sim ./main.xrim audit; echo $?; same main.xrim old; absent audit; sim trace $PWD/main.xrim; echo $?\n"
        "same main.xrim old; same trace whole.small.trace; xray asm call.asm ./call.asm; echo $?; head -c 2 call.asm",
        "xray: ./main.xrim: write fault\n4\nmain.xrim is whole\nno audit\nxray: PWD/main.xrim: write fault\n4\n"
        "main.xrim is whole\ntrace is whole\nxray: ./call.asm: write fault\n4\n# ",
    ),
    Row(
        "The same for a symbolic link and for a hard link.",
        "cp main.xrim old; ln -s main.xrim soft; ln main.xrim hard; sim soft audit; echo $?; sim hard audit; echo $?\n"
        "same main.xrim old; absent audit; cp main.xrim copy; sim copy audit > out; echo $?; same copy whole.small.trace",
        "xray: soft: write fault\n4\nxray: hard: write fault\n4\nmain.xrim is whole\nno audit\n0\ncopy is whole\n",
    ),
    Row(
        "Two outputs that are one file: the first one is whole, and the second one can't be created.",
        "sim trace ./trace; echo $?; same trace whole.small.trace; xray run main.xrim traced.script t ./t; echo $?; wc -c < t",
        "xray: ./trace: write fault\n4\ntrace is whole\nxray: ./t: write fault\n4\n128\n",
    ),
    Row(
        "An output that is the file of standard output can't be created, by whatever name.",
        "sim /dev/stdout audit > f; echo $?; sim f audit > f; echo $?; sim trace ./f > f; echo $?; wc -c < f\n"
        "same trace whole.small.trace; echo old > f; xray asm call.asm /dev/stdout >> f; echo $?; cat f\n"
        "xray asm call.asm /dev/stdout | cat >> f; wc -c < f",
        "xray: /dev/stdout: write fault\n4\nxray: f: write fault\n4\nxray: ./f: write fault\n4\n0\ntrace is whole\n"
        "xray: /dev/stdout: write fault\n4\nold\n" + "CALL\n",
    ),
    Row(
        "A file that is read as /dev/stdin is an input too.",
        "cp call.asm old; xray asm /dev/stdin call.asm < call.asm; echo $?; same call.asm old",
        "xray: call.asm: write fault\n4\ncall.asm is whole\n",
    ),
    Row(
        "Devices and pipes aren't compared.",
        "sim /dev/null /dev/../dev/null > /dev/null; echo $?; xray plain main.xrim > /dev/null; echo $?\n"
        "xray asm /dev/stdin /dev/stdout < call.asm | cat > made; same made call.xrim",
        "0\n0\nmade is whole\n",
    ),
    Row(
        "An output that exists and is no other file of the command is created anew.",
        "head -c 100000 /dev/zero > trace; cp main.xrim audit; sim trace audit > out; echo $?\n"
        "same trace whole.small.trace; same audit whole.small.audit; same out whole.small.out",
        "0\ntrace is whole\naudit is whole\nout is whole\n",
    ),
]

TABLES = {"full disks": FULL_DISK, "pipes": PIPES, "names": NAMES, "signals": SIGNALS, "same files": SAME_FILES}


class Place:
    """A folder with the program and the files, a small file system if it can be mounted, and a user without rights."""

    def __init__(self, program, folder):
        self.folder = folder
        folder.chmod(0o755)
        self.files, self.small, programs = folder / "files", folder / "small", folder / "bin"
        for made in (self.files, self.small, programs):
            made.mkdir()
        shutil.copyfile(program, programs / "xray")
        (programs / "xray").chmod(0o755)
        self.environment = {"PATH": f"{programs}:/usr/bin:/bin", "LC_ALL": "C", "SMALL": str(self.small), "OTHER": ""}
        if os.geteuid() == 0:
            self.environment["OTHER"] = f"setpriv --reuid={NOBODY} --regid={NOBODY} --clear-groups"
        for name in EXAMPLES:
            shutil.copytree(ROOT / "examples" / name, self.files, dirs_exist_ok=True)
        made = self.shell(PREPARE, self.files)
        if made:
            sys.exit(f"the files can't be made: {made}")

    def shell(self, commands, folder):
        """What commands print in a folder, on both streams, with the places of this run under their own names."""
        shell = subprocess.Popen(
            ["bash", "-c", commands], cwd=folder, env=self.environment, stdin=subprocess.DEVNULL, stdout=subprocess.PIPE,
            stderr=subprocess.STDOUT, start_new_session=True,
        )  # fmt: skip
        try:
            printed, _ = shell.communicate(timeout=LONGEST_ROW)
        except subprocess.TimeoutExpired:
            os.killpg(shell.pid, signal.SIGKILL)
            printed = shell.communicate()[0] + b"(endless)"
        printed = printed.decode("utf-8", errors="replace")
        return printed.replace(str(folder), "PWD").replace(str(self.small), "SMALL")

    def mounts(self):
        mount = ["mount", "-t", "tmpfs", "-o", "size=16k,mode=777", "tmpfs", str(self.small)]
        return subprocess.run(mount, capture_output=True).returncode == 0

    def comes(self, row):
        """What a row prints, or None if it needs a file system that can't be mounted."""
        if row.is_on_small and not self.mounts():
            return None
        here = self.folder / "here"
        shutil.copytree(self.files, here)
        here.chmod(0o777)
        try:
            return self.shell(BEFORE + row.commands, here)
        finally:
            shutil.rmtree(here)
            if row.is_on_small:
                subprocess.run(["umount", str(self.small)], check=True)

    def expected(self, row):
        """What a row has to print. In the row on appending, the file has its old line and then the image."""
        return row.prints.replace("CALL", str(len("old\n") + (self.files / "call.xrim").stat().st_size))


def main():
    parser = CommandLine(__doc__)
    parser.add_program(unless="list")
    parser.add_argument("--list", action="store_true")
    given = parser.parse_args()
    if given.list:
        for row in (row for rows in TABLES.values() for row in rows):
            print(f"{row.sentence}\n" + "".join(f"    {line}\n" for line in row.commands.splitlines()))
        return
    differ = 0
    with tempfile.TemporaryDirectory(prefix="real_faults.") as folder:
        place = Place(given.program, pathlib.Path(folder))
        for name, rows in TABLES.items():
            found = [(row, place.comes(row), place.expected(row)) for row in rows]
            differs = [(row, comes, expected) for row, comes, expected in found if comes not in (None, expected)]
            for row, comes, expected in differs:
                print(f"differs: {row.sentence}\n{row.commands}\n    expected {expected!r}\n    came     {comes!r}")
            skipped = sum(comes is None for _, comes, _ in found)
            print(f"{name}: {len(rows)} sentences, {skipped} skipped, {len(differs)} differ")
            differ += len(differs)
    sys.exit(1 if differ else 0)


if __name__ == "__main__":
    main()
