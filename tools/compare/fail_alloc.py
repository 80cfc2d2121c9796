#!/usr/bin/env python3
"""Refuses each allocation of small runs in turn, and reports where a run then does what it may not do.

usage: tools/compare/fail_alloc.py [PROGRAM] [--with ROWS] [--most N]
    PROGRAM: the built program, crates/xray/out/xray if left out
    --with: which rows of the table of commands are run, with commas between them; all of them if left out
    --most: how many allocations of a run are tried, 5,000 if left out

The table below has the commands, most of them twice: with few files and options, and with all of them, over outputs that exist.
The Nth allocation of each run is refused, for N from 1 until a run makes fewer. In one run only this allocation is refused, and in
a second run all later ones too. A run may then
- end with status 5 and its line on standard error, with nothing on standard output, no file created and none changed;
- be the same as without a refusal, if the program can do without that memory;
- end with status 3 or 4 and report a fault of a file, if the memory was needed to open it: the program counts each error of
  the system as a fault. Then nothing is on standard output, outputs that were created before are whole, and no other file is
  changed.
Anything else is reported, and then the status is 1. A run in which nothing is refused has to be the same as one without the tool.

No run of `sim` or `run` may end with status 5 for an allocation that is made once its threads have begun. Which ones
these are shows a longer run of the same words: between two of its allocations lies most of its processor time, and the
threads run there. The longer run has to make as many allocations as the small one.

If the refused allocation was needed to start a thread, `run` does that thread's work on another one. A script that
waits may then never come to its end. Only for such a script a run may also use up its processor time, with nothing
written.

The allocations are those of the C library's functions, in all threads of the program. A preloaded library counts them,
so this needs a C compiler, `cc`.
"""
import dataclasses
import os
import pathlib
import re
import resource
import shutil
import signal
import subprocess
import sys
import tempfile

sys.dont_write_bytecode = True  # the modules are in the repository, and their compiled forms aren't
sys.path.insert(0, str(pathlib.Path(__file__).resolve().parents[1]))
from command_line import ROOT, CommandLine  # noqa: E402

EXAMPLES = ["first-run", "asm", "live-patching", "reports"]
TURNS = "turns.xrim traced.script"
# In a small run the events of a thread fit in its first buffer, so that no order of threads changes its files.
BUFFERS = "--wall 0 --threads 2 --buffer-size 1000 --buffer-max 5 --fuel 1000000000 --passings"
COMMANDS = {
    "asm": "asm call.asm made",
    "asm over an old image": "asm call.asm old.image --threshold 2",
    "extract": "extract main.xrim",
    "plain": "plain main.xrim",
    "plain with options": "plain call.xrim --threads 16 --fuel 2 --passings=3",
    "sim": "sim main.xrim traced.script order.schedule trace audit --wall 0",
    "sim over old outputs": "sim call.xrim live.script live.schedule old.trace old.audit --wall 0 --threads 2",
    "sim of long threads": f"sim {TURNS} order.schedule trace audit {BUFFERS} 10",
    "run": "run main.xrim traced.script trace audit --wall 0",
    "run over old outputs": "run call.xrim traced.script old.trace old.audit --wall 0",
    "run of a script that waits": "run main.xrim waiting.script trace audit --wall 0",
    "run of long threads": f"run {TURNS} trace audit {BUFFERS} 10",
    "account": "account calls.trace",
    "account with an image": "account calls.trace call.xrim --sort sum --sortorder desc --top 1 --format csv",
    "calls": "calls calls.trace",
    "calls with an image": "calls calls.trace call.xrim --sort duration --sortorder desc --top 1 --format csv",
    "stack": "stack calls.trace",
    "stack with an image": "stack calls.trace call.xrim --format flame",
    "stack as a picture": "stack calls.trace call.xrim --format svg",
    "convert": "convert calls.trace",
    "convert with an image": "convert calls.trace call.xrim --format yaml",
    "convert to trace events": "convert calls.trace call.xrim --format trace-event",
    "convert to a basic log": "convert calls.trace --format basic",
    "convert of a basic log": "convert calls.log call.xrim --input basic",
    "fdr-dump": "fdr-dump calls.trace",
    "check": "check main.xrim traced.script main.trace main.audit",
    "check of two threads": "check call.xrim live.script call.trace call.audit",
    "order": "order main.xrim traced.script main.audit free schedule",
    "order of two threads over old outputs": "order call.xrim live.script call.audit old.trace old.audit",
    "profile": "profile main.xrim traced.script",
    "profile of two threads": "profile call.xrim traced.script --threads 2 --format svg",
    "profile whose recorders stop": "profile call.xrim traced.script --nodes 1",
    "soak": "soak 7",
}
# Longer runs of the same words, whose threads take most of the time.
LONGER = {name: f"{COMMANDS[name]}0000" for name in ("sim of long threads", "run of long threads")}
# The statuses with enough memory that aren't 0.
STATUS = {"profile whose recorders stop": 7}
# The commands whose script waits for a thread.
WAITING = ["run of a script that waits"]
# Seconds of processor time after which a run counts as endless.
ENDLESS = 10
# What leaves the traces and the audits that are checked.
CHECKED = [
    "sim main.xrim traced.script order.schedule main.trace main.audit --wall 0",
    "sim call.xrim live.script live.schedule call.trace call.audit --wall 0 --threads 2",
]
TURNS_TEXT = "fn main always\nagain:\n    call f\n    jmp again\nfn f always\n    ret\n"
OLD = ["old.image", "old.trace", "old.audit"]
OUT_OF_MEMORY = (5, b"", b"xray: out of memory\n", {})
# What a run reports on standard error if it couldn't read or write a file, by its status.
FAULT = {3: re.compile(rb"xray: [^\n]*: read fault\n"), 4: re.compile(rb"xray: [^\n]*: write fault\n")}

# Refuses the allocation with the number REFUSE, and with AND_AFTER all later ones. Then it writes a byte to the descriptor TOLD.
# With TIMES it refuses nothing, and writes a line there for each allocation: the microseconds of processor time before it.
REFUSER = r"""
#define _GNU_SOURCE
#include <dlfcn.h>
#include <errno.h>
#include <stdatomic.h>
#include <stdio.h>
#include <stdlib.h>
#include <time.h>
#include <unistd.h>

static atomic_long made;
static long refused = -1;
static int after, told, tells_times;

__attribute__((constructor)) static void begin(void) {
    told = atoi(getenv("TOLD"));
    after = getenv("AND_AFTER") != NULL;
    tells_times = getenv("TIMES") != NULL;
    refused = atol(getenv("REFUSE"));
}

static void tell_time(void) {
    char line[32];
    struct timespec now;
    clock_gettime(CLOCK_PROCESS_CPUTIME_ID, &now);
    int length = snprintf(line, sizeof line, "%ld\n", now.tv_sec * 1000000L + now.tv_nsec / 1000);
    if (write(told, line, length) != length) abort();
}

static int refuses(void) {
    if (refused < 0) return 0;
    long number = atomic_fetch_add(&made, 1) + 1;
    if (tells_times) {
        tell_time();
        return 0;
    }
    if (number != refused && !(after && number > refused)) return 0;
    if (number == refused && write(told, "r", 1) != 1) abort();
    errno = ENOMEM;
    return 1;
}

extern void *__libc_malloc(size_t), *__libc_calloc(size_t, size_t), *__libc_realloc(void *, size_t);
extern void *__libc_memalign(size_t, size_t);

void *malloc(size_t size) { return refuses() ? NULL : __libc_malloc(size); }
void *calloc(size_t count, size_t size) { return refuses() ? NULL : __libc_calloc(count, size); }
void *realloc(void *old, size_t size) { return refuses() ? NULL : __libc_realloc(old, size); }
void *memalign(size_t align, size_t size) { return refuses() ? NULL : __libc_memalign(align, size); }
void *aligned_alloc(size_t align, size_t size) { return memalign(align, size); }
int posix_memalign(void **made_at, size_t align, size_t size) {
    void *block = memalign(align, size);
    if (block == NULL) return ENOMEM;
    *made_at = block;
    return 0;
}
"""


@dataclasses.dataclass(frozen=True)
class Refusal:
    """Which allocation is refused, and whether all later ones are refused too."""

    number: int
    and_after: bool


def built_refuser(folder):
    """The library that refuses allocations."""
    source, library = folder / "refuser.c", folder / "refuser.so"
    source.write_text(REFUSER, encoding="ascii")
    subprocess.run(["cc", "-O2", "-shared", "-fPIC", "-o", library, source], check=True)
    return library


def prepared(folder, program):
    """A folder with the files of all examples, two images, traces with their audits, and outputs of earlier runs."""
    for name in EXAMPLES:
        shutil.copytree(ROOT / "examples" / name, folder, dirs_exist_ok=True)
    (folder / "turns.asm").write_text(TURNS_TEXT, encoding="ascii")
    for name in ("call", "turns"):
        subprocess.run([program, "asm", f"{name}.asm", f"{name}.xrim"], cwd=folder, check=True)
    for words in CHECKED:
        subprocess.run([program, *words.split()], cwd=folder, stdout=subprocess.DEVNULL, check=True)
    with (folder / "calls.log").open("wb") as log:
        subprocess.run([program, "convert", "calls.trace", "--format", "basic"], cwd=folder, stdout=log, check=True)
    for name in OLD:
        (folder / name).write_bytes(b"old\n" * 1000)
    return folder


def changed(inputs, folder):
    """The files that a run created or changed, and those that it removed as None."""
    before = {file.name: file.read_bytes() for file in inputs.iterdir()}
    left = {file.name: file.read_bytes() for file in folder.iterdir()}
    return {name: left.get(name) for name in sorted({*before, *left}) if left.get(name) != before.get(name)}


class Runs:
    """Runs of the program, each in a fresh copy of the files."""

    def __init__(self, program, inputs, folder, library):
        self.program = program
        self.inputs = inputs
        self.folder = folder
        self.library = library

    def run(self, words, setting=None):
        """What a run writes to its descriptor, and its status, streams and changed files."""
        shutil.rmtree(self.folder, ignore_errors=True)
        shutil.copytree(self.inputs, self.folder)
        told, tell = os.pipe()
        environment = {"PATH": "/usr/bin:/bin"}
        if setting is not None:
            environment |= {"LD_PRELOAD": str(self.library), "TOLD": str(tell), **setting}
        done = subprocess.run(
            [self.program, *words.split()], cwd=self.folder, env=environment, pass_fds=[tell], capture_output=True,
            preexec_fn=lambda: resource.setrlimit(resource.RLIMIT_CPU, (ENDLESS, ENDLESS + 1)),
        )  # fmt: skip
        os.close(tell)
        with open(told, "rb") as pipe:
            tells = pipe.read()
        return tells, (done.returncode, done.stdout, done.stderr, changed(self.inputs, self.folder))

    def alone(self, words):
        return self.run(words)[1]

    def refused(self, words, refusal):
        """Whether an allocation was refused, and what the run does."""
        setting = {"REFUSE": str(refusal.number)} | ({"AND_AFTER": "1"} if refusal.and_after else {})
        tells, comes = self.run(words, setting)
        return tells == b"r", comes

    def times(self, words):
        """The processor time before each allocation, in microseconds."""
        return [int(line) for line in self.run(words, {"REFUSE": "0", "TIMES": "1"})[0].split()]

    def before_threads(self, name):
        """How many allocations a run makes before its threads begin, and a line if a longer run doesn't show it."""
        times = self.times(LONGER[name])
        gaps = [later - earlier for earlier, later in zip(times, times[1:])]
        at = gaps.index(max(gaps))
        if 2 * gaps[at] < times[-1]:
            return len(times), [f"{name}: a longer run doesn't show when its threads run"]
        small = len(self.times(COMMANDS[name]))
        lines = [] if small == len(times) else [f"{name}: {small} allocations, and {len(times)} in a longer run"]
        return at + 1, lines


def outcome(comes, alone, may_wait):
    """Which of the things that it may do a run with a refusal does, or None. A script that waits may be endless."""
    status, out, err, made = comes
    if comes == OUT_OF_MEMORY:
        return "out of memory"
    if comes == alone:
        return "the same"
    if may_wait and comes == (-signal.SIGXCPU, b"", b"", {}):
        return "endless"
    whole = all(made[name] is not None and made[name] == alone[3].get(name) for name in made)
    if out == b"" and whole and FAULT.get(status, re.compile(b"(?!)")).fullmatch(err):
        return "a fault of a file"
    return None


def differences(name, runs, most):
    """The lines that report where a command's runs do what they may not do, and how often each other thing happened."""
    words = COMMANDS[name]
    counts = dict.fromkeys(["out of memory", "the same", "a fault of a file", *["endless"] * (name in WAITING)], 0)
    alone = runs.alone(words)
    if alone[0] != STATUS.get(name, 0):
        return [f"{name}: status {alone[0]} with enough memory: {alone[2]!r}"], counts
    before, lines = runs.before_threads(name) if name in LONGER else (most, [])
    for number in range(1, most + 1):
        for and_after in [False, True]:
            was_refused, comes = runs.refused(words, Refusal(number, and_after))
            if not was_refused:
                return lines + ([f"{name}: differs with the tool alone"] if comes != alone else []), counts
            found = outcome(comes, alone, name in WAITING)
            if found is not None and not (found == "out of memory" and number > before):
                counts[found] += 1
                continue
            status, out, err, made = comes
            which = f"allocation {number}" + (" and all after it" if and_after else "")
            lines.append(f"{name}: {which}: status {status}, out {len(out)} bytes, err {err!r}, changed {sorted(made)}")
    return lines + [f"{name}: stopped at {most} allocations"], counts


def main():
    words = CommandLine(__doc__)
    words.add_program()
    words.add_argument("--with", dest="commands", default=",".join(COMMANDS))
    words.add_argument("--most", type=int, default=5000)
    said = words.parse_args()
    program = said.program
    found, tried = [], 0
    with tempfile.TemporaryDirectory() as scratch:
        folder = pathlib.Path(scratch)
        runs = Runs(program, prepared(folder / "inputs", program), folder / "run", built_refuser(folder))
        for name in said.commands.split(","):
            lines, counts = differences(name, runs, said.most)
            found += lines
            tried += sum(counts.values())
            print(f"{name}:", ", ".join(f"{what} {count}" for what, count in counts.items()) + f", differences {len(lines)}")
    print(f"{tried:,} runs with a refused allocation")
    for line in found:
        print(line)
    sys.exit(1 if found else 0)


if __name__ == "__main__":
    main()
