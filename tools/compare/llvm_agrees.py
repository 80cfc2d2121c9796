#!/usr/bin/env python3
"""Compares what LLVM's `llvm-xray` reads in traces with what the model reads in them, and reports where they differ.

usage: tools/compare/llvm_agrees.py [PROGRAM] [--traces N] [--seed N] [--llvm-xray NAME]
    PROGRAM: a built program that has `sim` and `run`, which writes the traces; without it the model writes them
    --traces: how many traces, 300 if left out; without PROGRAM, every other one has random records that no replay writes
    --seed: the seed of everything random, 1 if left out
    --llvm-xray: LLVM's program, llvm-xray-14 if left out

Debian's package llvm-14 has LLVM's program. If it is missing, this reports that and passes.

Each trace is read by four commands of LLVM, and each answer is compared with the model's:
    convert    the events of each thread of each process, in order, and the header
    account    count, least, items, greatest and sum of each function with a pair
    stack      count and sum of each path of each thread
    fdr-dump   all records, in the file's order
Function ids stand for names, so LLVM needs no sled map. If LLVM is known to do something else, nothing is compared. Each such case
has a name in `Known`, and the last lines say how often it came up. A difference is reported with the trace's file, which is kept,
and then the status is 1.
"""
import collections
import dataclasses
import enum
import pathlib
import random
import re
import shutil
import subprocess
import sys
import tempfile

sys.dont_write_bytecode = True  # the modules are in the repository, and their compiled forms aren't
sys.path.insert(0, str(pathlib.Path(__file__).resolve().parents[1]))
from command_line import CommandLine  # noqa: E402
from inputs.random_cases import TRACE_VALUES, option, random_contents, spelled  # noqa: E402
from inputs.random_traces import random_draft  # noqa: E402
from model import report_model as reports  # noqa: E402
from model import trace_model as traces  # noqa: E402
from model import xray_model as model  # noqa: E402

LEAST_SORTED_ANYHOW = 17
LEAST_UNREPORTED = (1 << 32) - 2
SIGN = 1 << 31


class Known(enum.Enum):
    """Why an answer isn't compared."""

    NO_BLOCK = "LLVM reads no file without a block"
    NO_RECORD = "LLVM reads no file with a block that has only its preamble"
    NO_EVENT = "LLVM's stack refuses a trace without events"
    PROCESSES = "LLVM's account and stack mix a thread's processes"
    WALL_TIMES = "LLVM orders a thread's blocks by wall times, which differ here"
    MANY_BLOCKS = "LLVM orders 17 blocks of a thread with one wall time as it likes"
    LOW_COUNTER = "LLVM's account refuses an event below the first counter other than 0"
    GOES_BACK = "LLVM takes a duration to be the distance of its counters, and sorts events by their counters"
    CLOSES_OTHERS = "LLVM's account pairs the innermost call alone, and its stack counts the calls above as ended too"
    CLOSES_ALL = "LLVM's stack ends all open calls at an exit of a function that isn't open"
    LAST_THREADS = "LLVM's stack reports nothing of the threads 4,294,967,294 and 4,294,967,295"
    LARGE_NUMBER = "LLVM sums durations as floating point or with a sign"


class LeftOut(Exception):
    def __init__(self, why):
        super().__init__(why)
        self.why = why


# ---- What the model knows of a trace


@dataclasses.dataclass(frozen=True)
class Example:
    """A trace with its bytes and its records."""

    raw: bytes
    trace: traces.Trace
    records: list

    @property
    def has_bare_block(self):
        """Whether a block has only its preamble."""
        last = traces.PREAMBLES[self.trace.header.version][-1]
        kinds = [kind for kind, _ in self.records] + [traces.EXTENTS]
        return any(pair == (last, traces.EXTENTS) for pair in zip(kinds, kinds[1:]))

    @property
    def groups(self):
        """The blocks of each thread of each process, in the file's order."""
        groups = collections.defaultdict(list)
        for block in self.trace.blocks:
            groups[self.process_of(block), block.thread].append(block)
        return groups

    def process_of(self, block):
        """The process of a block as LLVM has it. In version 2, whose blocks name none, it takes the thread for it."""
        return block.thread if self.trace.header.version == 2 else block.pid


def example_of(raw):
    trace = traces.trace_of(raw)
    reader, records = traces.Reader(raw, None), []
    while reader.at < len(raw):
        records.append(reader.record())
        reader.at += reader.length()
    return Example(raw, trace, records)


def check_readable(example):
    if not example.trace.blocks:
        raise LeftOut(Known.NO_BLOCK)
    if example.has_bare_block:
        raise LeftOut(Known.NO_RECORD)


def check_order(blocks):
    if len({block.wall for block in blocks}) > 1:
        raise LeftOut(Known.WALL_TIMES)
    if len(blocks) >= LEAST_SORTED_ANYHOW:
        raise LeftOut(Known.MANY_BLOCKS)


def check_threads(example):
    """Leaves out a trace if LLVM takes the events of a thread in another order."""
    if len({thread for _, thread in example.groups}) < len(example.groups):
        raise LeftOut(Known.PROCESSES)
    for blocks in example.groups.values():
        check_order(blocks)


def check_calls(example):
    """Leaves out a trace in which an exit closes calls inside its own, and gives the pairs of each thread."""
    matched = {}
    for thread in example.trace.threads:
        events = example.trace.events_of(thread)
        matched[thread] = events, reports.matched(events)
        if any(event.function in others for event, others in exits_among(events)):
            raise LeftOut(Known.CLOSES_OTHERS)
    return matched


def exits_among(events):
    """The exits that don't end the innermost call, each with the functions that are open."""
    is_open = []
    for event in events:
        if event.action in traces.ENTRIES:
            is_open.append(event.function)
        elif is_open and is_open[-1] == event.function:
            is_open.pop()
        elif is_open:
            yield event, is_open


def goes_back(events):
    return any(after.tsc < before.tsc for before, after in zip(events, events[1:]))


# ---- LLVM's answers


def first_of(arguments):
    """The first of some arguments, or 0 if there is none. LLVM prints all that stand behind an entry."""
    return int(arguments.split(",")[0]) if arguments else 0


class Llvm:
    """LLVM's program over a trace file."""

    def __init__(self, program, path):
        self.program = program
        self.path = path

    def text(self, *words):
        """What a command prints on standard output. `-keep-going` leaves out events that it refuses."""
        return subprocess.run([self.program, *words, self.path], capture_output=True, text=True).stdout

    def events(self):
        """The header's lines, and each event with its process and thread. LLVM doesn't print these two if they are 0."""
        text = self.text("convert", "-output-format=yaml", "-sort=0")
        item = re.compile(
            r"  - \{ type: 0, func-id: (\d+), function: '(\d+)', (?:args: \[ ([\d, ]+) \], )?cpu: (\d+), "
            r"(?:thread: (\d+), )?(?:process: (\d+), )?kind: (function-[a-z-]+), tsc: (\d+), data: '' \}"
        )
        head = re.findall(r"^  ([a-z-]+): +(\S+)$", text, re.M)
        found = [match.groups() for match in map(item.fullmatch, text.splitlines()) if match]
        if len(found) != text.count("  - {") or any(one != two for one, two, *_ in found):
            raise ValueError(text)
        kinds = {kind: action for action, kind in enumerate(reports.KINDS)}
        return dict(head), [
            (
                (int(process or 0), int(thread or 0)),
                traces.Event(int(cpu), int(function), kinds[kind], int(tsc), first_of(args)),
            )
            for function, _, args, cpu, thread, process, kind, tsc in found
        ]

    def account(self):
        """The numbers of each function."""
        number = r"([0-9.]+)"
        row = re.compile(rf" *(\d+) +(\d+) \[ *{number}, +{number}, +{number}, +{number}, +{number}\] +{number}  \S.*")
        text = self.text("account", "-keep-going")
        rows = [match.groups() for match in map(row.fullmatch, text.splitlines()) if match]
        return {int(function): [int(count), *map(float, numbers)] for function, count, *numbers in rows}

    def stacks(self, aggregation):
        """A number for each thread and path."""
        text = self.text("stack", "-keep-going", "-all-stacks", "-stack-format=flame", f"-aggregation-type={aggregation}")
        lines = [line.rsplit(" ", 1) for line in text.splitlines()]
        paths = [(path.removesuffix(";").split(";"), int(number)) for path, number in lines]
        return {
            (int(thread.removeprefix("thread_")), tuple(int(name.removeprefix("#")) for name in path)): number
            for (thread, *path), number in paths
        }

    def records(self):
        """The records as `fdr-dump` prints them."""
        return [line for line in self.text("fdr-dump").splitlines() if line]


# ---- The comparisons, each a list of what differs


def convert_differences(example, llvm):
    check_readable(example)
    head, came = llvm.events()
    header = example.trace.header
    expected = {
        "version": str(header.version), "type": "1", "constant-tsc": reports.said(header.flags & traces.CONSTANT),
        "nonstop-tsc": reports.said(header.flags & traces.NONSTOP), "cycle-frequency": str(header.frequency),
    }  # fmt: skip
    differ = [f"header {head}, expected {expected}"] if head != expected else []
    grouped = collections.defaultdict(list)
    for group, event in came:
        grouped[group].append(event)
    left_out = None
    for group, blocks in example.groups.items():
        events = [event for block in blocks for event in block.events]
        found = grouped.pop(group, [])
        try:
            check_order(blocks)
        except LeftOut as known:
            # The order is left out, but the events aren't.
            left_out = known
            events, found = sorted(events, key=dataclasses.astuple), sorted(found, key=dataclasses.astuple)
        if found != events:
            differ.append(f"process and thread {group}: {found}, expected {events}")
    if grouped:
        differ.append(f"events of processes and threads {list(grouped)}")
    if left_out and not differ:
        raise left_out
    return differ


def account_differences(example, llvm):
    check_readable(example)
    check_threads(example)
    matched = check_calls(example)
    check_counters(llvm.events()[1])
    if any(events[pair.exit].tsc < events[pair.entry].tsc for events, one in matched.values() for pair in one.pairs):
        raise LeftOut(Known.GOES_BACK)
    rows = [row for row in reports.account_of(example.trace) if row.count > 0]
    if any(row.sum >= 1 << 53 for row in rows):
        raise LeftOut(Known.LARGE_NUMBER)
    frequency = example.trace.header.frequency or 1
    expected = {}
    for row in rows:
        durations = [row.min, row.med, row.p90, row.p99, row.max, row.sum]
        expected[row.funcid] = [row.count, *(duration / frequency for duration in durations)]
    came = llvm.account()
    if came.keys() != expected.keys():
        return [f"functions {sorted(came)}, expected {sorted(expected)}"]
    return [
        f"function {function}: {came[function]}, expected {numbers}"
        for function, numbers in expected.items()
        if any(abs(one - two) > 1e-6 + 1e-9 * two for one, two in zip(came[function], numbers))
    ]


def check_counters(events):
    """LLVM keeps the first counter that isn't 0, in its own order of threads."""
    first = 0
    for _, event in events:
        first = first or event.tsc
        if event.tsc < first:
            raise LeftOut(Known.LOW_COUNTER)


def stack_differences(example, llvm):
    check_readable(example)
    check_threads(example)
    if not any(block.events for block in example.trace.blocks):
        raise LeftOut(Known.NO_EVENT)
    expected = collections.defaultdict(lambda: (0, 0))
    for thread, (events, one) in check_calls(example).items():
        if goes_back(events):
            raise LeftOut(Known.GOES_BACK)
        if any(exits_among(events)):
            raise LeftOut(Known.CLOSES_ALL)
        for pair in one.pairs:
            path = thread, tuple(events[at].function for at in (*pair.above, pair.entry))
            count, total = expected[path]
            expected[path] = count + 1, total + pair.duration
    if any(total >= 1 << 63 for _, total in expected.values()):
        raise LeftOut(Known.LARGE_NUMBER)
    if any(thread >= LEAST_UNREPORTED for thread, _ in expected):
        raise LeftOut(Known.LAST_THREADS)
    counts, sums = llvm.stacks("count"), llvm.stacks("time")
    # LLVM has a row for a path without a pair.
    came = {path: (count, sums[path]) for path, count in counts.items() if count > 0}
    return [] if came == expected else [f"{came}, expected {dict(expected)}"]


DUMPED = {
    traces.NEW_BUFFER: "<Thread ID: {}>", traces.NEW_CPU: "<CPU: id = {}, tsc = {}>", traces.TSC_WRAP: "<TSC Wrap: base = {}>",
    traces.WALL_TIME: "<Wall Time: seconds = {}.{:06}>", traces.EXTENTS: "<Buffer: size = {} bytes>", traces.PID: "<PID: {}>",
    traces.CALL_ARGUMENT: "<Call Argument: data = {0} (hex = 0x{0:x})>",
}  # fmt: skip
ACTIONS = ["Enter", "Exit", "Tail Exit", "Enter With Arg"]


def dump_differences(example, llvm):
    if not example.trace.blocks:
        raise LeftOut(Known.NO_BLOCK)
    came = llvm.records()
    expected = [dumped(kind, fields) for kind, fields in example.records]
    return [] if came == expected else [f"{came}, expected {expected}"]


def dumped(kind, fields):
    if kind == traces.FUNCTION:
        function, action, delta = fields
        return f"<Function {ACTIONS[action]}: #{function} delta = +{delta}>"
    if kind in (traces.NEW_BUFFER, traces.PID):
        # LLVM prints these 32 bits with a sign.
        fields = [(fields[0] + SIGN) % (2 * SIGN) - SIGN]
    return DUMPED[kind].format(*fields)


COMPARISONS = {
    "convert": convert_differences, "account": account_differences, "stack": stack_differences, "fdr-dump": dump_differences,
}  # fmt: skip

# ---- The traces


def replay_words(draw, threads):
    """The options of a replay. With a first counter above 0, LLVM's account takes all events of several threads."""
    options = [["--threads", str(threads)], ["--fuel", "3000"], ["--wall", str(draw.choice([0, 1, 1_700_000_000]))]]
    options.append(["--tsc", str(draw.choice([1, 1, 1000, 1000, 0, (1 << 32) - 3, (1 << 64) - 50]))])
    options.append(["--buffer-size", str(draw.choice([88, 96, 120, 200, 400, 1000, 16_384]))])
    options.append(["--buffer-max", str(draw.choice([threads, threads + 1, threads + 3, 100, 100]))])
    for name in ("tick", "frequency", "cpus", "migrate", "pid"):
        if draw.random() < 0.25:
            options.append(option(draw, name, spelled(draw, draw.choice(TRACE_VALUES[name][1]))))
    return [word.encode() for words in options for word in words]


def written_trace(draw, program, folder):
    """The trace of a random replay or run, as the program writes it. Without a program, the trace of a replay, by the model."""
    while True:
        command = "sim" if program is None else draw.choice(["sim", "run"])
        threads = draw.choice([1, 1, 2, 3, 16])
        files = dict(zip("isc", random_contents(draw, command, threads)))
        words = [word.encode() for word in (command, *files, "t", "a")] + replay_words(draw, threads)
        outcome = model.outcome(words, model.World(files))
        if outcome.status != 0:
            continue
        trace = outcome.written["t"] if program is None else traced_by(program, folder, words, files)
        if len(trace) > traces.HEADER_LENGTH or draw.random() < 0.05:
            return trace


def traced_by(program, folder, words, files):
    """The trace that a program writes from these files."""
    for name, content in files.items():
        (folder / name).write_bytes(content)
    subprocess.run([program, *words], cwd=folder, stdout=subprocess.DEVNULL, check=True)
    return (folder / "t").read_bytes()


def random_records(draw):
    """A trace of random records. It mostly has a block, and no block without an event, since LLVM reads no others."""
    draft = random_draft(draw)
    if draw.random() < 0.95:
        draft.blocks = [block for block in draft.blocks if any(record.kind == traces.FUNCTION for record in block[0])]
    return draft.file() if draft.blocks or draw.random() < 0.1 else random_records(draw)


def example_by(number, seed, program, folder):
    draw = random.Random(f"{seed} {number}")
    is_of_records = program is None and number % 2 == 0
    return example_of(random_records(draw) if is_of_records else written_trace(draw, program, folder))


# ---- The script


def arguments():
    parser = CommandLine(__doc__)
    parser.add_program(default=None)
    parser.add_argument("--traces", type=int, default=300, metavar="N")
    parser.add_argument("--seed", type=int, default=1, metavar="N")
    parser.add_argument("--llvm-xray", default="llvm-xray-14", metavar="NAME")
    return parser.parse_args()


def main():
    given = arguments()
    if shutil.which(given.llvm_xray) is None:
        print(f"nothing was compared: there is no {given.llvm_xray} (Debian's package llvm-14 has it)")
        return
    compared, left_out, differ = collections.Counter(), collections.Counter(), 0
    folder = pathlib.Path(tempfile.mkdtemp(prefix="llvm_agrees."))
    for number in range(1, given.traces + 1):
        example = example_by(number, given.seed, given.program, folder)
        path = folder / f"trace-{number}"
        path.write_bytes(example.raw)
        is_kept = False
        for command, differences in COMPARISONS.items():
            try:
                differ_here = differences(example, Llvm(given.llvm_xray, path))
                compared[command] += 1
            except LeftOut as known:
                left_out[command, known.why] += 1
                continue
            for line in differ_here:
                print(f"differs: {path}: {command}: {line}")
            is_kept = is_kept or bool(differ_here)
        differ += is_kept
        if not is_kept:
            path.unlink()
    if not differ:
        shutil.rmtree(folder)
    for command in COMPARISONS:
        print(f"{command}: {compared[command]:,} compared")
        for (of, why), count in sorted(left_out.items(), key=lambda item: item[0][1].value):
            if of == command:
                print(f"    {count:,} left out: {why.value}")
    print(f"{given.traces:,} traces: {differ:,} differ from the model")
    sys.exit(1 if differ else 0)


if __name__ == "__main__":
    main()
