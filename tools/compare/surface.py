#!/usr/bin/env python3
"""Compares the public surface of the crates with the one that was agreed on.

usage: tools/compare/surface.py [--more] [ROOT]
    --more: public items that no line names are listed too
    ROOT: the folder of the repository, that of this file if left out

Other programs are written against the names and signatures below: types with their variants and
fields, traits, and functions with the names and types of their parameters. This tool reads the
public items of crates/*/src and reports each one that is missing or has another form, unless
ALLOWED names it with a reason. docs/DECISIONS.md has the same list, under "The public surface".
The status is 1 if something else differs, or if an entry of ALLOWED no longer does.

In a signature below, lifetimes, the type parameters of types, and bounds are left out. So are the
allocator and the runtime, except in a line that begins with `whole`. After a semicolon comes
another function of the same type. The order of a struct's fields is free, and so are public items
that no line names.
"""

import pathlib
import re
import sys

sys.dont_write_bytecode = True  # the modules are in the repository, and their compiled forms aren't
sys.path.insert(0, str(pathlib.Path(__file__).resolve().parents[1]))
from command_line import ROOT, CommandLine  # noqa: E402

SURFACE = """
crate xray_io
struct Failed, NoMemory, WriteFault, OpenGate, MemDesk, MemSink, FileDesk, OutSink, ErrSink, DeskFile, Text
trait Desk, Sink, Gate
impl Gate for OpenGate
impl Desk for MemDesk, FileDesk
impl Sink for MemSink, OutSink, DeskFile
enum ReadFail { Missing, Failed }
struct Wall { secs: u64, micros: u32 }
enum ReadError { ReadFault, TooLong, NoMemory }
fn Desk::read(&mut self, name: &str, from: u64, buf: &mut [u8]) -> Result<usize, ReadFail>; create(&mut self, name: &str) -> Result<(), Failed>
fn Desk::append(&mut self, name: &str, bytes: &[u8]) -> Result<usize, Failed>
fn Sink::write(&mut self, bytes: &[u8]) -> Result<usize, Failed>
fn Gate::before(&self, thread: u32, passing: u32); before_store(&self, place: u64)
fn MemDesk::new(failing: Vec<u64>) -> MemDesk; put(&mut self, name: &str, bytes: &[u8]) -> Result<(), NoMemory>
fn MemDesk::get(&self, name: &str) -> Option<&[u8]>; refused(&self) -> u64
fn MemSink::new(failing: Vec<u64>) -> MemSink; bytes(&self) -> &[u8]; refused(&self) -> u64
fn FileDesk::new() -> FileDesk
fn OutSink::new() -> OutSink
fn ErrSink::new() -> ErrSink
fn DeskFile::new(desk: &mut D, name: &str) -> DeskFile
fn read_whole(desk: &mut D, name: &str, limit: u64) -> Result<Vec<u8>, ReadError>
fn write_all(sink: &mut S, bytes: &[u8]) -> Result<(), WriteFault>
fn Text::new(sink: &mut S) -> Text; bytes(&mut self, b: &[u8]) -> Result<(), WriteFault>; number(&mut self, n: u128) -> Result<(), WriteFault>
fn Text::right(&mut self, n: u128, width: usize) -> Result<(), WriteFault>; hex(&mut self, n: u64, digits: usize) -> Result<(), WriteFault>
fn Text::done(self) -> Result<(), WriteFault>

crate fdr_record
trait Recorder
enum Kind { Entry, Exit, TailExit, EntryArgs }
struct Event { cpu: u16, func: u32, kind: Kind, tsc: u64, arg: u64 }
enum Rec { NewBuffer { thread: u32 }, NewCpu { cpu: u16, tsc: u64 }, TscWrap { tsc: u64 }, WallTime { wall: Wall }, Pid { pid: u32 }, CallArg { value: u64 }, Extents { size: u64 }, Function { kind: Kind, func: u32, delta: u32 } }
enum RecFault { Short, Action(u8), Kind(u8) }
fn rec_len(rec: &Rec) -> usize
fn put_rec(rec: &Rec, buf: &mut [u8], at: usize) -> usize
fn take_rec(bytes: &[u8], at: usize) -> Result<(Rec, usize), RecFault>
fn Recorder::note(&mut self, event: Event)

crate subset_decode
struct Reg
enum Instr { Mov { dst: Reg, imm: u32 }, Add { dst: Reg, src: Reg }, Sub { dst: Reg, src: Reg }, Push { reg: Reg }, Pop { reg: Reg }, Call { rel: i32 }, Jmp { rel: i32 }, Jnz { rel: i32 }, Ret, Out { port: u8 } }
struct Code { bytes: [u8; 6], len: u8 }
enum DecodeFault { Short, Unknown(u8), Register(u8) }
fn Reg::new(n: u8) -> Option<Reg>; number(&self) -> u8
fn encode(instr: &Instr) -> Code
fn decode(bytes: &[u8], at: usize) -> Result<(Instr, usize), DecodeFault>

crate xray_image
struct Image
enum SledKind { Entry, Exit, Tail, Args }
struct Sled { address: u64, function: u64, id: u32, kind: SledKind, always: bool, shift: u32 }
enum What { Plain(Instr), Sled(u32), Pad }
struct Unit { address: u64, what: What }
enum Which { Code, Functions, Sleds, Entry, Base }
enum ImageFault { Short, Magic, Version, Limit(Which), Trailing, Code(u32, DecodeFault), Sled(u32), Names(u32), MapOrder(u32), Odd(u32), Far(u32), Target(u32), NoMemory }
fn read_image(bytes: &[u8]) -> Result<Image, ImageFault>
fn Image::base(&self) -> u64; entry(&self) -> u64; code(&self) -> &[u8]; unit_count(&self) -> u32; unit(&self, i: u32) -> Unit
fn Image::unit_at(&self, address: u64) -> Option<u32>; sled_count(&self) -> u32; sled(&self, k: u32) -> Sled; id_count(&self) -> u32
fn Image::name_of(&self, id: u32) -> Option<&str>; trampoline(&self, kind: SledKind) -> u64
fn write_extract(image: &Image, sink: &mut S) -> Result<(), WriteFault>

crate asm_text
enum AsmFault { Syntax(u32), Register(u32), Range(u32), Repeat(u32), Limit(u32), Label(u32), NoMemory }
fn assemble(text: &[u8], threshold: u32, relative: bool) -> Result<Vec<u8>, AsmFault>

crate sled_words
enum Part { Head, Id, Opcode, Offset }
fn part_value(image: &Image, sled: u32, part: Part, patched: bool) -> u64
fn initial_words(image: &Image, threads: u32) -> Result<Vec<u64>, NoMemory>
fn code_bytes(image: &Image, words: &[u64]) -> Result<Vec<u8>, NoMemory>

crate patch_script
struct Script
enum Micro { Store { word: u32, value: u64 }, Await { thread: u32, count: u32 }, End }
enum ScriptFault { Limit(u32), Syntax(u32), Function(u32), Thread(u32), Go(u32), Hold(u32), Log(u32), SelfWait(u32), NoMemory }
fn read_script(text: &[u8], image: &Image, threads: u32) -> Result<Script, ScriptFault>
fn Script::start(&self) -> u64; total(&self) -> u64; micro(&self, p: u64) -> Micro; hold_of(&self, thread: u32) -> Option<u32>
fn Script::waits(&self) -> Option<u32>

crate handler_word
struct Marks
enum Mark { Skipped, NoHandler, NotLogging, Recorded, RecordedArg }
fn Marks::new(room: u32) -> Result<Marks, NoMemory>; add(&mut self, mark: Mark); len(&self) -> u32; get(&self, n: u32) -> Mark; recorded(&self) -> u32
fn write_runs(marks: &Marks, sink: &mut S) -> Result<(), WriteFault>

crate machine_step
struct Cpu
struct Limits { fuel: u64, passings: u32, tick: u64, tsc: u64, cpus: u16, migrate: u32 }
struct Setup { threads: u32, size: u32, max: u32, limits: Limits, pid: u32, wall: Wall, frequency: u64 }
enum End { Returned, Fuel, Passings, OutputFull, StackFull, StackEmpty, BadTarget }
enum Want { Gate(u32), Load(u32), Done(End) }
struct PlainEnd { thread: u32, end: End, regs: Vec<u64>, zf: bool, output: Vec<u8>, instructions: u64, passings: u32 }
fn Cpu::new(image: &Image, thread: u32, threads: u32, hold: Option<u32>, limits: Limits) -> Result<Cpu, NoMemory>; want(&self) -> Want
fn Cpu::opened(&mut self); allowed(&self, value: u64) -> bool; give(&mut self, value: u64) -> Option<Event>; reg(&self, n: u8) -> u64
fn Cpu::zf(&self) -> bool; output(&self) -> &[u8]; marks(&self) -> &Marks; instructions(&self) -> u64; passings(&self) -> u32
fn plain_run(image: &Image, thread: u32, limits: Limits) -> Result<PlainEnd, NoMemory>
fn write_plain(end: &PlainEnd, sink: &mut S) -> Result<(), WriteFault>
fn write_state(thread: u32, cpu: &Cpu, sink: &mut S) -> Result<(), WriteFault>

crate sled_rule
struct CodeTable, PatchSeat, WorkSeat, Note, Tally
fn PatchSeat::place(&self) -> u64
fn WorkSeat::thread(&self) -> u32; count(&self) -> u64
fn CodeTable::new(image: &Image, script: Script, threads: u32) -> Result<(CodeTable, PatchSeat), NoMemory>; script(&self) -> &Script
fn CodeTable::split(&self, seat: &mut PatchSeat) -> WorkSeat; fetch(&self, seat: &mut WorkSeat, word: u32) -> u64; passed(&self, seat: &mut WorkSeat)
fn CodeTable::ended(&self, seat: &mut WorkSeat); store_next(&self, seat: &mut PatchSeat); look(&self, seat: &mut PatchSeat) -> bool
fn CodeTable::meet(&self, seat: &mut PatchSeat, worker: WorkSeat); note(&self, seat: &mut PatchSeat) -> Note
fn CodeTable::hear(&self, seat: &mut WorkSeat, note: Note); tally(&self, seat: &mut WorkSeat) -> Tally; heed(&self, seat: &mut PatchSeat, tally: Tally)
fn CodeTable::close(self, seat: PatchSeat, into: &mut [u64])

crate sled_patch
fn run_prefix(table: &CodeTable, seat: &mut PatchSeat)
fn run_script(table: &CodeTable, seat: &mut PatchSeat, gate: &G)

crate fdr_buffer
struct Buffer
fn Buffer::new(size: u32) -> Result<Buffer, NoMemory>; begin(&mut self, thread: u32, serial: u32, wall: Wall, pid: u32)
fn Buffer::fits(&self, event: &Event) -> bool; put(&mut self, event: &Event); bytes(&self) -> &[u8]; thread(&self) -> u32; serial(&self) -> u32
fn Buffer::events(&self) -> u32; begun(&self) -> bool

crate buffer_queue
struct Pool, PoolPass
fn Pool::new(setup: &Setup) -> Result<(Pool, Vec<(PoolPass, Buffer)>), NoMemory>; turn(&self, pass: &mut PoolPass, full: Buffer) -> Buffer
fn Pool::sealed(pass: &PoolPass) -> u32; drain(self, passes: Vec<PoolPass>, into: &mut Vec<Buffer>)

crate thread_run
struct FdrRecorder, Worker
impl Recorder for FdrRecorder
enum Turn { Done, Held }
fn FdrRecorder::new(pool: &Pool, pass: PoolPass, hand: Buffer, thread: u32, setup: &Setup) -> FdrRecorder; parts(self) -> (PoolPass, Buffer)
fn Worker::new(cpu: Cpu, seat: WorkSeat, table: &CodeTable, recorder: R) -> Worker; run(&mut self, gate: &G) -> Turn; parts(self) -> (Cpu, WorkSeat, R)
fn run_threads(table: &CodeTable, seat: &mut PatchSeat, workers: &mut [Worker], gate: &G)

crate step_sim
struct Schedule
enum ScheduleFault { Syntax(u32), Thread(u32), Limit, NoMemory }
enum SimFault { Waits(u32), NoMemory }
struct SimEnd { cpus: Vec<Cpu>, sealed: Vec<u32>, first: Vec<u32>, buffers: Vec<Buffer> }
fn read_schedule(text: &[u8], threads: u32) -> Result<Schedule, ScheduleFault>
fn simulate(image: &Image, script: &Script, schedule: &Schedule, setup: &Setup) -> Result<SimEnd, SimFault>

crate fdr_file
struct Header { version: u16, constant: bool, nonstop: bool, frequency: u64, size: u64 }
struct Block { thread: u32, wall: Wall, pid: u32, events: Vec<Event> }
struct Trace { header: Header, blocks: Vec<Block> }
enum TraceFault { Short(u64), Version(u16), Form(u16), Order(u64), Extents(u64), Bad(u64, RecFault), NoBase(u64), NoMemory }
fn write_file(header: &Header, buffers: &[Buffer], sink: &mut S) -> Result<(), WriteFault>
fn read_trace(bytes: &[u8]) -> Result<Trace, TraceFault>
trait Taker
struct TraceScan, EventCursor
fn Taker::block(&mut self, thread: u32, wall: Wall, pid: u32) -> Result<(), NoMemory>; event(&mut self, event: &Event) -> Result<(), NoMemory>
fn TraceScan::new() -> TraceScan; feed(&mut self, piece: &[u8], taker: &mut K) -> Result<(), NoMemory>; finish(self) -> Result<Header, TraceFault>
fn EventCursor::new(bytes: &[u8]) -> EventCursor; next(&mut self) -> Option<(u32, u32, Event)>; header(&self) -> Header
fn readable(bytes: &[u8]) -> Result<usize, TraceFault>

crate trace_flush
struct AuditLine { thread: u32, end: End, segments: u32, first: u32 }
fn arrange(buffers: &mut Vec<Buffer>)
fn write_audit(setup: &Setup, lines: &[AuditLine], cpus: &[Cpu], sink: &mut S) -> Result<(), WriteFault>

crate stack_rebuild
struct Pair { func: u32, entry: usize, exit: usize, duration: u64 }
struct StackRow { path: Vec<u32>, count: u64, sum: u128, own: u128 }
enum StackFault { Deep(u32), NoMemory }
enum StackForm { Human, Flame }
fn pairs(events: &[Event]) -> Result<Vec<Pair>, NoMemory>
fn thread_events(trace: &Trace, thread: u32) -> Result<Vec<Event>, NoMemory>
fn stacks(trace: &Trace) -> Result<Vec<StackRow>, StackFault>
fn write_stack(rows: &[StackRow], image: Option<&Image>, form: StackForm, sink: &mut S) -> Result<(), WriteFault>
struct StackFold
impl Taker for StackFold
fn StackFold::new() -> StackFold; rows(self) -> Result<Vec<StackRow>, StackFault>

crate account_report
struct AccountRow { func: u32, count: u64, min: u64, med: u64, p90: u64, p99: u64, max: u64, sum: u128, entries: u64, exits: u64 }
enum SortKey { FuncId, Count, Min, Med, P90, P99, Max, Sum }
fn account(trace: &Trace) -> Result<Vec<AccountRow>, NoMemory>
fn order_rows(rows: &mut Vec<AccountRow>, sort: SortKey, descending: bool, top: Option<u32>)
fn write_account(rows: &[AccountRow], latencies: u64, image: Option<&Image>, csv: bool, sink: &mut S) -> Result<(), WriteFault>
struct AccountFold
impl Taker for AccountFold
fn AccountFold::new() -> AccountFold; rows(self) -> Result<(Vec<AccountRow>, u64), NoMemory>

crate yaml_convert
fn write_yaml(trace: &Trace, image: Option<&Image>, sink: &mut S) -> Result<(), WriteFault>
fn write_yaml_bytes(bytes: &[u8], image: Option<&Image>, sink: &mut S) -> Result<(), WriteFault>

crate audit_check
struct AuditEntry { thread: u32, end: End, passings: u32, recorded: u32, segments: u32, first: u32, marks: Marks }
struct Audit { setup: Setup, entries: Vec<AuditEntry>, recycled: u64 }
enum AuditFault { Form(u32), NoMemory }
enum Verdict { Yes, Ends(u32), Marks(u32), Counts(u32), Recycled, Trace }
fn read_audit(bytes: &[u8]) -> Result<Audit, AuditFault>
fn check_audit(image: &Image, script: &Script, audit: &Audit, trace: &[u8]) -> Result<Verdict, NoMemory>

crate call_trie
struct TrieRecorder
enum TrieState { Live, Full, Deep }
impl Recorder for TrieRecorder
fn TrieRecorder::new(nodes: u32) -> Result<TrieRecorder, NoMemory>; state(&self) -> TrieState
fn merged(tries: &[TrieRecorder]) -> Result<Vec<StackRow>, NoMemory>

crate trace_forms
enum EventFault { Many, NoMemory }
enum BasicFault { Short(u64), Version(u16), Form(u16), Tag(u64, u16), Kind(u64, u8), NoMemory }
fn event_text(trace: &Trace, image: Option<&Image>) -> Result<Vec<u8>, EventFault>
fn wide_cpu(trace: &Trace) -> Option<u64>
fn write_basic(trace: &Trace, sink: &mut S) -> Result<(), WriteFault>
fn read_basic(bytes: &[u8]) -> Result<Trace, BasicFault>
fn write_dump(bytes: &[u8], sink: &mut S) -> Result<(), WriteFault>

crate xray_program
fn soak_inputs(number: u64) -> Result<(Vec<u8>, Vec<u8>, Vec<u8>), NoMemory>
whole fn xray(rt: &T, alloc: Global, words: &[String], wall: Wall, desk: &mut D, out: &mut O, err: &mut E, gate: &G) -> u8
whole fn xray_still(alloc: Global, words: &[String], wall: Wall, desk: &mut D, out: &mut O, err: &mut E) -> u8
"""

# Crate, item, its form in the crate ("" if there is none), and why it differs.
ALLOWED = [
    ("xray_io", "ErrSink", "type", "one type writes to both streams, so this is another name of OutSink"),
    ("xray_io", "ErrSink::new", "", "it is OutSink::new"),
    ("xray_io", "OutSink::new", "fn (to: P) -> OutSink", "the caller says which stream it is"),
    ("xray_io", "Text::bytes", "fn (&mut self, bytes: &[u8]) -> Result<(), WriteFault>",
     "a parameter has another name, which callers don't write"),
    ("subset_decode", "Code", "struct { bytes: [u8; LONGEST], len: u8 }", "LONGEST is a constant, 6"),
    ("machine_step", "Cpu::new", "fn (steps: &Steps, thread: u32, threads: u32, hold: Option<u32>, limits: Limits)"
     " -> Result<Cpu, NoMemory>", "all threads of an image borrow one table of its steps"),
    ("machine_step", "plain_run", "fn (steps: &Steps, thread: u32, limits: Limits) -> Result<PlainEnd, NoMemory>",
     "it runs over this table too"),
    ("step_sim", "simulate", "fn (steps: &Steps, script: &Script, schedule: &Schedule, setup: &Setup)"
     " -> Result<SimEnd, SimFault>", "its threads borrow this table"),
    ("step_sim", "SimEnd", "struct { buffers: Vec<Buffer>, cpus: Vec<Cpu>, first: Vec<u32>, sealed: Vec<u32>,"
     " segments: Vec<u32> }", "one more field: how many segments each thread has"),
    ("buffer_queue", "Pool::sealed", "", "it is a method of the pass, PoolPass::sealed"),
    ("fdr_file", "Block", "struct { events: Events, pid: u32, thread: u32, wall: Wall }",
     "a list over a vector, which contracts can compare with the list that the bytes mean"),
    ("fdr_file", "Trace", "struct { blocks: Blocks, header: Header }", "blocks are such a list too"),
]

FN = re.compile(r"^( {4})?(pub )?fn (\w+)", re.M)
HEAD = re.compile(r"^(pub )?(impl|trait|struct|enum|type)\b", re.M)


def changes(text, place):
    """By how much a mark changes the depth of brackets. Arrows and comparisons don't change it."""
    mark = text[place]
    if mark in "<>":
        return (0 if text[place + 1] in " =" else 1) if mark == "<" else (0 if text[place - 1] in " -=" else -1)
    return (mark in "([{") - (mark in ")]}")


def closing(text, at):
    """The place after the bracket that closes the one at a place."""
    depth = 0
    for place in range(at, len(text)):
        depth += changes(text, place)
        if depth == 0:
            return place + 1
    raise SystemExit(f"a bracket is not closed: {text[at:at + 60]}")


def parts_of(text):
    """The parts of a list between commas, outside all brackets."""
    parts, depth = [""], 0
    for place, mark in enumerate(text):
        depth += changes(text + " ", place)
        if mark == "," and depth == 0:
            parts.append("")
        else:
            parts[-1] += mark
    return [part.strip() for part in parts if part.strip()]


def plain(text, owner=""):
    """A type without lifetimes and its own type parameters, on one line."""
    text = re.sub(r"'\w+,? ?", "", re.sub(r"\s+", " ", text))
    text = re.sub(r"\b(\w+)<(?:[A-Z](?:, )?)*>", r"\1", text)
    return re.sub(r"\bSelf\b", owner, text).strip()


def signature(text, at, owner, whole=False):
    """The parameters and the result of a function whose name ends at a place."""
    at = closing(text, at) if text[at] == "<" else at
    end = closing(text, at)
    named = [re.sub(r"^mut ", "", plain(part, owner)) for part in parts_of(text[at + 1:end - 1])]
    named = [part for part in named if whole or part.split(":")[0] not in ("alloc", "rt")]
    result = re.match(r"\s*->\s*(.*?)\s*(?=\{|;|$|\b(?:requires|ensures|ghost|where)\b)", text[end:], re.S)
    return "(" + ", ".join(named) + ")" + (" -> " + plain(result.group(1), owner) if result else "")


def body(kind, text, at):
    """The public fields of a struct in the order of their names, or the variants of an enum."""
    parts = [plain(part) for part in parts_of(re.sub(r"#\[.*?\]\s", "", text[at + 1:closing(text, at) - 1]))]
    if kind == "struct":
        parts = sorted(part[4:] for part in parts if part.startswith("pub ") and not part.startswith("pub ghost"))
    return " { " + ", ".join(part.replace(", }", " }") for part in parts) + " }" if parts else ""


def agreed(line):
    """The items of a line of SURFACE: name, form, and whether it has all parameters."""
    if match := re.match(r"(struct|trait|impl \w+ for) ([\w, ]+)$", line):
        for name in match.group(2).split(", "):
            is_impl = match.group(1).startswith("impl")
            yield f"{match.group(1)} {name}" if is_impl else name, match.group(1).split(" ")[0], False
    elif match := re.match(r"(whole )?fn (?:(\w+)::)?", line):
        owner = match.group(2) or ""
        for one in re.split(r"; (?=\w+\()", line[match.end():]):
            name = one[:one.index("(")]
            form = "fn " + signature(one, len(name), owner, True)
            yield f"{owner}::{name}" if owner else name, form, bool(match.group(1))
    else:
        kind, name = line.split(" ")[:2]
        at = line.index("{")
        fields = line[at:] if kind == "enum" else "{ pub " + ", pub ".join(parts_of(line[at + 2:-2])) + " }"
        yield name, kind + body(kind, fields, 0), False


def methods(text, owner, public):
    """The functions of a block or a file: name, form, and form with all parameters."""
    for found in FN.finditer(text):
        if found.group(2) == public and bool(found.group(1)) == bool(owner):
            forms = ["fn " + signature(text, found.end(), owner, whole) for whole in (False, True)]
            yield (f"{owner}::{found.group(3)}" if owner else found.group(3)), *forms


def items_in(text):
    """The public items of a file: name, form, and the form with all parameters."""
    yield from methods(text, "", "pub ")
    for head in HEAD.finditer(text):
        public, kind = head.groups()
        line, at = text[head.start():], len(head.group(0))
        at = closing(line, at) if line[at] == "<" else at
        if kind == "impl":
            said = plain(line[at:line.index("{")]).split(" where ")[0]
            if " for " in said:
                yield "impl " + said, "impl", "impl"
            else:
                yield from methods(line[:line.index("\n}")], said, "pub ")
        elif public:
            name = re.match(r" (\w+)", line[at:]).group(1)
            brace = re.match(r"(?:<[^{;]*?>)?[^{;(]*\{", line[at + 1 + len(name):])
            if kind == "trait":
                yield from methods(line[:line.index("\n}")], name, None)
            elif brace:
                kind += body(kind, line, at + len(name) + brace.end())
            yield name, kind, kind


def surface_of(folder):
    """The exported items of a crate: name to form and form with all parameters."""
    items = {}
    for file in sorted(folder.glob("src/**/*.rt")):
        text = re.sub(r"(^|\s)//[^\n]*", "", file.read_text())
        for name, form, whole in items_in(text):
            items.setdefault(name, (form, whole))
    top = (folder / "src/lib.rt").read_text()
    exported = set(re.findall(r"\w+", " ".join(re.findall(r"^pub use ([^;]*);", top, re.M))))
    exported |= set(re.findall(r"^pub \w+ (\w+)", top, re.M))
    return {name: item for name, item in items.items()
            if name.startswith("impl ") or name.split("::")[0] in exported}


def main():
    words = CommandLine(__doc__)
    words.add_argument("--more", action="store_true")
    words.add_argument("root", nargs="?", type=pathlib.Path, default=ROOT, metavar="ROOT")
    given = words.parse_args()
    root = given.root / "crates"
    allowed = {(crate, name): form for crate, name, form, _ in ALLOWED}
    built = {folder.name: surface_of(folder) for folder in root.iterdir() if (folder / "src/lib.rt").exists()}
    crate, named, bad = "", set(), 0
    for line in filter(None, SURFACE.splitlines()):
        if line.startswith("crate "):
            crate = line[6:]
            continue
        for name, form, whole in agreed(line):
            named.add((crate, name))
            found = built.get(crate, {}).get(name, ("", ""))[whole]
            if found != allowed.get((crate, name), form):
                bad += 1
                print(f"{crate} {name}:\n  agreed {form}\n  found  {found or 'nothing'}")
    for crate, name in allowed.keys() - named:
        bad += 1
        print(f"{crate} {name}: it may differ, but isn't of the surface")
    if given.more:
        for crate, items in sorted(built.items()):
            for name, (form, _) in sorted(items.items()):
                if (crate, name) not in named and not name.startswith("impl "):
                    print(f"more: {crate} {name}: {form}")
    print(f"{len(named)} items, {len(allowed)} differ as allowed, {bad} differ otherwise")
    return 1 if bad else 0


if __name__ == "__main__":
    sys.exit(main())
