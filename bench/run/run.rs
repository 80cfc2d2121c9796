//! What `xray run` does, in ordinary Rust: `run IMAGE SCRIPT TRACE THREADS PASSINGS SIZE MAX TICK TSC CPUS
//! MIGRATE`. If TRACE is `--profile`, it does what `xray profile` does.
//!
//! It reads an image and a script without judging them. Each thread has a core of its own if there
//! is one, loads the words of the sleds that it passes, and records entries and exits in a ring of
//! buffers of its own, MAX / THREADS of SIZE bytes. The patcher stores the words beside them. All
//! loads and stores are `SeqCst`. The progress words are 128 bytes apart. At the end the
//! last buffers of each thread are written to TRACE, and the threads' ends and marks are printed. A
//! profile has a call trie for each thread in place of the ring, and writes no file. It prints a line
//! for each path, with the functions' ids in place of their names.

use std::collections::{BTreeMap, HashMap, VecDeque};
use std::env;
use std::fmt::Write;
use std::fs;
use std::mem;
use std::sync::atomic::{AtomicU64, Ordering::SeqCst};
use std::thread;

const STACK_LIMIT: usize = 65_536;
const SLED_LENGTH: usize = 11;
const FUEL: u64 = 1_000_000_000;
const RDI: usize = 7;

/// A unit of the code. Branches name the number of their target, and sleds their own.
#[derive(Clone, Copy)]
enum Step {
    Mov { dst: usize, imm: u64 },
    Add { dst: usize, src: usize },
    Sub { dst: usize, src: usize },
    Push { reg: usize },
    Pop { reg: usize },
    Call { target: usize, back: usize },
    Jmp { target: usize },
    Jnz { target: usize },
    Ret,
    Enter { sled: usize },
    Leave { sled: usize },
    Pad,
}

/// A sled of the image: whether it is an exit, its function's id, and the offset of its trampoline.
struct Sled {
    is_exit: bool,
    id: u32,
    offset: u32,
}

struct Image {
    steps: Vec<Step>,
    sleds: Vec<Sled>,
}

fn number(bytes: &[u8], at: usize, length: usize) -> u64 {
    let mut field = [0; 8];
    field[..length].copy_from_slice(&bytes[at..at + length]);
    u64::from_le_bytes(field)
}

/// What is at a place of the code, and how long it is. Branches name the place of their target.
fn decode(code: &[u8], at: usize, sled: usize) -> (Step, usize) {
    let target =
        |from: usize| (from as i64 + 4 + number(code, from, 4) as u32 as i32 as i64) as usize;
    match code[at..] {
        [0xEB, ..] => (Step::Enter { sled }, SLED_LENGTH),
        [0xC3, 0x2E, ..] => (Step::Leave { sled }, SLED_LENGTH),
        [0xC3, ..] => (Step::Ret, 1),
        [0x90, ..] => (Step::Pad, 1),
        [0xE8, ..] => (
            Step::Call {
                target: target(at + 1),
                back: at + 5,
            },
            5,
        ),
        [0xE9, ..] => (
            Step::Jmp {
                target: target(at + 1),
            },
            5,
        ),
        [0x0F, 0x85, ..] => (
            Step::Jnz {
                target: target(at + 2),
            },
            6,
        ),
        [0x48, opcode, registers, ..] => {
            let (dst, src) = (registers as usize % 8, registers as usize / 8 % 8);
            match opcode {
                0x01 => (Step::Add { dst, src }, 3),
                _ => (Step::Sub { dst, src }, 3),
            }
        }
        [opcode, ..] => {
            let reg = opcode as usize % 8;
            match opcode / 8 * 8 {
                0xB8 => (
                    Step::Mov {
                        dst: reg,
                        imm: number(code, at + 1, 4),
                    },
                    5,
                ),
                0x50 => (Step::Push { reg }, 1),
                0x58 => (Step::Pop { reg }, 1),
                _ => panic!("the images of the bench have no {opcode:#x}"),
            }
        }
        [] => unreachable!(),
    }
}

/// The image in a file. Threads start at its first function, which is the start of the code.
fn read_image(bytes: &[u8]) -> Image {
    let code = &bytes[64..64 + number(bytes, 16, 4) as usize];
    let (mut steps, mut units, mut sleds, mut at) = (Vec::new(), vec![0; code.len()], 0, 0);
    while at < code.len() {
        let (step, length) = decode(code, at, sleds);
        sleds += usize::from(matches!(step, Step::Enter { .. } | Step::Leave { .. }));
        units[at] = steps.len();
        steps.push(step);
        at += length;
    }
    for step in &mut steps {
        match step {
            Step::Call { target, back } => (*target, *back) = (units[*target], units[*back]),
            Step::Jmp { target } | Step::Jnz { target } => *target = units[*target],
            _ => {}
        }
    }
    let sleds = read_sleds(bytes, sleds);
    Image { steps, sleds }
}

/// The sled map, which is the end of the file.
fn read_sleds(bytes: &[u8], count: usize) -> Vec<Sled> {
    let mut functions = Vec::new();
    let entries = bytes[bytes.len() - 32 * count..].chunks(32);
    entries
        .map(|entry| {
            let (address, function) = (number(entry, 0, 8), number(entry, 8, 8));
            let kind = entry[16] as usize;
            if functions.last() != Some(&function) {
                functions.push(function);
            }
            let trampoline = number(bytes, 32 + 8 * kind, 8);
            Sled {
                is_exit: kind == 1,
                id: functions.len() as u32,
                offset: (trampoline - (address + SLED_LENGTH as u64)) as u32,
            }
        })
        .collect()
}

/// A progress word in its pair of cache lines.
#[repr(align(128))]
struct Progress(AtomicU64);

/// The words that threads share: four for each sled, the handler word and the state word, and the
/// progress words.
struct Table {
    words: Vec<AtomicU64>,
    progress: Vec<Progress>,
}

const PATCHED_HEAD: u64 = 0xBA41;
const INITIALIZED: u64 = 2;

impl Table {
    fn new(image: &Image, threads: usize) -> Table {
        let sleds = image.sleds.iter();
        let parts = sleds.flat_map(|sled| {
            [
                if sled.is_exit { 0x2EC3 } else { 0x09EB },
                0x841F_0F66,
                0,
                512,
            ]
        });
        Table {
            words: parts.chain([0, 0]).map(AtomicU64::new).collect(),
            progress: (0..threads).map(|_| Progress(AtomicU64::new(0))).collect(),
        }
    }

    fn load(&self, word: usize) -> u64 {
        self.words[word].load(SeqCst)
    }

    fn store(&self, word: usize, value: u64) {
        self.words[word].store(value, SeqCst);
    }

    fn handler(&self) -> usize {
        self.words.len() - 2
    }

    fn state(&self) -> usize {
        self.words.len() - 1
    }

    /// Makes the stores of the script's lines, up to `go` or up to their end.
    fn patch<'s>(&self, image: &Image, lines: &mut impl Iterator<Item = &'s str>) {
        for line in lines {
            match line.split(' ').collect::<Vec<_>>()[..] {
                ["go"] => return,
                ["patch"] => self.patch_all(image),
                ["unpatch"] => self.unpatch_all(image),
                ["set_handler"] => self.store(self.handler(), 1),
                ["init"] => {
                    self.store(self.state(), 1);
                    self.store(self.state(), INITIALIZED);
                }
                ["await", thread, count] => {
                    self.wait(thread.parse().unwrap(), count.parse().unwrap())
                }
                _ => panic!("the scripts of the bench have no {line}"),
            }
        }
    }

    fn patch_all(&self, image: &Image) {
        for (at, sled) in image.sleds.iter().enumerate() {
            self.store(4 * at + 1, u64::from(sled.id));
            self.store(4 * at + 2, if sled.is_exit { 0xE9 } else { 0xE8 });
            self.store(4 * at + 3, u64::from(sled.offset));
            self.store(4 * at, PATCHED_HEAD);
        }
    }

    fn unpatch_all(&self, image: &Image) {
        for (at, sled) in image.sleds.iter().enumerate() {
            self.store(4 * at, if sled.is_exit { 0xBAC3 } else { 0x09EB });
        }
    }

    fn wait(&self, thread: usize, count: u64) {
        while self.progress[thread - 1].0.load(SeqCst) < count {
            thread::yield_now();
        }
    }
}

const NEW_BUFFER: u8 = 0x01;
const NEW_CPU: u8 = 0x05;
const TSC_WRAP: u8 = 0x07;
const WALL_TIME: u8 = 0x09;
const PID: u8 = 0x13;

/// What events depend on: the counter's step and start, and the CPUs of the threads.
#[derive(Clone, Copy)]
struct Stamps {
    tick: u64,
    tsc: u64,
    cpus: u32,
    migrate: u32,
}

/// An entry or an exit.
#[derive(Clone, Copy)]
struct Event {
    cpu: u16,
    id: u32,
    is_exit: bool,
    tsc: u64,
}

/// What takes the events of a thread.
trait Recorder: Send {
    fn note(&mut self, event: Event);
}

/// The records of one thread. One buffer is in its hand, which it fills. If an event has no room
/// there, the oldest of the sealed ones is used again.
struct Ring {
    hand: Vec<u8>,
    sealed: VecDeque<Vec<u8>>,
    size: usize,
    thread: u32,
    /// How many segments were begun.
    segments: usize,
    /// The CPU and the counter of the last event in the hand.
    last: Option<(u16, u64)>,
}

impl Ring {
    fn new(thread: u32, size: usize, count: usize) -> Ring {
        Ring {
            hand: Vec::with_capacity(size),
            sealed: (1..count).map(|_| Vec::with_capacity(size)).collect(),
            size,
            thread,
            segments: 0,
            last: None,
        }
    }

    /// Adds the records of an event: its delta, or a record with its whole counter.
    fn put(&mut self, event: Event, base: Result<u32, u8>) {
        let delta = base.unwrap_or_else(|kind| {
            let cpu = u64::from(event.cpu);
            match kind {
                NEW_CPU => self.metadata(kind, &[(1, cpu), (3, event.tsc)]),
                _ => self.metadata(kind, &[(1, event.tsc)]),
            }
            0
        });
        let word = event.id << 4 | u32::from(event.is_exit) << 1;
        self.hand.extend_from_slice(&word.to_le_bytes());
        self.hand.extend_from_slice(&delta.to_le_bytes());
        self.last = Some((event.cpu, event.tsc));
    }

    /// Adds a metadata record with some fields at their places.
    fn metadata(&mut self, kind: u8, fields: &[(usize, u64)]) {
        let mut record = [0; 16];
        record[0] = kind;
        for (at, field) in fields {
            record[*at..at + 8].copy_from_slice(&field.to_le_bytes());
        }
        self.hand.extend_from_slice(&record);
    }

    /// Begins a segment in the oldest buffer, with its preamble.
    fn begin(&mut self) {
        if self.segments > 0 {
            self.sealed.push_back(mem::take(&mut self.hand));
            self.hand = self.sealed.pop_front().unwrap();
        }
        self.hand.clear();
        self.segments += 1;
        self.metadata(NEW_BUFFER, &[(1, u64::from(self.thread))]);
        self.metadata(WALL_TIME, &[(1, 0)]);
        self.metadata(PID, &[(1, 1)]);
    }

    /// The buffers that hold a segment, the oldest first.
    fn kept(&self) -> impl Iterator<Item = &Vec<u8>> {
        let all = self.sealed.iter().chain([&self.hand]);
        all.filter(|buffer| !buffer.is_empty())
    }
}

impl Recorder for Ring {
    fn note(&mut self, event: Event) {
        let base = match self.last {
            Some((cpu, tsc)) if cpu == event.cpu && event.tsc >= tsc => {
                u32::try_from(event.tsc - tsc).map_err(|_| TSC_WRAP)
            }
            Some((cpu, _)) if cpu == event.cpu => Err(TSC_WRAP),
            _ => Err(NEW_CPU),
        };
        let needed = if base.is_ok() { 8 } else { 24 };
        if self.segments == 0 || self.hand.len() + needed > self.size {
            self.begin();
            self.put(event, Err(NEW_CPU));
        } else {
            self.put(event, base);
        }
    }
}

/// A path on which functions were called: the path without its last function, that function, and
/// what is counted of the calls on it.
struct Node {
    parent: u32,
    id: u32,
    count: u64,
    own: u128,
}

/// An open call.
struct Call {
    node: u32,
    id: u32,
    tsc: u64,
    /// The time that was spent in the calls that were made directly in it.
    spent: u64,
}

/// The call trie of one thread.
struct Trie {
    /// The nodes by their parents and their functions. The root has number 0.
    children: HashMap<(u32, u32), u32>,
    nodes: Vec<Node>,
    open: Vec<Call>,
}

impl Trie {
    fn new() -> Trie {
        let root = Node {
            parent: 0,
            id: 0,
            count: 0,
            own: 0,
        };
        Trie {
            children: HashMap::new(),
            nodes: vec![root],
            open: Vec::new(),
        }
    }

    fn enter(&mut self, event: Event) {
        let (parent, id) = (self.open.last().map_or(0, |call| call.node), event.id);
        let nodes = &mut self.nodes;
        let node = *self.children.entry((parent, id)).or_insert_with(|| {
            nodes.push(Node {
                parent,
                id,
                count: 0,
                own: 0,
            });
            nodes.len() as u32 - 1
        });
        self.open.push(Call {
            node,
            id,
            tsc: event.tsc,
            spent: 0,
        });
    }

    fn leave(&mut self, event: Event) {
        let Some(at) = self.open.iter().rposition(|call| call.id == event.id) else {
            return;
        };
        let call = &self.open[at];
        let duration = event.tsc.wrapping_sub(call.tsc);
        let node = &mut self.nodes[call.node as usize];
        node.count += 1;
        node.own += u128::from(duration.saturating_sub(call.spent));
        self.open.truncate(at);
        if let Some(caller) = self.open.last_mut() {
            caller.spent += duration;
        }
    }

    fn path(&self, mut node: u32) -> Vec<u32> {
        let mut path = Vec::new();
        while node != 0 {
            path.push(self.nodes[node as usize].id);
            node = self.nodes[node as usize].parent;
        }
        path.reverse();
        path
    }
}

impl Recorder for Trie {
    fn note(&mut self, event: Event) {
        if event.is_exit {
            self.leave(event);
        } else {
            self.enter(event);
        }
    }
}

/// A line for each path that has a pair, over all tries.
fn stacks<'t>(tries: impl Iterator<Item = &'t Trie>) -> String {
    let mut rows: BTreeMap<Vec<u32>, u128> = BTreeMap::new();
    for trie in tries {
        for (number, node) in trie.nodes.iter().enumerate() {
            if node.count > 0 {
                *rows.entry(trie.path(number as u32)).or_default() += node.own;
            }
        }
    }
    let mut text = String::new();
    for (path, own) in rows {
        let names: Vec<String> = path.iter().map(|id| format!("#{id}")).collect();
        writeln!(text, "{} {own}", names.join(";")).unwrap();
    }
    text
}

/// A thread of the machine, in pairs of cache lines of its own.
#[repr(align(128))]
struct Machine<'i, R> {
    image: &'i Image,
    table: &'i Table,
    number: usize,
    stamps: Stamps,
    registers: [u64; 8],
    zero_flag: bool,
    /// What calls push are the numbers of units.
    stack: Vec<u64>,
    instructions: u64,
    passings: u32,
    marks: Vec<u8>,
    recorder: R,
}

impl<'i, R: Recorder> Machine<'i, R> {
    fn new(
        image: &'i Image,
        table: &'i Table,
        stamps: Stamps,
        passings: u32,
        number: usize,
        recorder: R,
    ) -> Self {
        let mut registers = [0; 8];
        registers[RDI] = number as u64;
        Machine {
            image,
            table,
            number,
            stamps,
            registers,
            zero_flag: false,
            stack: Vec::with_capacity(STACK_LIMIT),
            instructions: 0,
            passings,
            marks: Vec::with_capacity(passings as usize),
            recorder,
        }
    }

    /// Runs to the end, and names it.
    fn run(&mut self) -> &'static str {
        let mut at = 0;
        loop {
            let step = self.image.steps[at];
            let mut next = at + 1;
            match step {
                Step::Enter { sled } | Step::Leave { sled } => {
                    if self.marks.len() == self.passings as usize {
                        return "passings";
                    }
                    self.pass(sled);
                    if matches!(step, Step::Enter { .. }) {
                        at = next;
                        continue;
                    }
                }
                Step::Pad => {
                    at = next;
                    continue;
                }
                _ => {}
            }
            if self.instructions == FUEL {
                return "fuel";
            }
            match step {
                Step::Mov { dst, imm } => self.registers[dst] = imm,
                Step::Add { dst, src } => {
                    self.compute(dst, self.registers[dst].wrapping_add(self.registers[src]))
                }
                Step::Sub { dst, src } => {
                    self.compute(dst, self.registers[dst].wrapping_sub(self.registers[src]))
                }
                Step::Push { reg } => {
                    if !self.push(self.registers[reg]) {
                        return "stack-full";
                    }
                }
                Step::Pop { reg } => match self.stack.pop() {
                    None => return "stack-empty",
                    Some(value) => self.registers[reg] = value,
                },
                Step::Call { target, back } => {
                    if !self.push(back as u64) {
                        return "stack-full";
                    }
                    next = target;
                }
                Step::Jmp { target } => next = target,
                Step::Jnz { target } if !self.zero_flag => next = target,
                Step::Jnz { .. } => {}
                Step::Ret | Step::Leave { .. } => match self.stack.pop() {
                    None => {
                        self.instructions += 1;
                        return "returned";
                    }
                    Some(back) => next = back as usize,
                },
                Step::Enter { .. } | Step::Pad => unreachable!(),
            }
            self.instructions += 1;
            at = next;
        }
    }

    fn compute(&mut self, dst: usize, value: u64) {
        self.registers[dst] = value;
        self.zero_flag = value == 0;
    }

    fn push(&mut self, value: u64) -> bool {
        let has_room = self.stack.len() < STACK_LIMIT;
        if has_room {
            self.stack.push(value);
        }
        has_room
    }

    /// Makes the loads of a passing, and counts it.
    fn pass(&mut self, sled: usize) {
        let mark = self.mark(sled);
        if mark == b'+' {
            let event = self.event(sled);
            self.recorder.note(event);
        }
        self.marks.push(mark);
        self.table.progress[self.number - 1]
            .0
            .store(self.marks.len() as u64, SeqCst);
    }

    /// What a passing of a sled records.
    fn event(&self, sled: usize) -> Event {
        let Stamps {
            tick,
            tsc,
            cpus,
            migrate,
        } = self.stamps;
        let Sled { is_exit, id, .. } = self.image.sleds[sled];
        Event {
            cpu: ((self.number as u32 + self.marks.len() as u32 / migrate) % cpus) as u16,
            id,
            is_exit,
            tsc: tsc.wrapping_add(tick.wrapping_mul(self.instructions)),
        }
    }

    fn mark(&self, sled: usize) -> u8 {
        if self.table.load(4 * sled) != PATCHED_HEAD {
            return b'.';
        }
        for part in 1..4 {
            self.table.load(4 * sled + part);
        }
        if self.table.load(self.table.handler()) == 0 {
            return b'n';
        }
        if self.table.load(self.table.state()) == INITIALIZED {
            b'+'
        } else {
            b'f'
        }
    }

    /// Runs to the end, reports that to the patcher, and answers what is printed.
    fn finish(&mut self) -> String {
        let end = self.run();
        self.table.progress[self.number - 1]
            .0
            .store(u64::MAX, SeqCst);
        let (number, instructions, passings) = (self.number, self.instructions, self.marks.len());
        let mut text =
            format!("thread {number} {end} instructions {instructions} passings {passings}\nmarks");
        for run in self.marks.chunk_by(|one, two| one == two) {
            write!(text, " {}{}", run[0] as char, run.len()).unwrap();
        }
        text + "\n"
    }
}

/// The bytes of the trace file.
fn trace(size: usize, rings: &[Ring]) -> Vec<u8> {
    let mut bytes = vec![3, 0, 1, 0, 3, 0, 0, 0];
    bytes.extend_from_slice(&[0; 8]);
    bytes.extend_from_slice(&(size as u64).to_le_bytes());
    bytes.extend_from_slice(&[0; 8]);
    for buffer in rings.iter().flat_map(Ring::kept) {
        bytes.push(0x0F);
        bytes.extend_from_slice(&(buffer.len() as u64).to_le_bytes());
        bytes.extend_from_slice(&[0; 7]);
        bytes.extend_from_slice(buffer);
    }
    bytes
}

/// What threads are run with.
struct Run<'r> {
    image: &'r Image,
    script: &'r str,
    threads: usize,
    passings: u32,
    stamps: Stamps,
}

impl Run<'_> {
    /// Runs the threads beside the script. What they print, and their recorders.
    fn threads<R: Recorder>(&self, recorder: impl Fn(usize) -> R) -> (String, Vec<R>) {
        let mut lines = self.script.lines();
        let table = Table::new(self.image, self.threads);
        table.patch(self.image, &mut lines);
        let machine = |number| {
            Machine::new(
                self.image,
                &table,
                self.stamps,
                self.passings,
                number,
                recorder(number),
            )
        };
        let mut machines: Vec<Machine<R>> = (1..=self.threads).map(machine).collect();
        let texts: Vec<String> = thread::scope(|scope| {
            let running: Vec<_> = machines
                .iter_mut()
                .map(|machine| scope.spawn(|| machine.finish()))
                .collect();
            table.patch(self.image, &mut lines);
            running
                .into_iter()
                .map(|thread| thread.join().unwrap())
                .collect()
        });
        let recorders = machines
            .into_iter()
            .map(|machine| machine.recorder)
            .collect();
        (texts.concat(), recorders)
    }
}

fn main() {
    let words: Vec<String> = env::args().collect();
    let numbers: Vec<usize> = words[4..]
        .iter()
        .map(|word| word.parse().unwrap())
        .collect();
    let [threads, passings, size, max, tick, tsc, cpus, migrate] = numbers[..] else {
        panic!("usage: run IMAGE SCRIPT TRACE THREADS PASSINGS SIZE MAX TICK TSC CPUS MIGRATE");
    };
    let stamps = Stamps {
        tick: tick as u64,
        tsc: tsc as u64,
        cpus: cpus as u32,
        migrate: migrate as u32,
    };
    let image = read_image(&fs::read(&words[1]).unwrap());
    let script = fs::read_to_string(&words[2]).unwrap();
    let run = Run {
        image: &image,
        script: &script,
        threads,
        passings: passings as u32,
        stamps,
    };
    if words[3] == "--profile" {
        let (texts, tries) = run.threads(|_| Trie::new());
        print!("{texts}{}", stacks(tries.iter()));
    } else {
        let (texts, rings) = run.threads(|number| Ring::new(number as u32, size, max / threads));
        fs::write(&words[3], trace(size, &rings)).unwrap();
        print!("{texts}");
    }
}
