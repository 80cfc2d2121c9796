//! The import of a log in ordinary Rust, to measure `xray import` against: `import LOG TRACE`.
//!
//! It reads a log of the Flight Data Recorder mode, version 3 or 5, and judges each record. It leaves
//! out the blocks whose bytes stood before and those without events, orders the others, and packs
//! their events again. It writes the same trace as `xray import`, and prints the same lines.

use std::collections::HashSet;
use std::process::ExitCode;

const HEADER_LENGTH: usize = 32;
const METADATA_LENGTH: usize = 16;
const FUNCTION_LENGTH: usize = 8;
const PREAMBLE_LENGTH: usize = 3 * METADATA_LENGTH;
const LARGEST_BLOCK: usize = 1 << 20;

const NEW_BUFFER: u8 = 0x01;
const NEW_CPU: u8 = 0x05;
const TSC_WRAP: u8 = 0x07;
const WALL_TIME: u8 = 0x09;
const CUSTOM: u8 = 0x0B;
const ARGUMENT: u8 = 0x0D;
const EXTENTS: u8 = 0x0F;
const TYPED: u8 = 0x11;
const PID: u8 = 0x13;
const ENTRY_ARGS: u32 = 3;

#[derive(Clone, Copy)]
struct Event {
    counter: u64,
    argument: u64,
    function: u32,
    action: u32,
    cpu: u16,
}

/// What a record within a block says.
enum Record {
    Cpu(u16, u64),
    Wrap(u64),
    Function {
        action: u32,
        function: u32,
        delta: u32,
    },
    Argument(u64),
    Own {
        delta: u32,
        is_typed: bool,
    },
}

struct Block<'a> {
    begin: usize,
    /// The bytes after the extents.
    content: &'a [u8],
    thread: u32,
    wall: (u64, u32),
    pid: u32,
    /// The counter of the first event.
    first: Option<u64>,
}

#[derive(Default)]
struct Facts {
    blocks: u64,
    threads: u64,
    events: u64,
    arguments: u64,
    custom: u64,
    typed: u64,
    doubled: u64,
    empty: u64,
    first: Option<u64>,
    last: Option<u64>,
    back: u64,
}

fn number_16(bytes: &[u8], at: usize) -> u16 {
    u16::from_le_bytes(bytes[at..at + 2].try_into().unwrap())
}

fn number_32(bytes: &[u8], at: usize) -> u32 {
    u32::from_le_bytes(bytes[at..at + 4].try_into().unwrap())
}

fn number_64(bytes: &[u8], at: usize) -> u64 {
    u64::from_le_bytes(bytes[at..at + 8].try_into().unwrap())
}

/// The record that bytes begin with, and its length.
fn record(version: u16, bytes: &[u8]) -> Option<(Record, usize)> {
    let first = bytes[0];
    if first % 2 == 0 {
        let word = number_32(bytes.get(..FUNCTION_LENGTH)?, 0);
        let action = word >> 1 & 7;
        let found = Record::Function {
            action,
            function: word >> 4,
            delta: number_32(bytes, 4),
        };
        return (action <= ENTRY_ARGS).then_some((found, FUNCTION_LENGTH));
    }
    let fields = &bytes.get(..METADATA_LENGTH)?[1..];
    let size = number_32(fields, 0) as usize;
    let delta = if version == 5 {
        number_32(fields, 4)
    } else {
        0
    };
    match first {
        NEW_CPU => Some((
            Record::Cpu(number_16(fields, 0), number_64(fields, 2)),
            METADATA_LENGTH,
        )),
        TSC_WRAP => Some((Record::Wrap(number_64(fields, 0)), METADATA_LENGTH)),
        ARGUMENT => Some((Record::Argument(number_64(fields, 0)), METADATA_LENGTH)),
        CUSTOM | TYPED if first == CUSTOM || version == 5 => Some((
            Record::Own {
                delta,
                is_typed: first == TYPED,
            },
            METADATA_LENGTH + size,
        )),
        _ => None,
    }
}

/// The events of a block, one after the other. They end with `None` at a fault too, and then not all
/// bytes are passed.
struct Events<'a> {
    version: u16,
    bytes: &'a [u8],
    base: Option<(u16, u64)>,
    /// The last record is an entry whose argument may follow, or an argument.
    may_argue: bool,
    /// An entry whose argument may follow.
    entry: Option<Event>,
    custom: u64,
    typed: u64,
}

impl<'a> Events<'a> {
    fn new(version: u16, content: &'a [u8]) -> Self {
        Events {
            version,
            bytes: &content[PREAMBLE_LENGTH..],
            base: None,
            may_argue: false,
            entry: None,
            custom: 0,
            typed: 0,
        }
    }

    fn next(&mut self) -> Option<Event> {
        while !self.bytes.is_empty() {
            let (found, length) = record(self.version, self.bytes)?;
            let rest = self.bytes.get(length..)?;
            let due = self.entry.take();
            match found {
                Record::Cpu(cpu, counter) => {
                    self.base = Some((cpu, counter));
                    self.may_argue = false;
                }
                Record::Argument(argument) => {
                    if !self.may_argue {
                        return None;
                    }
                    self.bytes = rest;
                    match due {
                        Some(entry) => return Some(Event { argument, ..entry }),
                        None => continue,
                    }
                }
                Record::Wrap(counter) => {
                    self.base = Some((self.base?.0, counter));
                    self.may_argue = false;
                }
                Record::Own { delta, is_typed } => {
                    let (cpu, counter) = self.base?;
                    self.base = Some((cpu, counter.wrapping_add(u64::from(delta))));
                    self.may_argue = false;
                    self.custom += u64::from(!is_typed);
                    self.typed += u64::from(is_typed);
                }
                Record::Function {
                    action,
                    function,
                    delta,
                } => {
                    if due.is_some() {
                        // The record is read again, once the entry before it is given.
                        self.may_argue = false;
                        return due;
                    }
                    let (cpu, counter) = self.base?;
                    let counter = counter.wrapping_add(u64::from(delta));
                    self.base = Some((cpu, counter));
                    self.bytes = rest;
                    let event = Event {
                        counter,
                        argument: 0,
                        function,
                        action,
                        cpu,
                    };
                    self.may_argue = action == ENTRY_ARGS;
                    if !self.may_argue {
                        return Some(event);
                    }
                    self.entry = Some(event);
                    continue;
                }
            }
            self.bytes = rest;
            if due.is_some() {
                return due;
            }
        }
        self.entry.take()
    }
}

/// The blocks of a log, in the order of the file.
fn blocks<'a>(version: u16, log: &'a [u8], facts: &mut Facts) -> Option<Vec<Block<'a>>> {
    let mut blocks = Vec::new();
    let mut begin = HEADER_LENGTH;
    while begin < log.len() {
        let extents = log.get(begin..begin + METADATA_LENGTH)?;
        let size = usize::try_from(number_64(extents, 1)).ok()?;
        let content = log[begin + METADATA_LENGTH..].get(..size)?;
        if extents[0] != EXTENTS || size < PREAMBLE_LENGTH {
            return None;
        }
        let firsts = [
            content[0],
            content[METADATA_LENGTH],
            content[2 * METADATA_LENGTH],
        ];
        if firsts != [NEW_BUFFER, WALL_TIME, PID] {
            return None;
        }
        let mut events = Events::new(version, content);
        let first = events.next().map(|event| event.counter);
        while events.next().is_some() {}
        if !events.bytes.is_empty() {
            return None;
        }
        facts.custom += events.custom;
        facts.typed += events.typed;
        blocks.push(Block {
            begin,
            content,
            thread: number_32(content, 1),
            wall: (
                number_64(content, METADATA_LENGTH + 1),
                number_32(content, METADATA_LENGTH + 9),
            ),
            pid: number_32(content, 2 * METADATA_LENGTH + 1),
            first,
        });
        begin += METADATA_LENGTH + size;
    }
    Some(blocks)
}

fn metadata(file: &mut Vec<u8>, first: u8, fields: &[&[u8]]) {
    let end = file.len() + METADATA_LENGTH;
    file.push(first);
    for field in fields {
        file.extend_from_slice(field);
    }
    file.resize(end, 0);
}

/// Begins a block of a trace. Its extents are written once its length is known.
fn begin(file: &mut Vec<u8>, block: &Block) {
    metadata(file, EXTENTS, &[]);
    metadata(file, NEW_BUFFER, &[&block.thread.to_le_bytes()]);
    let (seconds, micros) = block.wall;
    let wall: [&[u8]; 2] = [&seconds.to_le_bytes(), &micros.to_le_bytes()];
    metadata(file, WALL_TIME, &wall);
    metadata(file, PID, &[&block.pid.to_le_bytes()]);
}

fn end(file: &mut [u8], from: usize) {
    let length = (file.len() - from - METADATA_LENGTH) as u64;
    file[from + 1..from + 9].copy_from_slice(&length.to_le_bytes());
}

/// How many bytes the records of an event have after another one of its block, and its delta if the
/// function record is the first.
fn lead(last: Option<Event>, event: Event) -> (usize, Option<u32>) {
    let delta = last
        .filter(|last| last.cpu == event.cpu)
        .and_then(|last| event.counter.checked_sub(last.counter))
        .and_then(|delta| u32::try_from(delta).ok());
    let argument = METADATA_LENGTH * usize::from(event.action == ENTRY_ARGS);
    let before = METADATA_LENGTH * usize::from(delta.is_none());
    (before + FUNCTION_LENGTH + argument, delta)
}

fn put(file: &mut Vec<u8>, last: Option<Event>, event: Event, delta: Option<u32>) {
    let counter = event.counter.to_le_bytes();
    if delta.is_none() {
        match last {
            Some(last) if last.cpu == event.cpu => metadata(file, TSC_WRAP, &[&counter]),
            _ => metadata(file, NEW_CPU, &[&event.cpu.to_le_bytes(), &counter]),
        }
    }
    let word = event.function << 4 | event.action << 1;
    file.extend_from_slice(&word.to_le_bytes());
    file.extend_from_slice(&delta.unwrap_or(0).to_le_bytes());
    if event.action == ENTRY_ARGS {
        metadata(file, ARGUMENT, &[&event.argument.to_le_bytes()]);
    }
}

/// Packs the events of a block as one block or as several.
fn pack(file: &mut Vec<u8>, version: u16, block: &Block, mut note: impl FnMut(Event)) {
    let mut from = file.len();
    begin(file, block);
    let mut last = None;
    let mut events = Events::new(version, block.content);
    while let Some(event) = events.next() {
        note(event);
        let (length, mut delta) = lead(last, event);
        if file.len() - from - METADATA_LENGTH + length > LARGEST_BLOCK {
            end(file, from);
            from = file.len();
            begin(file, block);
            (last, delta) = (None, None);
        }
        put(file, last, event, delta);
        last = Some(event);
    }
    end(file, from);
}

/// The trace of the blocks of a log that are taken.
fn trace(version: u16, log: &[u8], mut blocks: Vec<Block>, facts: &mut Facts) -> Vec<u8> {
    let mut seen = HashSet::new();
    let all = blocks.len();
    blocks.retain(|block| seen.insert(block.content));
    facts.doubled = (all - blocks.len()) as u64;
    let once = blocks.len();
    blocks.retain(|block| block.first.is_some());
    facts.empty = (once - blocks.len()) as u64;
    blocks.sort_by_key(|block| (block.thread, block.wall, block.first, block.begin));
    facts.blocks = blocks.len() as u64;
    let mut file = Vec::with_capacity(log.len());
    file.extend_from_slice(&log[..HEADER_LENGTH]);
    file[..2].copy_from_slice(&3u16.to_le_bytes());
    let (mut of, mut last, mut is_back) = (None, 0, false);
    for block in &blocks {
        if of != Some(block.thread) {
            (of, last, is_back) = (Some(block.thread), 0, false);
            facts.threads += 1;
        }
        pack(&mut file, version, block, |event| {
            facts.events += 1;
            facts.arguments += u64::from(event.action == ENTRY_ARGS);
            facts.first = Some(facts.first.map_or(event.counter, |n| n.min(event.counter)));
            facts.last = Some(facts.last.map_or(event.counter, |n| n.max(event.counter)));
            facts.back += u64::from(event.counter < last && !is_back);
            is_back |= event.counter < last;
            last = event.counter;
        });
    }
    file
}

fn print(facts: &Facts) {
    let counter = |number: Option<u64>| number.map_or("-".to_string(), |number| number.to_string());
    let lines = [
        (facts.blocks.to_string(), "blocks"),
        (facts.threads.to_string(), "threads"),
        (facts.events.to_string(), "events"),
        (facts.arguments.to_string(), "entries with arguments"),
        (facts.custom.to_string(), "custom events left out"),
        (facts.typed.to_string(), "typed events left out"),
        (facts.doubled.to_string(), "doubled blocks left out"),
        (facts.empty.to_string(), "empty blocks left out"),
        (counter(facts.first), "first counter"),
        (counter(facts.last), "last counter"),
        (facts.back.to_string(), "threads whose counter goes back"),
    ];
    for (number, what) in lines {
        println!("{number:>20} {what}");
    }
}

fn main() -> ExitCode {
    let words: Vec<String> = std::env::args().collect();
    let [_, from, to] = &words[..] else {
        panic!("import LOG TRACE");
    };
    let log = std::fs::read(from).expect("a log that can be read");
    let version = number_16(&log, 0);
    let mut facts = Facts::default();
    let Some(blocks) = blocks(version, &log, &mut facts) else {
        eprintln!("no log");
        return ExitCode::FAILURE;
    };
    let file = trace(version, &log, blocks, &mut facts);
    std::fs::write(to, file).expect("a trace that can be written");
    print(&facts);
    ExitCode::SUCCESS
}
