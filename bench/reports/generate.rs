//! Writes a trace for the bench of reports: `generate TRACE THREADS SEED DEEPEST BLOCKS`.
//!
//! The file has so many full blocks of 16,384 bytes, thread by thread, and 2,040 events in each: with
//! 3,836 blocks 60 MiB and 7,825,440 events. Each thread
//! goes up and down a graph of calls among 50 functions, at most DEEPEST deep, and each exit ends the
//! innermost call. Each function calls three others, so calls that are at most 6 deep have at most
//! 1,092 paths. Wall times rise from block to block, in both seconds and microseconds, so LLVM's
//! reader keeps the blocks in their order. All threads begin at the same counter, since LLVM's
//! account takes no event below the first one.

const BUFFER_LENGTH: usize = 16_384;
const HEADER_LENGTH: usize = 32;
const METADATA_LENGTH: usize = 16;
const FIRST_COUNTER: u64 = 1000;
const FUNCTIONS: u32 = 50;

const NEW_BUFFER: u8 = 0x01;
const NEW_CPU: u8 = 0x05;
const WALL_TIME: u8 = 0x09;
const EXTENTS: u8 = 0x0F;
const PID: u8 = 0x13;
const ENTRY: u32 = 0;
const EXIT: u32 = 1;

/// Random numbers: the upper bits of a linear congruential generator.
struct Draw(u64);

impl Draw {
    fn below(&mut self, bound: u32) -> u32 {
        self.0 = self
            .0
            .wrapping_mul(6_364_136_223_846_793_005)
            .wrapping_add(1_442_695_040_888_963_407);
        (self.0 >> 33) as u32 % bound
    }
}

/// A thread's open calls, how many there may be, its counter, and the number of its blocks.
struct Thread {
    number: u32,
    open: Vec<u32>,
    deepest: usize,
    counter: u64,
    blocks: u64,
}

impl Thread {
    /// The function and the action of the next event, and how far the counter goes on before it.
    fn event(&mut self, draw: &mut Draw) -> (u32, u32, u32) {
        let goes_down = self.open.len() < self.deepest && draw.below(2) == 0;
        let delta = 1 + draw.below(200);
        match self.open.pop() {
            Some(function) if !goes_down => (function, EXIT, delta),
            caller => {
                self.open.extend(caller);
                let function = callee(caller.unwrap_or(0), draw);
                self.open.push(function);
                (function, ENTRY, delta)
            }
        }
    }
}

/// What a function calls: mostly one function, and rarely one of two others.
fn callee(caller: u32, draw: &mut Draw) -> u32 {
    let choice = match draw.below(10) {
        0 => 2,
        1 => 1,
        _ => 0,
    };
    1 + (3 * caller + 7 * choice + 1) % FUNCTIONS
}

fn metadata(file: &mut Vec<u8>, first: u8, fields: &[&[u8]]) {
    let end = file.len() + METADATA_LENGTH;
    file.push(first);
    for field in fields {
        file.extend_from_slice(field);
    }
    file.resize(end, 0);
}

/// Appends a full block of a thread.
fn block(file: &mut Vec<u8>, thread: &mut Thread, draw: &mut Draw) {
    let wall = thread.blocks;
    metadata(file, EXTENTS, &[&(BUFFER_LENGTH as u64).to_le_bytes()]);
    let end = file.len() + BUFFER_LENGTH;
    metadata(file, NEW_BUFFER, &[&thread.number.to_le_bytes()]);
    let micros = wall as u32;
    metadata(
        file,
        WALL_TIME,
        &[&wall.to_le_bytes(), &micros.to_le_bytes()],
    );
    metadata(file, PID, &[&1u32.to_le_bytes()]);
    let cpu = thread.number as u16;
    metadata(
        file,
        NEW_CPU,
        &[&cpu.to_le_bytes(), &thread.counter.to_le_bytes()],
    );
    let mut is_first = wall == 0;
    while file.len() < end {
        let (function, action, delta) = thread.event(draw);
        // The first event of a thread is at the first counter.
        let delta = if is_first { 0 } else { delta };
        is_first = false;
        thread.counter += u64::from(delta);
        file.extend_from_slice(&(function << 4 | action << 1).to_le_bytes());
        file.extend_from_slice(&delta.to_le_bytes());
    }
    thread.blocks += 1;
}

fn header() -> Vec<u8> {
    let mut file = Vec::with_capacity(HEADER_LENGTH);
    file.extend_from_slice(&3u16.to_le_bytes());
    file.extend_from_slice(&1u16.to_le_bytes());
    file.extend_from_slice(&3u32.to_le_bytes());
    file.extend_from_slice(&0u64.to_le_bytes());
    file.extend_from_slice(&(BUFFER_LENGTH as u64).to_le_bytes());
    file.resize(HEADER_LENGTH, 0);
    file
}

fn main() {
    let words: Vec<String> = std::env::args().collect();
    let [_, path, threads, seed, deepest, blocks] = &words[..] else {
        panic!("generate TRACE THREADS SEED DEEPEST BLOCKS");
    };
    let threads: u32 = threads.parse().expect("a number of threads");
    let deepest: usize = deepest.parse().expect("a number of open calls");
    let blocks: u32 = blocks.parse().expect("a number of blocks");
    let mut draw = Draw(seed.parse().expect("a seed"));
    let mut file = header();
    for number in 1..=threads {
        let mut thread = Thread {
            number,
            open: Vec::with_capacity(deepest),
            deepest,
            counter: FIRST_COUNTER,
            blocks: 0,
        };
        for _ in 0..blocks / threads {
            block(&mut file, &mut thread, &mut draw);
        }
    }
    std::fs::write(path, file).expect("a trace that can be written");
}
