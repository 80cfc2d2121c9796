//! The plain machine in ordinary Rust, to measure `xray plain` against: `plain IMAGE THREADS FUEL`.
//!
//! It reads an image without judging it, decodes its units once into steps whose branches are
//! resolved, and runs each thread with a `match` per step, as `machine_step` does. It prints the same
//! text.

use std::fmt::Write;

const RSP: usize = 4;
const R10: usize = 10;
const STACK_LIMIT: usize = 65_536;
const OUTPUT_LIMIT: usize = 65_536;
const PASSINGS_LIMIT: u32 = 1_048_576;
const SLED_LENGTH: usize = 11;

#[derive(Clone, Copy)]
enum Step {
    Mov { dst: u8, imm: u32 },
    Add { dst: u8, src: u8 },
    Sub { dst: u8, src: u8 },
    Push { reg: u8 },
    Pop { reg: u8 },
    Call { target: u32, back: u64 },
    Jmp { target: u32 },
    Jnz { target: u32 },
    Ret,
    Out,
    Passing,
    Leaving,
    Pad,
    Nowhere,
}

struct Image {
    base: u64,
    entry: u32,
    steps: Vec<Step>,
    /// For each byte of the code, the number of the unit that begins there, or that of `Nowhere`.
    places: Vec<u32>,
}

fn number(bytes: &[u8], at: usize, length: usize) -> u64 {
    let mut field = [0; 8];
    field[..length].copy_from_slice(&bytes[at..at + length]);
    u64::from_le_bytes(field)
}

/// What is at a place of the code, and how long it is. Branches name their target's place in the
/// code.
fn decode(code: &[u8], at: usize, base: u64) -> (Step, usize) {
    let distance = |from: usize| number(code, from, 4) as u32 as i32;
    let target = |from: usize| (from as i64 + 4 + i64::from(distance(from))) as u32;
    let wide = usize::from(code[at] == 0x41);
    let high = 8 * wide as u8;
    match code[at..] {
        [0xEB, ..] => (Step::Passing, SLED_LENGTH),
        [0xC3, 0x2E, ..] => (Step::Leaving, SLED_LENGTH),
        [0xC3, ..] => (Step::Ret, 1),
        [0x90, ..] => (Step::Pad, 1),
        [0xE6, ..] => (Step::Out, 2),
        [0xE8, ..] => (
            Step::Call {
                target: target(at + 1),
                back: base + at as u64 + 5,
            },
            5,
        ),
        [0xE9, ..] => (
            Step::Jmp {
                target: target(at + 1),
            },
            5,
        ),
        [0x0F, 0x85, ..] => (
            Step::Jnz {
                target: target(at + 2),
            },
            6,
        ),
        [rex @ 0x48..=0x4D, opcode, registers, ..] => {
            let dst = registers % 8 + 8 * (rex % 2);
            let src = registers / 8 % 8 + 8 * (rex / 4 % 2);
            let step = if opcode == 0x01 {
                Step::Add { dst, src }
            } else {
                Step::Sub { dst, src }
            };
            (step, 3)
        }
        _ => {
            let opcode = code[at + wide];
            let reg = opcode % 8 + high;
            match opcode / 8 * 8 {
                0xB8 => {
                    let imm = number(code, at + wide + 1, 4) as u32;
                    (Step::Mov { dst: reg, imm }, wide + 5)
                }
                0x50 => (Step::Push { reg }, wide + 1),
                _ => (Step::Pop { reg }, wide + 1),
            }
        }
    }
}

fn read(bytes: &[u8]) -> Image {
    let base = number(bytes, 8, 8);
    let code = &bytes[64..64 + number(bytes, 16, 4) as usize];
    let mut steps = Vec::new();
    let mut places = vec![u32::MAX; code.len()];
    let mut at = 0;
    while at < code.len() {
        let (step, length) = decode(code, at, base);
        places[at] = steps.len() as u32;
        steps.push(step);
        at += length;
    }
    let nowhere = steps.len() as u32;
    for place in &mut places {
        *place = (*place).min(nowhere);
    }
    for step in &mut steps {
        if let Step::Call { target, .. } | Step::Jmp { target } | Step::Jnz { target } = step {
            *target = places[*target as usize];
        }
    }
    steps.push(Step::Nowhere);
    // The entry function is the first one of the file.
    let entry = number(bytes, 64 + code.len(), 8) - base;
    Image {
        base,
        entry: places[entry as usize],
        steps,
        places,
    }
}

impl Image {
    fn place_of(&self, address: u64) -> usize {
        let nowhere = self.steps.len() as u32 - 1;
        let Some(at) = address.checked_sub(self.base) else {
            return nowhere as usize;
        };
        self.places.get(at as usize).copied().unwrap_or(nowhere) as usize
    }
}

struct Machine {
    registers: [u64; 16],
    zero_flag: bool,
    stack: Vec<u64>,
    output: Vec<u8>,
    instructions: u64,
    passings: u32,
}

impl Machine {
    fn new(thread: u32) -> Self {
        let mut registers = [0; 16];
        registers[7] = u64::from(thread);
        Machine {
            registers,
            zero_flag: false,
            stack: Vec::with_capacity(STACK_LIMIT),
            output: Vec::with_capacity(OUTPUT_LIMIT),
            instructions: 0,
            passings: 0,
        }
    }

    fn set(&mut self, dst: u8, value: u64) {
        self.registers[usize::from(dst)] = value;
    }

    fn get(&self, src: u8) -> u64 {
        self.registers[usize::from(src)]
    }

    fn compute(&mut self, dst: u8, value: u64) {
        self.set(dst, value);
        self.zero_flag = value == 0;
    }

    /// Runs to the end, and names it.
    fn run(&mut self, image: &Image, fuel: u64) -> &'static str {
        let mut place = image.entry as usize;
        loop {
            let step = &image.steps[place];
            let free = matches!(
                step,
                Step::Passing | Step::Leaving | Step::Pad | Step::Nowhere
            );
            if self.instructions == fuel && !free {
                return "fuel";
            }
            let mut next = place + 1;
            match *step {
                Step::Mov { dst, imm } => self.set(dst, u64::from(imm)),
                Step::Add { dst, src } => {
                    self.compute(dst, self.get(dst).wrapping_add(self.get(src)))
                }
                Step::Sub { dst, src } => {
                    self.compute(dst, self.get(dst).wrapping_sub(self.get(src)))
                }
                Step::Push { reg } => {
                    if self.stack.len() == STACK_LIMIT {
                        return "stack-full";
                    }
                    self.stack.push(self.get(reg));
                }
                Step::Pop { reg } => match self.stack.pop() {
                    None => return "stack-empty",
                    Some(value) => self.set(reg, value),
                },
                Step::Call { target, back } => {
                    if self.stack.len() == STACK_LIMIT {
                        return "stack-full";
                    }
                    self.stack.push(back);
                    next = target as usize;
                }
                Step::Jmp { target } => next = target as usize,
                Step::Jnz { target } => {
                    if !self.zero_flag {
                        next = target as usize;
                    }
                }
                Step::Ret => match self.stack.pop() {
                    None => {
                        self.instructions += 1;
                        return "returned";
                    }
                    Some(address) => next = image.place_of(address),
                },
                Step::Out => {
                    if self.output.len() == OUTPUT_LIMIT {
                        return "output-full";
                    }
                    self.output.push(self.registers[0] as u8);
                }
                Step::Passing | Step::Leaving => {
                    if self.passings == PASSINGS_LIMIT {
                        return "passings";
                    }
                    self.passings += 1;
                    if matches!(step, Step::Passing) {
                        place = next;
                        continue;
                    }
                    if self.instructions == fuel {
                        return "fuel";
                    }
                    match self.stack.pop() {
                        None => {
                            self.instructions += 1;
                            return "returned";
                        }
                        Some(address) => next = image.place_of(address),
                    }
                }
                Step::Pad => {
                    place = next;
                    continue;
                }
                Step::Nowhere => return "bad-target",
            }
            self.instructions += 1;
            place = next;
        }
    }

    fn text(&self, thread: u32, end: &str) -> String {
        const NAMES: [&str; 16] = [
            "rax", "rcx", "rdx", "rbx", "rsp", "rbp", "rsi", "rdi", "r8", "r9", "r10", "r11",
            "r12", "r13", "r14", "r15",
        ];
        let (instructions, passings) = (self.instructions, self.passings);
        let mut text =
            format!("thread {thread} {end} instructions {instructions} passings {passings}\n");
        for (number, name) in NAMES.iter().enumerate() {
            if number != RSP && number != R10 {
                write!(text, "{name}={:x} ", self.registers[number]).unwrap();
            }
        }
        writeln!(text, "zf={}", u8::from(self.zero_flag)).unwrap();
        text.push_str("output ");
        for byte in &self.output {
            write!(text, "{byte:02x}").unwrap();
        }
        if self.output.is_empty() {
            text.push('-');
        }
        text.push('\n');
        text
    }
}

fn main() {
    let words: Vec<String> = std::env::args().collect();
    let image = read(&std::fs::read(&words[1]).unwrap());
    let threads: u32 = words[2].parse().unwrap();
    let fuel: u64 = words[3].parse().unwrap();
    for thread in 1..=threads {
        let mut machine = Machine::new(thread);
        let end = machine.run(&image, fuel);
        print!("{}", machine.text(thread, end));
    }
}
