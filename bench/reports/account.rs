//! The account of a trace in ordinary Rust, to measure `xray account` against: `account TRACE`.
//!
//! It reads a trace without judging it, pairs the calls of each thread on a stack, sorts the
//! durations of each function, and prints the same rows as `xray account --format csv`.

use std::collections::{BTreeMap, HashMap};
use std::fmt::Write;

const HEADER_LENGTH: usize = 32;
const METADATA_LENGTH: usize = 16;
const FUNCTION_LENGTH: usize = 8;

const NEW_BUFFER: u8 = 0;
const NEW_CPU: u8 = 2;
const TSC_WRAP: u8 = 3;

/// The calls of a function, over all threads.
#[derive(Default)]
struct Function {
    durations: Vec<u64>,
    entries: u64,
    exits: u64,
}

/// The open calls of a thread, as functions and counters.
type Stack = Vec<(u32, u64)>;

fn number_64(bytes: &[u8], at: usize) -> u64 {
    u64::from_le_bytes(bytes[at..at + 8].try_into().unwrap())
}

fn number_32(bytes: &[u8], at: usize) -> u32 {
    u32::from_le_bytes(bytes[at..at + 4].try_into().unwrap())
}

/// The functions' calls, by their ids.
fn calls(file: &[u8]) -> BTreeMap<u32, Function> {
    let mut functions: HashMap<u32, Function> = HashMap::new();
    let mut stacks: HashMap<u32, Stack> = HashMap::new();
    let mut stack = &mut Stack::new();
    let mut counter = 0u64;
    let mut at = HEADER_LENGTH;
    while at < file.len() {
        if file[at] % 2 == 1 {
            match file[at] / 2 {
                NEW_BUFFER => stack = stacks.entry(number_32(file, at + 1)).or_default(),
                NEW_CPU => counter = number_64(file, at + 3),
                TSC_WRAP => counter = number_64(file, at + 1),
                _ => {}
            }
            at += METADATA_LENGTH;
            continue;
        }
        let word = number_32(file, at);
        counter = counter.wrapping_add(u64::from(number_32(file, at + 4)));
        at += FUNCTION_LENGTH;
        let id = word >> 4;
        let function = functions.entry(id).or_default();
        if word & 14 == 0 {
            function.entries += 1;
            stack.push((id, counter));
        } else if let Some(level) = stack.iter().rposition(|&(open, _)| open == id) {
            function.entries -= 1;
            function
                .durations
                .push(counter.wrapping_sub(stack[level].1));
            stack.truncate(level);
        } else {
            function.exits += 1;
        }
    }
    functions.into_iter().collect()
}

fn row(id: u32, function: &mut Function) -> String {
    let durations = &mut function.durations;
    durations.sort_unstable();
    let count = durations.len();
    let mut row = format!("{id},{count},");
    if count == 0 {
        row += "-,-,-,-,-,-";
    } else {
        let sum: u128 = durations.iter().map(|&duration| u128::from(duration)).sum();
        let items = [0, count / 2, 9 * count / 10, 99 * count / 100, count - 1];
        for item in items {
            write!(row, "{},", durations[item]).unwrap();
        }
        write!(row, "{sum}").unwrap();
    }
    write!(row, ",{},{},#{id}", function.entries, function.exits).unwrap();
    row
}

fn main() {
    let path = std::env::args().nth(1).expect("account TRACE");
    let file = std::fs::read(path).expect("a trace that can be read");
    println!("funcid,count,min,med,90p,99p,max,sum,entries,exits,function");
    for (id, mut function) in calls(&file) {
        println!("{}", row(id, &mut function));
    }
}
