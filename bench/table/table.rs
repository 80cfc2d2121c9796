//! What `table_bench` does, in ordinary Rust: `table THREADS SLEDS LINES PACE ROUNDS`.
//!
//! The words are `AtomicU64`, stored and loaded with `SeqCst`: four for each sled, then the handler
//! word, the state word, a release word for each thread, and the argument handler's word. The
//! progress words are 128 bytes apart. Each thread loads each word, in order, as often as
//! ROUNDS says, and stores the number of its rounds after each. LINES times the patcher waits until
//! the first thread has made PACE more rounds, patches all sleds and unpatches them.

use std::env;
use std::iter;
use std::sync::atomic::{AtomicU64, Ordering::SeqCst};
use std::thread;

/// A progress word in its pair of cache lines.
#[repr(align(128))]
struct Progress(AtomicU64);

/// The words that threads share.
struct Table {
    words: Vec<AtomicU64>,
    progress: Vec<Progress>,
}

const UNPATCHED: [u64; 4] = [0x09EB, 0x841F_0F66, 0, 512];
const PATCHED: [u64; 4] = [0xBA41, 1, 0xE8, 0x1F_FFF5];
/// The order in which the parts of a sled are stored: the head comes last.
const ORDER: [usize; 4] = [1, 2, 3, 0];

impl Table {
    fn new(threads: usize, sleds: usize) -> Table {
        let parts = UNPATCHED.into_iter().cycle().take(4 * sleds);
        let words = parts.chain(iter::repeat_n(0, 3 + threads));
        Table {
            words: words.map(AtomicU64::new).collect(),
            progress: (0..threads).map(|_| Progress(AtomicU64::new(0))).collect(),
        }
    }

    /// Patches and unpatches all sleds, LINES times, and answers how many micro steps that took.
    fn patch(&self, sleds: usize, lines: u64, pace: u64) -> u64 {
        let mut steps = 0;
        for line in 1..=lines {
            while self.progress[0].0.load(SeqCst) < line * pace {
                thread::yield_now();
            }
            for sled in 0..sleds {
                for part in ORDER {
                    self.words[4 * sled + part].store(PATCHED[part], SeqCst);
                }
            }
            for sled in 0..sleds {
                self.words[4 * sled].store(UNPATCHED[0], SeqCst);
            }
            steps += 1 + 5 * sleds as u64;
        }
        steps
    }

    /// Loads all words again and again, and answers the bits of all values.
    fn fetch(&self, thread: usize, rounds: u64) -> u64 {
        let mut found = 0;
        for round in 1..=rounds {
            for word in 0..self.words.len() {
                found |= self.words[word].load(SeqCst);
            }
            self.progress[thread].0.store(round, SeqCst);
        }
        self.progress[thread].0.store(u64::MAX, SeqCst);
        found
    }
}

fn main() {
    let numbers: Vec<u64> = env::args().skip(1).map(|word| word.parse().expect("a number")).collect();
    let &[threads, sleds, lines, pace, rounds] = &numbers[..] else {
        panic!("usage: table THREADS SLEDS LINES PACE ROUNDS");
    };
    let table = &Table::new(threads as usize, sleds as usize);
    let steps = thread::scope(|scope| {
        let fetchers: Vec<_> = (0..threads as usize)
            .map(|thread| scope.spawn(move || table.fetch(thread, rounds)))
            .collect();
        let steps = table.patch(sleds as usize, lines, pace);
        for fetcher in fetchers {
            assert!(fetcher.join().expect("the thread's end") <= 0xFFFF_FFFF);
        }
        steps
    });
    println!("threads {threads} micro steps {steps}");
}
