//! What was compared: how often each call was made, and how often each refusal came.

use check::refusal::NAMES;

pub const CALLS: [&str; 9] =
    ["encode_page", "solve", "read", "write", "reference_time", "replay", "start", "feed", "lines of replay"];

/// Places in CALLS.
pub const ENCODE_PAGE: usize = 0;
pub const SOLVE: usize = 1;
pub const READ: usize = 2;
pub const WRITE: usize = 3;
pub const REFERENCE_TIME: usize = 4;
pub const REPLAY: usize = 5;
pub const START: usize = 6;
pub const FEED: usize = 7;
/// Answers inside replay's logs; these are no calls.
pub const LINES: usize = 8;

/// The refusals that each call can give.
const CAN: [&[usize]; 9] = [
    &[1, 2, 7, 9, 15],
    &[1, 2, 9, 11],
    &[1, 2, 16, 17, 18, 19, 20, 21, 22, 23],
    &[2, 17, 24, 25],
    &[3, 16],
    &[1, 2, 14],
    &[1, 14],
    &[1, 2, 3, 4, 5, 6, 7, 8, 9, 10, 11, 12, 13, 24],
    &[3, 4, 5, 6, 7, 8, 9, 10, 11, 12, 13],
];

/// Refusal numbers, and 0 for none.
const NUMBERS: usize = NAMES.len();

pub struct Table {
    counts: [[u64; NUMBERS]; 9],
    /// READY among the good answers of feed; sizes 1 to 32.
    ready: [u64; 32],
}

impl Table {
    pub fn new() -> Table {
        Table { counts: [[0; NUMBERS]; 9], ready: [0; 32] }
    }

    /// Counts one answer; 0 is no refusal.
    pub fn count(&mut self, call: usize, refusal: usize) {
        self.counts[call][refusal] += 1;
    }

    pub fn count_ready(&mut self, size: usize) {
        self.ready[size - 1] += 1;
    }

    /// Calls made, on each side.
    pub fn calls(&self) -> u64 {
        self.counts[..LINES].iter().flatten().sum()
    }

    /// Refusals that a call can give and that were not seen.
    pub fn unseen(&self) -> Vec<String> {
        let mut unseen = Vec::new();
        for (call, can) in CAN.iter().enumerate() {
            if self.counts[call][0] == 0 {
                unseen.push(format!("{}: no good answer", CALLS[call]));
            }
            for number in can.iter().filter(|number| self.counts[call][**number] == 0) {
                unseen.push(format!("{}: {number} {}", CALLS[call], NAMES[*number]));
            }
        }
        for size in (1..33).filter(|size| self.ready[size - 1] == 0) {
            unseen.push(format!("READY {size}"));
        }
        unseen
    }

    pub fn print(&self) {
        println!("{:<16} {:>9} {:>9}  refused, by number", "call", "answers", "good");
        for (call, counts) in self.counts.iter().enumerate() {
            let all: u64 = counts.iter().sum();
            let refused: Vec<String> =
                (1..NUMBERS).filter(|i| counts[*i] > 0).map(|i| format!("{i}: {}", counts[i])).collect();
            println!("{:<16} {:>9} {:>9}  {}", CALLS[call], all, counts[0], refused.join(", "));
        }
        let ready: u64 = self.ready.iter().sum();
        println!();
        println!("feed: KEPT {}, READY {ready}", self.counts[FEED][0] - ready);
        println!();
        println!("refusal          answers");
        for number in 1..NUMBERS {
            let all: u64 = self.counts.iter().map(|counts| counts[number]).sum();
            println!("{number:>2} {:<10} {all:>10}", NAMES[number]);
        }
    }
}
