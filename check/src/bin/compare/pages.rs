//! Inputs for encode_page, solve and reference_time.

use crate::both::{Both, Compared};
use check::code::{content, legal, CONTENT, MOST_OCTETS, MOST_PAGES};
use check::inputs::random::Random;
use check::page::PAGE_OCTETS;
use check::time::LAST_SECOND;

/// Numbers that are too wide for their field, and that would fit if they were cut.
const WIDE: [u64; 8] = [32, 33, 256, 257, 289, 1 << 32, 1 << 32 | 1, u64::MAX];

pub fn encode_pages(both: &mut Both, random: &mut Random, rounds: usize) -> Compared<()> {
    // Every size with every page number.
    for size in 1..=MOST_PAGES {
        let message = random.octets(size * CONTENT);
        for page in 0..=257 {
            both.encode_page(&message, page % 2, (page + size as u64) % 32, page, PAGE_OCTETS)?;
        }
    }
    // Every wrong length of message and of buffer.
    let long = random.octets(MOST_OCTETS + 120);
    for n in 0..=long.len() {
        both.encode_page(&long[..n], 1, 3, 33, PAGE_OCTETS)?;
    }
    for m in 0..200 {
        both.encode_page(&long[..106], 1, 3, 33, m)?;
    }
    // Every status, number and wide number.
    for value in (0..70).chain(WIDE) {
        both.encode_page(&long[..106], value, 3, 33, PAGE_OCTETS)?;
        both.encode_page(&long[..106], 1, value, 33, PAGE_OCTETS)?;
        both.encode_page(&long[..106], 1, 3, value, PAGE_OCTETS)?;
    }
    for _ in 0..rounds {
        encode_one(both, random)?;
    }
    Ok(())
}

/// A good call, or one with some wrong values side by side.
fn encode_one(both: &mut Both, random: &mut Random) -> Compared<()> {
    let size = random.between(1, MOST_PAGES);
    let mut message = random.octets(size * CONTENT);
    let mut status = random.below(2) as u64;
    let mut number = random.below(32) as u64;
    let mut page = legal_number(random, size) as u64;
    let mut m = PAGE_OCTETS;
    if random.once_in(4) {
        for _ in 0..random.between(1, 3) {
            match random.below(5) {
                0 => message.truncate(random.below(message.len().max(1))),
                1 => m = random.below(120),
                2 => status = random.pick(&[2, 3, 4, 1 << 32, u64::MAX]),
                3 => number = random.pick(&WIDE),
                _ => page = random.pick(&[0, size as u64 + 1, 32, 256, 1 << 32 | 40, u64::MAX]),
            }
        }
    }
    both.encode_page(&message, status, number, page, m).map(drop)
}

fn legal_number(random: &mut Random, size: usize) -> u8 {
    let n = random.below(size + 223);
    if n < size {
        n as u8 + 1
    } else {
        (n - size) as u8 + 33
    }
}

fn legal_numbers(random: &mut Random, size: usize) -> Vec<u8> {
    let mut numbers: Vec<u8> = (1..=255).filter(|n| legal(size, *n as u64)).collect();
    random.shuffle(&mut numbers);
    numbers.truncate(size);
    numbers
}

pub fn solves(both: &mut Both, random: &mut Random, rounds: usize) -> Compared<()> {
    // Every number for one page, every pair for two.
    let contents = random.octets(2 * CONTENT);
    for a in 0..=255 {
        both.solve(&contents[..CONTENT], &[a], MOST_OCTETS)?;
        for b in 0..=255 {
            both.solve(&contents, &[a, b], MOST_OCTETS)?;
        }
    }
    // Every length of contents, numbers and buffer.
    let long = random.octets(MOST_OCTETS + 120);
    let numbers: Vec<u8> = (100..140).collect();
    for n in 0..=long.len() {
        both.solve(&long[..n], &numbers[..n.div_ceil(CONTENT)], MOST_OCTETS)?;
    }
    for k in 0..=numbers.len() {
        both.solve(&long[..3 * CONTENT], &numbers[..k], MOST_OCTETS)?;
        both.solve(&long[..(k * CONTENT).min(long.len())], &numbers[..k], MOST_OCTETS)?;
    }
    for m in 0..MOST_OCTETS + 100 {
        both.solve(&long[..CONTENT], &numbers[..1], m)?;
    }
    for _ in 0..rounds {
        solve_one(both, random)?;
    }
    Ok(())
}

fn solve_one(both: &mut Both, random: &mut Random) -> Compared<()> {
    let size = random.pick(&[1, 2, 3, 5, 8, 12, 20, 31, 32]);
    let mut numbers = legal_numbers(random, size);
    let message = random.octets(size * CONTENT);
    // Pages of one message, or any contents.
    let mut contents = message.clone();
    if random.once_in(2) {
        contents = numbers.iter().flat_map(|number| content(&message, *number)).collect();
    }
    let mut m = MOST_OCTETS;
    if random.once_in(3) {
        for _ in 0..random.between(1, 2) {
            let i = random.below(numbers.len().max(1)).min(numbers.len().saturating_sub(1));
            match random.below(6) {
                0 if size > 1 => numbers[i] = numbers[(i + 1) % size],
                1 => numbers[i] = random.pick(&[0, 0, 32, size as u8 + 1]),
                2 => numbers[i] = random.draw() as u8,
                3 => contents.truncate(random.below(contents.len().max(1))),
                4 => m = random.pick(&[0, 53 * size, 1695, 1697]),
                _ => random.flip(&mut contents),
            }
        }
    }
    both.solve(&contents, &numbers, m).map(drop)
}

pub fn reference_times(both: &mut Both, random: &mut Random, rounds: usize) -> Compared<()> {
    let edges = [0, 1, 3598, 3599, 3600, 3601, 7199, 7200, LAST_SECOND - 3600, LAST_SECOND, LAST_SECOND + 1];
    let wide = [1 << 31, 1 << 32, 1 << 32 | 7, 1 << 63, u64::MAX];
    for second in edges.iter().chain(&wide) {
        for time in edges.iter().chain(&wide) {
            both.reference_time(*second, *time)?;
        }
    }
    for _ in 0..rounds {
        let second = match random.below(8) {
            0 => random.draw(),
            1 => random.draw() & 0xFFFF_FFFF,
            2 => LAST_SECOND - 5 + random.below(10) as u64,
            _ => random.draw() % (LAST_SECOND + 1),
        };
        let time = match random.below(8) {
            0 => random.draw(),
            1 => random.between(3595, 3605) as u64,
            _ => random.below(3600) as u64,
        };
        both.reference_time(second, time)?;
    }
    Ok(())
}
