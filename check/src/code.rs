//! The page code RS(255,32) (01, The page code; ICD 6.2 to 6.4).
//! Encoding divides by the generator, as ICD Eq. 11 does. Solving interpolates:
//! a code word is a polynomial of degree under 32, taken at the powers of alpha.

use crate::field::{inverse, multiply, POWERS, PRODUCTS};
use std::sync::LazyLock;

pub const CONTENT: usize = 53;
pub const MOST_PAGES: usize = 32;
/// Octets of a message of 32 pages.
pub const MOST_OCTETS: usize = CONTENT * MOST_PAGES;

const WORD: usize = 255;
const PARITY: usize = WORD - MOST_PAGES;

/// Coefficients of the generator, lowest power first (ICD Eq. 8).
pub fn generator() -> [u8; PARITY + 1] {
    let mut g = [0; PARITY + 1];
    g[0] = 1;
    for degree in 0..PARITY {
        let root = POWERS[degree + 1];
        for j in (0..=degree + 1).rev() {
            let lower = if j > 0 { g[j - 1] } else { 0 };
            g[j] = lower ^ multiply(g[j], root);
        }
    }
    g
}

/// The code word of 32 information octets c31, c30, ..; page p is at index p - 1 (ICD Eq. 11 and 12).
pub fn word(information: &[u8; MOST_PAGES]) -> [u8; WORD] {
    let g = generator();
    let mut rest = [0; WORD];
    rest[..MOST_PAGES].copy_from_slice(information);
    for i in 0..MOST_PAGES {
        let lead = rest[i];
        for j in 0..=PARITY {
            rest[i + j] ^= multiply(lead, g[PARITY - j]);
        }
    }
    rest[..MOST_PAGES].copy_from_slice(information);
    rest
}

/// Row p - 1 says how page p is made from pages 1 to 32.
static ROWS: LazyLock<Vec<[u8; MOST_PAGES]>> = LazyLock::new(|| {
    let mut rows = vec![[0; MOST_PAGES]; WORD];
    for j in 0..MOST_PAGES {
        let mut unit = [0; MOST_PAGES];
        unit[j] = 1;
        for (row, octet) in rows.iter_mut().zip(word(&unit)) {
            row[j] = octet;
        }
    }
    rows
});

/// The size of a message of so many octets, if it is one.
pub fn size_of(octets: usize) -> Option<usize> {
    (octets > 0 && octets <= MOST_OCTETS && octets.is_multiple_of(CONTENT)).then_some(octets / CONTENT)
}

/// Legal page numbers for a size (01, The page).
pub fn legal(size: usize, number: u64) -> bool {
    (1..=size as u64).contains(&number) || (33..=255).contains(&number)
}

/// The content of page `number` of a message of whole pages.
pub fn content(message: &[u8], number: u8) -> [u8; CONTENT] {
    let row = &ROWS[number as usize - 1];
    let mut sum = [0; CONTENT];
    for (part, factor) in message.chunks_exact(CONTENT).zip(row) {
        add_times(&mut sum, part, *factor);
    }
    sum
}

fn add_times(sum: &mut [u8], part: &[u8], factor: u8) {
    let times = &PRODUCTS[factor as usize];
    for (s, octet) in sum.iter_mut().zip(part) {
        *s ^= times[*octet as usize];
    }
}

/// The point of page p: the octet of page p is the polynomial's value at alpha^(255 - p).
fn point(number: u8) -> u8 {
    POWERS[255 - number as usize]
}

/// The one message of k pages that has these contents at these different legal numbers.
/// Pages k+1 to 32 are zero, so the polynomial is known at k + (32 - k) points (Lagrange).
pub fn solve(contents: &[u8], numbers: &[u8]) -> Vec<u8> {
    let k = numbers.len();
    let given: Vec<u8> = numbers.iter().map(|n| point(*n)).collect();
    let zeros = (k as u8 + 1..=MOST_PAGES as u8).map(point);
    let known: Vec<u8> = given.iter().copied().chain(zeros).collect();
    let under: Vec<u8> = given.iter().map(|x| inverse(product(&known, *x))).collect();
    let mut message = vec![0; k * CONTENT];
    for (page, sum) in message.chunks_exact_mut(CONTENT).enumerate() {
        let at = point(page as u8 + 1);
        let over = product(&known, at);
        for (i, x) in given.iter().enumerate() {
            let factor = if at == *x {
                1
            } else if given.contains(&at) {
                0
            } else {
                multiply(multiply(over, inverse(at ^ x)), under[i])
            };
            add_times(sum, &contents[i * CONTENT..(i + 1) * CONTENT], factor);
        }
    }
    message
}

/// The product of (at - x) over the known points x other than `at`.
fn product(known: &[u8], at: u8) -> u8 {
    known.iter().filter(|x| **x != at).fold(1, |product, x| multiply(product, at ^ x))
}

#[cfg(test)]
mod tests {
    use super::*;

    const TABLE_42: &str = include_str!("../data/table42.txt");
    const ANNEX_D: &str = include_str!("../data/flipped.txt");

    fn numbers(text: &str) -> Vec<u8> {
        text.split_whitespace().map(|n| n.parse().unwrap()).collect()
    }

    #[test]
    fn table_42() {
        let table = numbers(TABLE_42);
        assert_eq!(table.len(), 224);
        assert_eq!(generator()[..], table);
        assert_eq!((generator()[0], generator()[223]), (88, 1));
    }

    #[test]
    fn by_hand() {
        let mut message = vec![0; MOST_OCTETS];
        message[31 * CONTENT + 7] = 1;
        for (number, octet) in [(32, 1), (33, 251), (34, 252), (254, 216), (255, 88), (31, 0)] {
            let content = content(&message, number);
            assert_eq!(content[7], octet);
            assert!(content.iter().enumerate().all(|(i, o)| i == 7 || *o == 0));
        }
    }

    #[test]
    fn legal_numbers() {
        assert!(!legal(1, 2) && legal(1, 33) && legal(1, 1));
        assert!(legal(32, 32) && !legal(32, 0) && !legal(32, 256));
    }

    /// The specification's flipped example is in the ICD's word order.
    #[test]
    fn flipped_example() {
        let expected = numbers(ANNEX_D);
        assert_eq!(expected.len(), 255);
        let information: [u8; 32] = expected[..32].try_into().unwrap();
        assert_eq!(word(&information)[..], expected);
    }

    #[test]
    fn every_word_has_the_roots() {
        let mut information = [0; 32];
        for (i, octet) in information.iter_mut().enumerate() {
            *octet = (i * 37 + 11) as u8;
        }
        let word = word(&information);
        for root in &POWERS[1..=223] {
            let value = word.iter().fold(0, |sum, octet| multiply(sum, *root) ^ octet);
            assert_eq!(value, 0);
        }
    }

    #[test]
    fn solves_what_it_encodes() {
        for k in 1..=MOST_PAGES {
            let message: Vec<u8> = (0..k * CONTENT).map(|i| (i * i + i / 7 + k) as u8).collect();
            let all: Vec<u8> = (1..=255).filter(|n| legal(k, *n as u64)).collect();
            for step in [1, 97, 101, 197] {
                let chosen: Vec<u8> = (0..k).map(|i| all[(5 + i * step) % all.len()]).collect();
                let contents: Vec<u8> = chosen.iter().flat_map(|n| content(&message, *n)).collect();
                assert_eq!(solve(&contents, &chosen), message, "size {k}, numbers {chosen:?}");
            }
        }
    }

    #[test]
    fn encodes_what_it_solves() {
        let numbers = [200, 3, 77, 33, 255];
        let contents: Vec<u8> = (0..5 * CONTENT).map(|i| (i * 59 + 1) as u8).collect();
        let message = solve(&contents, &numbers);
        for (i, number) in numbers.iter().enumerate() {
            assert_eq!(content(&message, *number)[..], contents[i * CONTENT..(i + 1) * CONTENT]);
        }
    }
}
