//! One page: its header, and encoding it (01, The page and The page code).

use crate::code::{content, legal, size_of, solve, MOST_OCTETS};
use crate::refusal::Refusal;

pub const PAGE_OCTETS: usize = 56;
pub const HEADER_OCTETS: usize = 3;
pub const DUMMY: [u8; 3] = [0xAF, 0x3B, 0xC3];
pub const TYPE_1: u8 = 1;

/// The fields of a page header, reserved bits aside.
#[derive(Clone, Copy, Debug, PartialEq, Eq)]
pub struct Header {
    pub status: u8,
    pub kind: u8,
    pub number: u8,
    pub size: u8,
    pub page: u8,
}

impl Header {
    pub fn of(octets: [u8; 3]) -> Header {
        let all = u32::from_be_bytes([0, octets[0], octets[1], octets[2]]);
        Header {
            status: (all >> 22 & 3) as u8,
            kind: (all >> 18 & 3) as u8,
            number: (all >> 13 & 31) as u8,
            size: (all >> 8 & 31) as u8 + 1,
            page: all as u8,
        }
    }

    pub fn octets(self) -> [u8; 3] {
        let all = (self.status as u32) << 22
            | (self.kind as u32) << 18
            | (self.number as u32) << 13
            | (self.size as u32 - 1) << 8
            | self.page as u32;
        let [_, a, b, c] = all.to_be_bytes();
        [a, b, c]
    }
}

/// Checks in order: LENGTH, OUT, STATUS, ID, PAGENUMBER.
pub fn encode(message: &[u8], status: u64, number: u64, page: u64, out: &mut [u8]) -> Result<(), Refusal> {
    let size = size_of(message.len()).ok_or(Refusal::Length)?;
    if out.len() != PAGE_OCTETS {
        return Err(Refusal::Out);
    }
    if status > 1 {
        return Err(Refusal::Status);
    }
    if number > 31 {
        return Err(Refusal::Id);
    }
    if !legal(size, page) {
        return Err(Refusal::PageNumber);
    }
    let header =
        Header { status: status as u8, kind: TYPE_1, number: number as u8, size: size as u8, page: page as u8 };
    out[..HEADER_OCTETS].copy_from_slice(&header.octets());
    out[HEADER_OCTETS..].copy_from_slice(&content(message, header.page));
    Ok(())
}

/// Checks in order: LENGTH, OUT, PAGENUMBER, REPEAT. The answer is k.
pub fn solve_pages(contents: &[u8], numbers: &[u8], out: &mut [u8]) -> Result<usize, Refusal> {
    let size = numbers.len();
    if size_of(contents.len()) != Some(size) {
        return Err(Refusal::Length);
    }
    if out.len() != MOST_OCTETS {
        return Err(Refusal::Out);
    }
    if numbers.iter().any(|n| !legal(size, *n as u64)) {
        return Err(Refusal::PageNumber);
    }
    if (1..size).any(|i| numbers[..i].contains(&numbers[i])) {
        return Err(Refusal::Repeat);
    }
    let message = solve(contents, numbers);
    out[..message.len()].copy_from_slice(&message);
    Ok(size)
}

#[cfg(test)]
mod tests {
    use super::*;

    #[test]
    fn header_by_hand() {
        let header = Header { status: 1, kind: 1, number: 3, size: 2, page: 33 };
        assert_eq!(Header::of([0x44, 0x61, 0x21]), header);
        assert_eq!(header.octets(), [0x44, 0x61, 0x21]);
        assert_eq!(Header::of(DUMMY).page, 195);
    }

    #[test]
    fn encode_checks_in_order() {
        let message = [7; 106];
        let mut out = [9; 56];
        assert_eq!(encode(&message[..105], 2, 32, 0, &mut out[..1]), Err(Refusal::Length));
        assert_eq!(encode(&[], 0, 0, 1, &mut out), Err(Refusal::Length));
        assert_eq!(encode(&[0; 33 * 53], 0, 0, 1, &mut out), Err(Refusal::Length));
        assert_eq!(encode(&message, 2, 32, 0, &mut out[..1]), Err(Refusal::Out));
        assert_eq!(encode(&message, 2, 32, 0, &mut out), Err(Refusal::Status));
        assert_eq!(encode(&message, 1, 32, 0, &mut out), Err(Refusal::Id));
        assert_eq!(encode(&message, 1, 3, 0, &mut out), Err(Refusal::PageNumber));
        assert_eq!(encode(&message, 1, 3, 289, &mut out), Err(Refusal::PageNumber));
        assert_eq!(out, [9; 56]);
        assert_eq!(encode(&message, 1, 3, 33, &mut out), Ok(()));
        assert_eq!(out[..3], [0x44, 0x61, 0x21]);
    }

    #[test]
    fn solve_checks_in_order() {
        let mut out = [9; 1696];
        let contents = [1; 159];
        assert_eq!(solve_pages(&contents[..158], &[33, 33, 0], &mut out[..5]), Err(Refusal::Length));
        assert_eq!(solve_pages(&[], &[], &mut out), Err(Refusal::Length));
        assert_eq!(solve_pages(&contents, &[33, 33, 0], &mut out[..5]), Err(Refusal::Out));
        assert_eq!(solve_pages(&contents, &[33, 33, 0], &mut out), Err(Refusal::PageNumber));
        assert_eq!(solve_pages(&contents, &[33, 33, 4], &mut out), Err(Refusal::PageNumber));
        assert_eq!(solve_pages(&contents, &[33, 34, 33], &mut out), Err(Refusal::Repeat));
        assert_eq!(out, [9; 1696]);
        assert_eq!(solve_pages(&contents, &[33, 34, 3], &mut out), Ok(3));
        assert!(out[159..].iter().all(|octet| *octet == 9));
    }
}
