//! The collector (01, The collector).

use crate::code::{legal, solve, CONTENT, MOST_OCTETS};
use crate::page::{Header, DUMMY, HEADER_OCTETS, PAGE_OCTETS, TYPE_1};
use crate::refusal::Refusal;
use crate::time::LAST_SECOND;

pub const PLACES: usize = 8;
pub const LAST_TIMEOUT: u64 = 600;

#[derive(Clone, Copy, Debug, PartialEq, Eq)]
pub struct Key {
    pub status: u8,
    pub number: u8,
    pub size: u8,
}

/// A page that waits: its number and its content.
pub type Waiting = (u8, [u8; CONTENT]);

#[derive(Clone, Debug, PartialEq, Eq)]
pub enum Place {
    Free,
    Open { key: Key, first: u64, pages: Vec<Waiting> },
    Done { key: Key, first: u64 },
}

impl Place {
    pub fn key(&self) -> Option<Key> {
        match self {
            Place::Free => None,
            Place::Open { key, .. } | Place::Done { key, .. } => Some(*key),
        }
    }

    pub fn first(&self) -> Option<u64> {
        match self {
            Place::Free => None,
            Place::Open { first, .. } | Place::Done { first, .. } => Some(*first),
        }
    }
}

#[derive(Clone, Debug, PartialEq, Eq)]
pub struct Collector {
    pub timeout: u64,
    pub last: u64,
    pub places: [Place; PLACES],
}

#[derive(Clone, Copy, Debug, PartialEq, Eq)]
pub enum Answer {
    /// The count of different page numbers now held.
    Kept(usize),
    /// The size.
    Ready(usize),
}

impl Collector {
    pub fn fresh(timeout: u64) -> Collector {
        Collector { timeout, last: 0, places: [const { Place::Free }; PLACES] }
    }

    /// A fresh collector; TIMEOUT if the time-out is not 1 to 600. The C interface has no collector beside TIMEOUT.
    pub fn start(timeout: u64) -> Result<Collector, Refusal> {
        (1..=LAST_TIMEOUT).contains(&timeout).then(|| Collector::fresh(timeout)).ok_or(Refusal::Timeout)
    }

    pub fn feed(&mut self, second: u64, page: &[u8], out: &mut [u8]) -> Result<Answer, Refusal> {
        // Check 1: these leave everything unchanged.
        if page.len() != PAGE_OCTETS {
            return Err(Refusal::Length);
        }
        if out.len() != MOST_OCTETS {
            return Err(Refusal::Out);
        }
        if second > LAST_SECOND {
            return Err(Refusal::Second);
        }
        if second < self.last {
            return Err(Refusal::Clock);
        }
        // Check 2: the second stands, and old places are freed.
        self.last = second;
        self.expire();
        // Check 3: the header.
        let octets = [page[0], page[1], page[2]];
        if octets == DUMMY {
            return Err(Refusal::Dummy);
        }
        let header = Header::of(octets);
        if header.status == 3 {
            self.places.fill(Place::Free);
            return Err(Refusal::Stop);
        }
        if header.status == 2 {
            return Err(Refusal::Status);
        }
        if header.kind != TYPE_1 {
            return Err(Refusal::Type);
        }
        if !legal(header.size as usize, header.page as u64) {
            return Err(Refusal::PageNumber);
        }
        // Checks 4 and 5: the key's place.
        let key = Key { status: header.status, number: header.number, size: header.size };
        let content: [u8; CONTENT] = page[HEADER_OCTETS..].try_into().expect("a page has 53 octets of content");
        let place = self.place_for(key)?;
        place.take(header.page, content, out)
    }

    fn expire(&mut self) {
        for place in &mut self.places {
            if place.first().is_some_and(|first| self.last - first >= self.timeout) {
                *place = Place::Free;
            }
        }
    }

    /// The place of the key; a new key opens the lowest free place.
    fn place_for(&mut self, key: Key) -> Result<&mut Place, Refusal> {
        let known = self.places.iter().position(|place| place.key() == Some(key));
        let index = match known {
            Some(index) => index,
            None => {
                let free = self.places.iter().position(|place| *place == Place::Free);
                let index = free.ok_or(Refusal::Full)?;
                self.places[index] = Place::Open { key, first: self.last, pages: Vec::new() };
                index
            }
        };
        Ok(&mut self.places[index])
    }
}

impl Place {
    fn take(&mut self, number: u8, content: [u8; CONTENT], out: &mut [u8]) -> Result<Answer, Refusal> {
        let Place::Open { key, first, pages } = self else {
            return Err(Refusal::Done);
        };
        if let Some((_, held)) = pages.iter().find(|(held, _)| *held == number) {
            return Err(if *held == content { Refusal::Repeat } else { Refusal::Conflict });
        }
        pages.push((number, content));
        let size = key.size as usize;
        if pages.len() < size {
            return Ok(Answer::Kept(pages.len()));
        }
        let numbers: Vec<u8> = pages.iter().map(|page| page.0).collect();
        let contents: Vec<u8> = pages.iter().flat_map(|page| page.1).collect();
        let message = solve(&contents, &numbers);
        out[..message.len()].copy_from_slice(&message);
        *self = Place::Done { key: *key, first: *first };
        Ok(Answer::Ready(size))
    }
}

#[cfg(test)]
mod tests {
    use super::*;
    use crate::page::encode;

    struct Drive {
        collector: Collector,
        out: [u8; MOST_OCTETS],
    }

    impl Drive {
        fn new(timeout: u64) -> Drive {
            Drive { collector: Collector::fresh(timeout), out: [3; MOST_OCTETS] }
        }

        fn feed(&mut self, second: u64, page: &[u8]) -> Result<Answer, Refusal> {
            self.collector.feed(second, page, &mut self.out)
        }
    }

    fn message(size: usize) -> Vec<u8> {
        (0..size * CONTENT).map(|i| (i * 5 + size) as u8).collect()
    }

    fn page(size: usize, status: u64, number: u64, page: u64) -> [u8; PAGE_OCTETS] {
        let mut out = [0; PAGE_OCTETS];
        encode(&message(size), status, number, page, &mut out).unwrap();
        out
    }

    #[test]
    fn time_out_by_hand() {
        let mut drive = Drive::new(60);
        assert_eq!(drive.feed(100, &page(3, 1, 4, 40)), Ok(Answer::Kept(1)));
        assert_eq!(drive.feed(159, &page(3, 1, 4, 41)), Ok(Answer::Kept(2)));
        assert_eq!(drive.feed(160, &page(3, 1, 4, 42)), Ok(Answer::Kept(1)));
    }

    #[test]
    fn a_message_comes_out_once() {
        let mut drive = Drive::new(60);
        assert_eq!(drive.feed(5, &page(2, 1, 4, 200)), Ok(Answer::Kept(1)));
        assert_eq!(drive.feed(5, &page(2, 1, 4, 200)), Err(Refusal::Repeat));
        let mut wrong = page(2, 1, 4, 200);
        wrong[55] ^= 1;
        assert_eq!(drive.feed(5, &wrong), Err(Refusal::Conflict));
        // Another size and another status are other keys.
        assert_eq!(drive.feed(5, &page(3, 1, 4, 201)), Ok(Answer::Kept(1)));
        assert_eq!(drive.feed(5, &page(2, 0, 4, 201)), Ok(Answer::Kept(1)));
        assert_eq!(drive.out, [3; MOST_OCTETS]);
        assert_eq!(drive.feed(6, &page(2, 1, 4, 2)), Ok(Answer::Ready(2)));
        assert_eq!(drive.out[..106], message(2));
        assert!(drive.out[106..].iter().all(|octet| *octet == 3));
        assert_eq!(drive.feed(6, &page(2, 1, 4, 2)), Err(Refusal::Done));
        // The first second was 5.
        assert_eq!(drive.feed(65, &page(2, 1, 4, 2)), Ok(Answer::Kept(1)));
    }

    #[test]
    fn header_checks_in_order() {
        let mut drive = Drive::new(600);
        assert_eq!(drive.feed(9, &page(2, 1, 4, 200)), Ok(Answer::Kept(1)));
        let mut dummy = [0; 56];
        dummy[..3].copy_from_slice(&DUMMY);
        assert_eq!(drive.feed(10, &dummy), Err(Refusal::Dummy));
        assert_eq!(drive.feed(9, &dummy), Err(Refusal::Clock));
        assert_eq!(drive.feed(LAST_SECOND + 1, &dummy), Err(Refusal::Second));
        assert_eq!(drive.feed(10, &dummy[..55]), Err(Refusal::Length));
        assert_eq!(drive.collector.feed(10, &dummy, &mut [0; 3]), Err(Refusal::Out));
        let with = |status: u32, kind: u32, page: u32| {
            let mut octets = [0; 56];
            let all = status << 22 | kind << 18 | 4 << 13 | 1 << 8 | page;
            octets[..3].copy_from_slice(&all.to_be_bytes()[1..]);
            octets
        };
        assert_eq!(drive.feed(10, &with(2, 0, 0)), Err(Refusal::Status));
        assert_eq!(drive.feed(10, &with(1, 0, 0)), Err(Refusal::Type));
        assert_eq!(drive.feed(10, &with(1, 1, 0)), Err(Refusal::PageNumber));
        assert_eq!(drive.feed(10, &with(1, 1, 3)), Err(Refusal::PageNumber));
        assert_eq!(drive.feed(11, &with(3, 0, 0)), Err(Refusal::Stop));
        assert_eq!(drive.collector, Collector { last: 11, ..Collector::fresh(600) });
    }

    #[test]
    fn eight_places() {
        let mut drive = Drive::new(30);
        for number in 0..7 {
            assert_eq!(drive.feed(number, &page(2, 1, number, 99)), Ok(Answer::Kept(1)));
        }
        assert_eq!(drive.feed(7, &page(1, 1, 7, 99)), Ok(Answer::Ready(1)));
        assert_eq!(drive.feed(8, &page(1, 1, 8, 99)), Err(Refusal::Full));
        assert_eq!(drive.feed(29, &page(2, 1, 0, 99)), Err(Refusal::Repeat));
        assert_eq!(drive.feed(30, &page(1, 1, 8, 99)), Ok(Answer::Ready(1)));
        assert_eq!(drive.feed(30, &page(1, 1, 7, 99)), Err(Refusal::Done));
    }

    #[test]
    fn wrong_time_out() {
        for timeout in [0, 601, 1 << 32 | 5] {
            assert_eq!(Collector::start(timeout), Err(Refusal::Timeout));
        }
        assert_eq!(Collector::start(600), Ok(Collector::fresh(600)));
    }
}
