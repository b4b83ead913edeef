//! The calls that are compared, in the shape of the C interface, and this implementation's own.

use crate::code::{CONTENT, MOST_OCTETS};
use crate::collector::{Answer, Collector};
use crate::image::{self, HEAD_OCTETS, STORE_OCTETS};
use crate::page::{self, PAGE_OCTETS};
use crate::reader::{self, Lent};
use crate::refusal::Refusal;
use crate::{time, writer};

/// What octets that are no image of a collector are refused with.
pub const NO_IMAGE: Refusal = Refusal::Form;
/// Octets of one entry of a replay: the second and the page.
pub const ENTRY_OCTETS: usize = 8 + PAGE_OCTETS;
/// Octets of the log for one entry: two, and a content, since a message of k pages takes k entries.
pub const LOG_OCTETS: usize = 2 + CONTENT;

/// Octets of all entries of a replay, at most.
const MOST_REPLAYED: u64 = 1 << 32;

/// Each result is one u64: the value in the low 32 bits, the refusal's number above, 0 for none.
/// A refusal's value is 0, but for `read`, where it is the bit place.
/// Numbers are as wide as in the C interface, and buffers may have any length.
pub trait Calls {
    fn encode_page(&self, message: &[u8], status: u64, number: u64, page: u64, out: &mut [u8]) -> u64;
    fn solve(&self, contents: &[u8], numbers: &[u8], out: &mut [u8]) -> u64;
    fn read(&self, message: &[u8], mask_id: u64, mask: &[u8], records: &mut [u8]) -> u64;
    fn write(&self, records: &[u8], mask_id: u64, mask: &[u8], out: &mut [u8]) -> u64;
    fn reference_time(&self, second: u64, time_of_hour: u64) -> u64;
    fn replay(&self, timeout: u64, entries: &[u8], log: &mut [u8]) -> u64;
    fn start(&self, head: &mut [u8], store: &mut [u8], timeout: u64) -> u64;
    fn feed(&self, head: &mut [u8], store: &mut [u8], second: u64, page: &[u8], out: &mut [u8]) -> u64;
    fn name(&self) -> &'static str;
}

/// The number of the refusal in a result, 0 for none.
pub fn refusal_of(result: u64) -> usize {
    (result >> 32) as usize
}

/// The value in a result.
pub fn value_of(result: u64) -> usize {
    (result & 0xFFFF_FFFF) as usize
}

fn refuse(refusal: Refusal, value: u64) -> u64 {
    (refusal.number() as u64) << 32 | value
}

fn plain(result: Result<u64, Refusal>) -> u64 {
    result.unwrap_or_else(|refusal| refuse(refusal, 0))
}

/// The independent implementation.
pub struct Own;

impl Calls for Own {
    fn encode_page(&self, message: &[u8], status: u64, number: u64, page: u64, out: &mut [u8]) -> u64 {
        plain(page::encode(message, status, number, page, out).map(|()| 0))
    }

    fn solve(&self, contents: &[u8], numbers: &[u8], out: &mut [u8]) -> u64 {
        plain(page::solve_pages(contents, numbers, out).map(|size| size as u64))
    }

    fn read(&self, message: &[u8], mask_id: u64, mask: &[u8], records: &mut [u8]) -> u64 {
        match reader::read(message, Lent { id: mask_id, octets: mask }, records) {
            Ok(count) => count as u64,
            Err(refused) => refuse(refused.refusal, refused.place as u64),
        }
    }

    fn write(&self, records: &[u8], mask_id: u64, mask: &[u8], out: &mut [u8]) -> u64 {
        plain(writer::write(records, Lent { id: mask_id, octets: mask }, out).map(|size| size as u64))
    }

    fn reference_time(&self, second: u64, time_of_hour: u64) -> u64 {
        plain(time::reference_time(second, time_of_hour))
    }

    fn replay(&self, timeout: u64, entries: &[u8], log: &mut [u8]) -> u64 {
        plain(replay(timeout, entries, log))
    }

    fn start(&self, head: &mut [u8], store: &mut [u8], timeout: u64) -> u64 {
        if head.len() != HEAD_OCTETS || store.len() != STORE_OCTETS {
            return refuse(Refusal::Length, 0);
        }
        plain(Collector::start(timeout).map(|collector| {
            image::put(&collector, head, store);
            0
        }))
    }

    fn feed(&self, head: &mut [u8], store: &mut [u8], second: u64, page: &[u8], out: &mut [u8]) -> u64 {
        if head.len() != HEAD_OCTETS || store.len() != STORE_OCTETS {
            return refuse(Refusal::Length, 0);
        }
        let Some(mut collector) = image::get(head, store) else {
            return refuse(NO_IMAGE, 0);
        };
        let result = collector.feed(second, page, out);
        image::put(&collector, head, store);
        plain(result.map(|answer| match answer {
            Answer::Kept(count) => 1 << 24 | count as u64,
            Answer::Ready(size) => 2 << 24 | size as u64,
        }))
    }

    fn name(&self) -> &'static str {
        "independent"
    }
}

/// Feeds a fresh collector entry by entry and logs the answers. Checks in order: LENGTH, OUT, TIMEOUT.
fn replay(timeout: u64, entries: &[u8], log: &mut [u8]) -> Result<u64, Refusal> {
    if !entries.len().is_multiple_of(ENTRY_OCTETS) || entries.len() as u64 > MOST_REPLAYED {
        return Err(Refusal::Length);
    }
    if log.len() != entries.len() / ENTRY_OCTETS * LOG_OCTETS {
        return Err(Refusal::Out);
    }
    let mut collector = Collector::start(timeout)?;
    let mut out = [0; MOST_OCTETS];
    let mut at = 0;
    for entry in entries.chunks_exact(ENTRY_OCTETS) {
        let second = u64::from_be_bytes(entry[..8].try_into().expect("8 octets"));
        let (line, message) = match collector.feed(second, &entry[8..], &mut out) {
            Ok(Answer::Kept(count)) => ([1, count as u8], 0),
            Ok(Answer::Ready(size)) => ([2, size as u8], size * CONTENT),
            Err(refusal) => ([3, refusal.number() as u8], 0),
        };
        log[at..at + 2].copy_from_slice(&line);
        log[at + 2..at + 2 + message].copy_from_slice(&out[..message]);
        at += 2 + message;
    }
    Ok(at as u64)
}

#[cfg(test)]
mod tests {
    use super::*;
    use crate::inputs::drives::no_page_in_vain;
    use crate::inputs::random::Random;

    #[test]
    fn start_checks_in_order() {
        let mut head = [9; 336];
        let mut store = [9; 13568];
        assert_eq!(Own.start(&mut head[1..], &mut store, 0), 1 << 32);
        assert_eq!(Own.start(&mut head, &mut store[1..], 0), 1 << 32);
        assert_eq!(Own.start(&mut head, &mut store, 0), 14 << 32);
        assert_eq!(Own.start(&mut head, &mut store, 601), 14 << 32);
        assert!(head == [9; 336] && store == [9; 13568]);
        assert_eq!(Own.start(&mut head, &mut store, 600), 0);
        assert!(head[..4] == [0, 0, 2, 88] && head[4..] == [0; 332] && store == [0; 13568]);
    }

    #[test]
    fn feed_checks_in_order() {
        let mut head = [9; 336];
        let mut store = [9; 13568];
        let mut out = [9; 1696];
        assert_eq!(Own.feed(&mut head[1..], &mut store, u64::MAX, &[], &mut out[1..]), 1 << 32);
        assert_eq!(Own.feed(&mut head, &mut store[1..], u64::MAX, &[], &mut out[1..]), 1 << 32);
        assert_eq!(Own.feed(&mut head, &mut store, u64::MAX, &[], &mut out[1..]), 24 << 32);
        assert!(head == [9; 336] && store == [9; 13568]);
        assert_eq!(Own.start(&mut head, &mut store, 60), 0);
        assert_eq!(Own.feed(&mut head, &mut store, u64::MAX, &[], &mut out[1..]), 1 << 32);
        assert_eq!(Own.feed(&mut head, &mut store, u64::MAX, &[0x44; 56], &mut out[1..]), 2 << 32);
        assert_eq!(Own.feed(&mut head, &mut store, u64::MAX, &[0x44; 56], &mut out), 3 << 32);
        // Type 1, number 2, size 5, page 68.
        assert_eq!(Own.feed(&mut head, &mut store, 7, &[0x44; 56], &mut out), 1 << 24 | 1);
        assert_eq!(Own.feed(&mut head, &mut store, 6, &[0x44; 56], &mut out), 4 << 32);
        assert_eq!(head[..18], [0, 0, 0, 60, 0, 0, 0, 7, 1, 1, 2, 5, 0, 0, 0, 7, 1, 68]);
        assert!(store[..53] == [0x44; 53] && store[53..] == [0; 13515] && out == [9; 1696]);
    }

    #[test]
    fn replay_checks_in_order() {
        assert_eq!(Own.replay(0, &[0; 63], &mut []), 1 << 32);
        assert_eq!(Own.replay(0, &[0; 64], &mut [9; 54]), 2 << 32);
        let mut log = [9; 55];
        assert_eq!(Own.replay(0, &[0; 64], &mut log), 14 << 32);
        assert_eq!(log, [9; 55]);
        assert_eq!(Own.replay(1, &[0; 64], &mut log), 2);
        assert!(log[..2] == [3, 8] && log[2..] == [9; 53]);
        assert_eq!(Own.replay(1, &[], &mut []), 0);
    }

    #[test]
    fn a_log_can_be_full() {
        let mut random = Random::new(3);
        for _ in 0..50 {
            let drive = no_page_in_vain(&mut random);
            let entries: Vec<u8> = drive.events.iter().flat_map(|event| event.entry().unwrap()).collect();
            let mut log = vec![0; drive.events.len() * LOG_OCTETS];
            assert_eq!(Own.replay(drive.timeout, &entries, &mut log), log.len() as u64);
        }
    }
}
