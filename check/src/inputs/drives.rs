//! Drives of the collector: several messages interleaved, with repeats, conflicts, wrong pages and jumps in time.

use super::random::Random;
use crate::calls::ENTRY_OCTETS;
use crate::code::{legal, CONTENT, MOST_OCTETS};
use crate::collector::LAST_TIMEOUT;
use crate::page::{encode, DUMMY, PAGE_OCTETS};
use crate::time::LAST_SECOND;

/// One feed.
pub struct Event {
    pub second: u64,
    pub page: Vec<u8>,
    pub out: usize,
}

impl Event {
    /// The event as an entry of a replay, if its page and buffer have the right lengths.
    pub fn entry(&self) -> Option<[u8; ENTRY_OCTETS]> {
        if self.page.len() != PAGE_OCTETS || self.out != MOST_OCTETS {
            return None;
        }
        let mut entry = [0; ENTRY_OCTETS];
        entry[..8].copy_from_slice(&self.second.to_be_bytes());
        entry[8..].copy_from_slice(&self.page);
        Some(entry)
    }
}

pub struct Drive {
    pub timeout: u64,
    pub events: Vec<Event>,
}

/// A message that is sent during a drive.
struct Sender {
    message: Vec<u8>,
    status: u64,
    number: u64,
    /// Legal page numbers in the order of sending.
    numbers: Vec<u8>,
    sent: usize,
}

pub fn drive(random: &mut Random, length: usize) -> Drive {
    let timeout = match random.below(4) {
        0 => random.between(1, 5),
        1 => random.between(1, LAST_TIMEOUT as usize),
        _ => random.pick(&[1, 60, 150, 600]),
    } as u64;
    let most = random.pick(&[1, 2, 3, 6, 6, 12, 12, 32]);
    let mut senders: Vec<Sender> = (0..random.between(1, 14)).map(|_| sender(random, most)).collect();
    let mut second = match random.below(4) {
        0 => 0,
        1 => LAST_SECOND - random.below(300) as u64,
        _ => random.draw() % LAST_SECOND,
    };
    let hurry = random.pick(&[2, 8, 40]);
    let calm = random.once_in(2);
    let mut events = Vec::new();
    for _ in 0..length {
        second = next_second(random, second, timeout, hurry);
        let i = random.below(senders.len());
        // A new message in the stead of one that was sent long enough, or at any time.
        if random.once_in(200) || senders[i].over() && random.once_in(4) {
            senders[i] = sender(random, most);
        }
        let page = senders[i].page(random);
        let mut event = Event { second, page, out: MOST_OCTETS };
        if random.once_in(if calm { 40 } else { 5 }) {
            damage(random, &mut event);
        }
        events.push(event);
    }
    Drive { timeout, events }
}

/// Up to eight messages of one size with different keys, all sent whole, in any order and with repeats.
pub fn whole_messages(random: &mut Random, size: usize) -> Drive {
    let mut events = Vec::new();
    let first = random.draw() % (LAST_SECOND - LAST_TIMEOUT);
    for i in 0..random.between(1, 8) as u64 {
        let mut sender = sender_of(random, size);
        (sender.status, sender.number) = (i % 2, i / 2);
        while sender.sent < sender.numbers.len() {
            events.push(Event { second: first, page: sender.page(random), out: MOST_OCTETS });
        }
    }
    random.shuffle(&mut events);
    let most = events.len() as u64;
    for (i, event) in events.iter_mut().enumerate() {
        event.second += i as u64 * (LAST_TIMEOUT - 1) / most;
    }
    Drive { timeout: LAST_TIMEOUT, events }
}

/// Messages one after another, each page of use: the log has as many octets as it can have.
pub fn no_page_in_vain(random: &mut Random) -> Drive {
    let mut events = Vec::new();
    let first = random.draw() % (LAST_SECOND - 100);
    // A time-out of 1 s: with each second all places are free again.
    for second in (first..).take(random.between(1, 12)) {
        let size = random.pick(&[1, 1, 2, 3, 8, 32]);
        let sender = sender_of(random, size);
        events.extend((0..size).map(|i| Event { second, page: sender.encoded(i), out: MOST_OCTETS }));
    }
    Drive { timeout: 1, events }
}

fn sender(random: &mut Random, most: usize) -> Sender {
    let size = random.between(1, most);
    sender_of(random, size)
}

fn sender_of(random: &mut Random, size: usize) -> Sender {
    let mut numbers: Vec<u8> = (1..=255).filter(|n| legal(size, *n as u64)).collect();
    random.shuffle(&mut numbers);
    // Few numbers, so that they come again.
    numbers.truncate(size + random.below(3));
    let highest = random.pick(&[2, 32]);
    Sender {
        message: random.octets(size * CONTENT),
        status: random.below(2) as u64,
        number: random.below(highest) as u64,
        numbers,
        sent: 0,
    }
}

impl Sender {
    /// All its pages were sent.
    fn over(&self) -> bool {
        self.sent > self.numbers.len()
    }

    /// The page of the number in place i.
    fn encoded(&self, i: usize) -> Vec<u8> {
        let mut page = vec![0; PAGE_OCTETS];
        encode(&self.message, self.status, self.number, self.numbers[i] as u64, &mut page).expect("a legal page");
        page
    }

    /// The next page, or at times one sent before, with another content at times.
    fn page(&mut self, random: &mut Random) -> Vec<u8> {
        let next = self.sent % self.numbers.len();
        let before = next > 0 && random.once_in(6);
        let i = if before { random.below(next) } else { next };
        self.sent += !before as usize;
        let mut page = self.encoded(i);
        if before && random.once_in(3) {
            random.flip(&mut page[3..]);
        }
        page
    }
}

/// Seconds stand or rise; at times they jump by about a time-out.
fn next_second(random: &mut Random, second: u64, timeout: u64, hurry: usize) -> u64 {
    let step = match random.below(hurry * 10) {
        0 => timeout - 1,
        1 => timeout,
        2 => timeout + 1,
        3 => timeout / 2,
        n if n < 14 => 1,
        _ => 0,
    };
    (second + step).min(LAST_SECOND)
}

pub fn damage(random: &mut Random, event: &mut Event) {
    match random.below(16) {
        0 => random.flip(&mut event.page[3..]),
        1 => random.flip(&mut event.page[..3]),
        // Reserved bits are not judged.
        2 => event.page[0] ^= 16 * random.between(1, 3) as u8,
        3 => event.page[..3].copy_from_slice(&DUMMY),
        4 => {
            event.page[..3].copy_from_slice(&DUMMY);
            random.flip(&mut event.page[..3]);
        }
        5 => {
            // Stop, most often with another type and number beside it.
            event.page[0] |= 0xC0;
            if random.once_in(2) {
                event.page[0] &= 0xF0;
                event.page[2] = 0;
            }
        }
        6 => event.page[0] = event.page[0] & 0x3F | 0x80,
        7 => event.page[0] = event.page[0] & 0xF3 | random.pick(&[0, 8, 12]),
        8 => event.page[2] = random.pick(&[0, 0, 2, 31, 32]),
        9 => event.page = random.octets(PAGE_OCTETS),
        10 => {
            let n = random.pick(&[0, 1, 2, 3, 55, 57, 62, 112]);
            event.page.resize(n, 0x44);
        }
        11 => event.out = random.pick(&[0, 1, 53, 1695, 1697, 3392]),
        12 => event.second = random.pick(&[LAST_SECOND + 1, 1 << 32, event.second | 1 << 32, u64::MAX]),
        13 => event.second = event.second.saturating_sub(random.pick(&[1, 2, 100])),
        14 => event.second = 0,
        _ => {
            event.page.truncate(40);
            event.out = 7;
            event.second = u64::MAX;
        }
    }
}
