//! Images of collectors: any that the rules allow, and such as break one rule.
//! The rules are at the end of has_feed's text in include/has.h.

use super::drives::{damage, Event};
use super::random::Random;
use crate::code::{legal, CONTENT, MOST_OCTETS, MOST_PAGES};
use crate::collector::{Collector, Key, Place, LAST_TIMEOUT, PLACES};
use crate::image::{
    put, CLOCK_OCTETS, COUNT, DONE, FIRST, FREE, HEAD_OCTETS, LAST, NUMBER, NUMBERS, OPEN, PLACE_OCTETS, SIZE, STATE,
    STATUS, STORE_OCTETS,
};
use crate::page::{Header, HEADER_OCTETS, PAGE_OCTETS, TYPE_1};
use crate::time::LAST_SECOND;

/// A collector that has an image; feeding leaves not all of them. Each kind of place is there: free, done, open, and
/// open with two pages or more and a size under 32.
pub fn collector(random: &mut Random) -> Collector {
    let timeout = random.pick(&[1, 2, 60, 150, LAST_TIMEOUT - 1, LAST_TIMEOUT]);
    let mut collector = Collector::fresh(timeout);
    collector.last = match random.below(4) {
        0 => random.below(700) as u64,
        1 => LAST_SECOND - random.below(2) as u64,
        _ => random.draw() % LAST_SECOND,
    };
    let mut kinds: Vec<usize> = (0..4).chain((0..4).map(|_| random.below(4))).collect();
    random.shuffle(&mut kinds);
    for (i, kind) in kinds.into_iter().enumerate() {
        let age = random.pick(&[0, 0, 1, timeout - 1, timeout, timeout + 1, LAST_SECOND]);
        let first = collector.last.saturating_sub(age);
        collector.places[i] = match kind {
            0 => Place::Free,
            1 => Place::Done { key: new_key(random, &collector, &[1, 2, 3, 15, 31, 32]), first },
            2 => open(random, &collector, first, &[2, 3, 15, 31, 32], 1),
            _ => open(random, &collector, first, &[3, 4, 15, 31], 2),
        };
    }
    collector
}

/// A key that no place has, close to others.
fn new_key(random: &mut Random, collector: &Collector, sizes: &[u8]) -> Key {
    loop {
        let key = Key { status: random.below(2) as u8, number: random.pick(&[0, 1, 31]), size: random.pick(sizes) };
        if collector.places.iter().all(|place| place.key() != Some(key)) {
            return key;
        }
    }
}

/// An open place of a new key, with so many pages at least.
fn open(random: &mut Random, collector: &Collector, first: u64, sizes: &[u8], least: usize) -> Place {
    let key = new_key(random, collector, sizes);
    let most = key.size as usize - 1;
    let count = if random.once_in(2) { most } else { random.between(least, most) };
    let mut numbers = legal_numbers(key.size);
    random.shuffle(&mut numbers);
    let pages = numbers[..count].iter().map(|number| (*number, content(random))).collect();
    Place::Open { key, first, pages }
}

fn legal_numbers(size: u8) -> Vec<u8> {
    (0..=255).filter(|n| legal(size as usize, *n as u64)).collect()
}

fn content(random: &mut Random) -> [u8; CONTENT] {
    random.octets(CONTENT).try_into().expect("53 octets")
}

/// A feed for a collector: a page of one of its messages, held or not, or of a new one; damaged at times.
pub fn event_for(random: &mut Random, collector: &Collector) -> Event {
    let step = random.pick(&[0, 0, 0, 1, collector.timeout - 1, collector.timeout]);
    let second = (collector.last + step).min(LAST_SECOND);
    let place = &collector.places[random.below(PLACES)];
    let key = place.key().unwrap_or_else(|| new_key(random, collector, &[1, 2, 32]));
    let (mut number, mut content) = (random.pick(&legal_numbers(key.size)), content(random));
    if let Place::Open { pages, .. } = place {
        if random.once_in(3) {
            (number, content) = random.pick(pages);
            if random.once_in(2) {
                random.flip(&mut content);
            }
        }
    }
    let mut page = vec![0; PAGE_OCTETS];
    let header = Header { status: key.status, kind: TYPE_1, number: key.number, size: key.size, page: number };
    page[..HEADER_OCTETS].copy_from_slice(&header.octets());
    page[HEADER_OCTETS..].copy_from_slice(&content);
    let mut event = Event { second, page, out: MOST_OCTETS };
    if random.once_in(6) {
        damage(random, &mut event);
    }
    event
}

/// The octets of a head and a store.
#[derive(Clone)]
pub struct Octets {
    pub head: Vec<u8>,
    pub store: Vec<u8>,
}

impl Octets {
    pub fn of(collector: &Collector) -> Octets {
        let mut octets = Octets { head: vec![0; HEAD_OCTETS], store: vec![0; STORE_OCTETS] };
        put(collector, &mut octets.head, &mut octets.store);
        octets
    }

    /// Whether an octet of the store is in use: it is of a page that is held.
    pub fn in_use(&self, at: usize) -> bool {
        let place = CLOCK_OCTETS + at / MOST_OCTETS * PLACE_OCTETS;
        at % MOST_OCTETS < self.head[place + COUNT] as usize * CONTENT
    }

    /// A place that is in one of these states.
    fn any(&self, random: &mut Random, states: &[u8]) -> usize {
        let places: Vec<usize> = (0..PLACES).filter(|i| states.contains(&self.head_of(*i)[STATE])).collect();
        random.pick(&places)
    }

    /// An open place with two pages or more and a size under 32.
    fn any_of_two(&self, random: &mut Random) -> usize {
        let fits = |part: &[u8]| part[COUNT] > 1 && part[SIZE] < 32;
        let places: Vec<usize> = (0..PLACES).filter(|i| fits(self.head_of(*i))).collect();
        random.pick(&places)
    }

    fn head_of(&self, place: usize) -> &[u8] {
        &self.head[CLOCK_OCTETS + place * PLACE_OCTETS..][..PLACE_OCTETS]
    }

    /// The octets of a place in the head, and in the store.
    fn parts(&mut self, place: usize) -> (&mut [u8], &mut [u8]) {
        let head = &mut self.head[CLOCK_OCTETS + place * PLACE_OCTETS..][..PLACE_OCTETS];
        (head, &mut self.store[place * MOST_OCTETS..][..MOST_OCTETS])
    }

    /// Sets one octet of some place that is in one of the states.
    fn set(&mut self, random: &mut Random, states: &[u8], at: usize, values: &[u8]) {
        let place = self.any(random, states);
        self.parts(place).0[at] = random.pick(values);
    }

    /// Copies a place in the state onto a free one.
    fn double(&mut self, random: &mut Random, state: u8) {
        let (from, to) = (self.any(random, &[state]), self.any(random, &[FREE]));
        let (head, store) = self.parts(from);
        let (head, store) = (head.to_vec(), store.to_vec());
        let parts = self.parts(to);
        parts.0.copy_from_slice(&head);
        parts.1.copy_from_slice(&store);
    }

    fn set_clock(&mut self, at: usize, value: u64) {
        self.head[at..at + 4].copy_from_slice(&(value as u32).to_be_bytes());
    }
}

/// Makes a nonzero octet of a 0 that is not in use: the first one, the last one, or any.
fn soil(random: &mut Random, unused: &mut [u8]) {
    let last = unused.len() - 1;
    let any = random.below(unused.len());
    unused[random.pick(&[0, last, any])] = random.pick(&[1, 33, 128, 255]);
}

const TAKEN: &[u8] = &[OPEN, DONE];

/// A change to the image of a `collector`, after which it is none.
pub type Damage = fn(&mut Random, &mut Octets);

/// Each breaks one rule, or as few as can be.
pub const DAMAGES: [(&str, Damage); 37] = [
    ("time-out 0", |_, octets| octets.set_clock(0, 0)),
    ("time-out over 600", |random, octets| {
        let wide = [LAST_TIMEOUT + 1, 1 << 10, 1 << 16 | 60, 1 << 24 | 60, u32::MAX as u64];
        octets.set_clock(0, random.pick(&wide));
    }),
    ("last second over the range", |random, octets| {
        octets.set_clock(LAST, random.pick(&[LAST_SECOND + 1, LAST_SECOND + 2, u32::MAX as u64]));
    }),
    ("first second after the last", |random, octets| {
        let last = u32::from_be_bytes(octets.head[LAST..CLOCK_OCTETS].try_into().expect("4 octets"));
        let place = octets.any(random, TAKEN);
        let first = random.pick(&[last + 1, last + 1, u32::MAX]);
        octets.parts(place).0[FIRST..COUNT].copy_from_slice(&first.to_be_bytes());
    }),
    ("state over 2", |random, octets| octets.set(random, &[FREE, OPEN, DONE], STATE, &[3, 4, 128, 129, 130, 255])),
    ("status over 1", |random, octets| octets.set(random, TAKEN, STATUS, &[2, 3, 128, 255])),
    ("number over 31", |random, octets| octets.set(random, TAKEN, NUMBER, &[32, 33, 64, 255])),
    ("size 0", |random, octets| octets.set(random, TAKEN, SIZE, &[0])),
    ("size over 32", |random, octets| octets.set(random, TAKEN, SIZE, &[33, 34, 64, 255])),
    ("an open place twice", |random, octets| octets.double(random, OPEN)),
    ("a done place twice", |random, octets| octets.double(random, DONE)),
    ("the key of an open place on a done one", |random, octets| {
        let (open, done) = (octets.any(random, &[OPEN]), octets.any(random, &[DONE]));
        let key = octets.head_of(open)[STATUS..FIRST].to_vec();
        octets.parts(done).0[STATUS..FIRST].copy_from_slice(&key);
    }),
    ("as many pages as the size", |random, octets| {
        let place = octets.any(random, &[OPEN]);
        let (head, store) = octets.parts(place);
        let (size, count) = (head[SIZE] as usize, head[COUNT] as usize);
        let mut others = legal_numbers(head[SIZE]);
        others.retain(|number| !head[NUMBERS..NUMBERS + count].contains(number));
        random.shuffle(&mut others);
        head[NUMBERS + count..NUMBERS + size].copy_from_slice(&others[..size - count]);
        head[COUNT] = head[SIZE];
        store[count * CONTENT..size * CONTENT].copy_from_slice(&random.octets((size - count) * CONTENT));
    }),
    ("a size of as many as the pages", |random, octets| {
        let place = octets.any(random, &[OPEN]);
        let head = octets.parts(place).0;
        let count = head[COUNT];
        head[SIZE] = count;
        // Numbers that every size has.
        for i in 0..count {
            head[NUMBERS + i as usize] = 33 + i;
        }
    }),
    ("no pages", |random, octets| {
        let place = octets.any(random, &[OPEN]);
        let (head, store) = octets.parts(place);
        head[COUNT..].fill(0);
        store.fill(0);
    }),
    ("size 1 and no pages", |random, octets| {
        let place = octets.any(random, &[OPEN]);
        let (head, store) = octets.parts(place);
        head[SIZE] = 1;
        head[COUNT..].fill(0);
        store.fill(0);
    }),
    ("size 1 and one page", |random, octets| {
        let place = octets.any(random, &[OPEN]);
        let (head, store) = octets.parts(place);
        head[SIZE] = 1;
        head[COUNT..].fill(0);
        head[COUNT] = 1;
        head[NUMBERS] = random.pick(&[1, 33, 255]);
        store[CONTENT..].fill(0);
    }),
    ("a count of 0 before pages", |random, octets| octets.set(random, &[OPEN], COUNT, &[0])),
    ("a count of 32 and more", |random, octets| octets.set(random, &[OPEN], COUNT, &[32, 33, 128, 255])),
    ("a count too high by one", |random, octets| {
        let place = octets.any(random, &[OPEN]);
        octets.parts(place).0[COUNT] += 1;
    }),
    ("a count too low by one", |random, octets| {
        let place = octets.any(random, &[OPEN]);
        octets.parts(place).0[COUNT] -= 1;
    }),
    ("a page number 0", |random, octets| {
        let place = octets.any(random, &[OPEN]);
        let head = octets.parts(place).0;
        head[NUMBERS + random.below(head[COUNT] as usize)] = 0;
    }),
    ("a page number over the size", |random, octets| {
        let place = octets.any_of_two(random);
        let head = octets.parts(place).0;
        let (count, size) = (head[COUNT] as usize, head[SIZE] as usize);
        head[NUMBERS + random.below(count)] = random.pick(&[size + 1, MOST_PAGES]) as u8;
    }),
    ("a page number twice", |random, octets| {
        let place = octets.any_of_two(random);
        let (head, store) = octets.parts(place);
        let count = head[COUNT] as usize;
        let from = random.below(count);
        let to = (from + random.between(1, count - 1)) % count;
        head[NUMBERS + to] = head[NUMBERS + from];
        if random.once_in(2) {
            store.copy_within(from * CONTENT..(from + 1) * CONTENT, to * CONTENT);
        }
    }),
    ("a number behind the pages", |random, octets| {
        let place = octets.any(random, &[OPEN]);
        let head = octets.parts(place).0;
        let count = head[COUNT] as usize;
        soil(random, &mut head[NUMBERS + count..]);
    }),
    ("an octet of the store behind the pages", |random, octets| {
        let place = octets.any(random, &[OPEN]);
        let (head, store) = octets.parts(place);
        soil(random, &mut store[head[COUNT] as usize * CONTENT..]);
    }),
    ("an open place made free", |random, octets| octets.set(random, &[OPEN], STATE, &[FREE])),
    ("an open place made done", |random, octets| octets.set(random, &[OPEN], STATE, &[DONE])),
    ("a done place made free", |random, octets| octets.set(random, &[DONE], STATE, &[FREE])),
    ("a done place made open", |random, octets| octets.set(random, &[DONE], STATE, &[OPEN])),
    ("a done place with a count", |random, octets| octets.set(random, &[DONE], COUNT, &[1, 2, 31, 32, 255])),
    ("a done place with a number", |random, octets| {
        let place = octets.any(random, &[DONE]);
        soil(random, &mut octets.parts(place).0[NUMBERS..]);
    }),
    ("a done place with an octet of the store", |random, octets| {
        let place = octets.any(random, &[DONE]);
        soil(random, octets.parts(place).1);
    }),
    ("a done place with a page", |random, octets| {
        let place = octets.any(random, &[DONE]);
        let (head, store) = octets.parts(place);
        (head[COUNT], head[NUMBERS]) = (1, 33);
        store[..CONTENT].copy_from_slice(&random.octets(CONTENT));
    }),
    ("a free place with an octet of the head", |random, octets| {
        let place = octets.any(random, &[FREE]);
        soil(random, &mut octets.parts(place).0[STATUS..]);
    }),
    ("a free place with an octet of the store", |random, octets| {
        let place = octets.any(random, &[FREE]);
        soil(random, octets.parts(place).1);
    }),
    ("a free place made done", |random, octets| octets.set(random, &[FREE], STATE, &[DONE])),
];

#[cfg(test)]
mod tests {
    use super::*;
    use crate::image::get;

    #[test]
    fn good_images_are_taken_and_damaged_ones_are_not() {
        let mut random = Random::new(4);
        for _ in 0..500 {
            let collector = collector(&mut random);
            let good = Octets::of(&collector);
            assert_eq!(get(&good.head, &good.store), Some(collector));
            for (name, damage) in DAMAGES {
                let mut octets = good.clone();
                damage(&mut random, &mut octets);
                assert_eq!(get(&octets.head, &octets.store), None, "{name}");
            }
        }
    }
}
