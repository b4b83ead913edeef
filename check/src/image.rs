//! The image of a collector: a head of clock and places, and a store of contents.
//! The layout is at has_start in include/has.h; the rules of an image are at the end of has_feed's text.

use crate::code::{legal, CONTENT, MOST_OCTETS, MOST_PAGES};
use crate::collector::{Collector, Key, Place, LAST_TIMEOUT, PLACES};
use crate::time::LAST_SECOND;

pub const HEAD_OCTETS: usize = CLOCK_OCTETS + PLACES * PLACE_OCTETS;
pub const STORE_OCTETS: usize = PLACES * MOST_OCTETS;

/// The time-out and the last second, 4 octets each.
pub const CLOCK_OCTETS: usize = 8;
pub const LAST: usize = 4;

/// Where a place has what, from its first octet on.
pub const STATE: usize = 0;
pub const STATUS: usize = 1;
pub const NUMBER: usize = 2;
pub const SIZE: usize = 3;
pub const FIRST: usize = 4;
pub const COUNT: usize = 8;
pub const NUMBERS: usize = 9;
pub const PLACE_OCTETS: usize = NUMBERS + MOST_PAGES;

/// The states.
pub const FREE: u8 = 0;
pub const OPEN: u8 = 1;
pub const DONE: u8 = 2;

/// Writes the image; what is not in use is 0.
pub fn put(collector: &Collector, head: &mut [u8], store: &mut [u8]) {
    head.fill(0);
    store.fill(0);
    put_number(collector.timeout, &mut head[..LAST]);
    put_number(collector.last, &mut head[LAST..CLOCK_OCTETS]);
    let parts = head[CLOCK_OCTETS..].chunks_exact_mut(PLACE_OCTETS);
    for ((place, part), contents) in collector.places.iter().zip(parts).zip(store.chunks_exact_mut(MOST_OCTETS)) {
        let (Some(key), Some(first)) = (place.key(), place.first()) else {
            continue;
        };
        part[STATE] = DONE;
        part[STATUS..FIRST].copy_from_slice(&[key.status, key.number, key.size]);
        put_number(first, &mut part[FIRST..COUNT]);
        if let Place::Open { pages, .. } = place {
            part[STATE] = OPEN;
            part[COUNT] = pages.len() as u8;
            for (i, (number, content)) in pages.iter().enumerate() {
                part[NUMBERS + i] = *number;
                contents[i * CONTENT..(i + 1) * CONTENT].copy_from_slice(content);
            }
        }
    }
}

/// The collector of an image, if the octets are one.
pub fn get(head: &[u8], store: &[u8]) -> Option<Collector> {
    let mut collector = Collector::fresh(number(&head[..LAST]));
    collector.last = number(&head[LAST..CLOCK_OCTETS]);
    let parts = head[CLOCK_OCTETS..].chunks_exact(PLACE_OCTETS);
    for ((place, part), contents) in collector.places.iter_mut().zip(parts).zip(store.chunks_exact(MOST_OCTETS)) {
        *place = place_of(part, contents)?;
    }
    // Every octet that is not in use is 0 exactly if the collector's own image has the same octets.
    let mut again = (vec![0; head.len()], vec![0; store.len()]);
    put(&collector, &mut again.0, &mut again.1);
    (sound(&collector) && again.0 == head && again.1 == store).then_some(collector)
}

fn put_number(number: u64, octets: &mut [u8]) {
    octets.copy_from_slice(&(number as u32).to_be_bytes());
}

fn number(octets: &[u8]) -> u64 {
    u32::from_be_bytes(octets.try_into().expect("4 octets")) as u64
}

fn place_of(part: &[u8], contents: &[u8]) -> Option<Place> {
    let key = Key { status: part[STATUS], number: part[NUMBER], size: part[SIZE] };
    let first = number(&part[FIRST..COUNT]);
    match part[STATE] {
        FREE => Some(Place::Free),
        DONE => Some(Place::Done { key, first }),
        OPEN => {
            let numbers = part[NUMBERS..].iter().take(part[COUNT] as usize);
            let contents = contents.chunks_exact(CONTENT).map(|c| c.try_into().expect("53 octets"));
            Some(Place::Open { key, first, pages: numbers.copied().zip(contents).collect() })
        }
        _ => None,
    }
}

/// The rules at the end of has_feed's text, but for the octets that are not in use.
fn sound(collector: &Collector) -> bool {
    let places = &collector.places;
    (1..=LAST_TIMEOUT).contains(&collector.timeout)
        && collector.last <= LAST_SECOND
        && places.iter().all(|place| sound_place(collector.last, place))
        && (1..PLACES).all(|i| places[i] == Place::Free || places[..i].iter().all(|p| p.key() != places[i].key()))
}

fn sound_place(last: u64, place: &Place) -> bool {
    let (Some(key), Some(first)) = (place.key(), place.first()) else {
        return true;
    };
    let good_key = key.status <= 1 && key.number <= 31 && (1..=32).contains(&key.size);
    let good_pages = match place {
        Place::Open { pages, .. } => {
            let numbers: Vec<u8> = pages.iter().map(|page| page.0).collect();
            (1..key.size as usize).contains(&numbers.len())
                && numbers.iter().all(|n| legal(key.size as usize, *n as u64))
                && (1..numbers.len()).all(|i| !numbers[..i].contains(&numbers[i]))
        }
        _ => true,
    };
    good_key && first <= last && good_pages
}

#[cfg(test)]
mod tests {
    use super::*;

    fn sample() -> Collector {
        let mut collector = Collector::fresh(60);
        collector.last = 77;
        let key = Key { status: 1, number: 4, size: 3 };
        collector.places[2] = Place::Open { key, first: 70, pages: vec![(200, [6; CONTENT]), (3, [5; CONTENT])] };
        // Longer ago than the time-out: that is no matter of the image.
        collector.places[5] = Place::Done { key: Key { size: 4, ..key }, first: 2 };
        collector
    }

    #[test]
    fn there_and_back() {
        let mut head = vec![9; HEAD_OCTETS];
        let mut store = vec![9; STORE_OCTETS];
        assert_eq!(get(&head, &store), None);
        put(&sample(), &mut head, &mut store);
        assert_eq!(get(&head, &store), Some(sample()));
        store[STORE_OCTETS - 1] = 1;
        assert_eq!(get(&head, &store), None);
    }

    #[test]
    fn layout_by_hand() {
        assert_eq!((HEAD_OCTETS, STORE_OCTETS), (336, 13568));
        let mut head = vec![9; HEAD_OCTETS];
        let mut store = vec![9; STORE_OCTETS];
        put(&sample(), &mut head, &mut store);
        let mut expected = vec![0; 336];
        expected[..8].copy_from_slice(&[0, 0, 0, 60, 0, 0, 0, 77]);
        expected[90..101].copy_from_slice(&[1, 1, 4, 3, 0, 0, 0, 70, 2, 200, 3]);
        expected[213..221].copy_from_slice(&[2, 1, 4, 4, 0, 0, 0, 2]);
        assert_eq!(head, expected);
        let mut expected = vec![0; 13568];
        expected[3392..3445].fill(6);
        expected[3445..3498].fill(5);
        assert_eq!(store, expected);
    }
}
