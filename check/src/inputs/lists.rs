//! Random lists of records: good ones, and damaged ones of every kind.

use super::messages::Sample;
use super::random::Random;
use crate::bits::Cursor;
use crate::reader::{read_bits, Lent};
use crate::records::*;

/// The list that a good sample reads to, whatever its length.
pub fn list_of(sample: &Sample) -> Vec<u8> {
    let lent = Lent { id: sample.mask_id, octets: &sample.mask };
    let mut cursor = Cursor::new(sample.body.octets(), sample.body.len());
    read_bits(&mut cursor, lent).expect("a good sample reads").concat()
}

/// Values at and around the ends of the fields.
const EDGES: [i32; 22] = [
    -32768, -32767, -4097, -4096, -2049, -2048, -1025, -1024, -1, 0, 1, 255, 256, 1023, 1024, 2047, 2048, 4095, 4096,
    32767, 3599, 3600,
];
const OCTETS: [u8; 16] = [0, 1, 2, 3, 4, 5, 14, 15, 31, 32, 63, 64, 127, 128, 254, 255];

/// Damages a list in one of many ways. Some ways leave a list that is good.
pub fn damage(random: &mut Random, list: &mut Vec<u8>) {
    let count = list.len() / RECORD;
    if count == 0 {
        return list.extend(random.octets(RECORD));
    }
    let at = random.below(count);
    match random.below(20) {
        0 => random.flip(list),
        1 => random.flip(&mut list[..RECORD]),
        2 | 3 => {
            let octet = random.below(list.len());
            list[octet] = random.pick(&OCTETS);
        }
        4 => list[random.below(RECORD)] = random.pick(&OCTETS),
        5 | 6 => put_edge(random, list, at),
        7 => drop(list.drain(at * RECORD..(at + 1) * RECORD)),
        8 => {
            let again = list[at * RECORD..(at + 1) * RECORD].to_vec();
            insert(list, at, &again);
        }
        9 => swap(list, at, (at + 1) % count),
        10 => swap(list, at, random.below(count)),
        11 => {
            let less = random.between(1, list.len().min(40));
            list.truncate(list.len() - less);
        }
        12 => {
            let more = random.between(1, 40);
            list.extend(random.octets(more));
        }
        13 => {
            let mut record = random.octets(RECORD);
            record[KIND] = random.between(0, 5) as u8;
            insert(list, at, &record);
        }
        14 => change_header(random, list),
        15 | 16 => change_system(random, list),
        17 => absent_or_not(random, list, at),
        18 => exchange_systems(list),
        _ => remove_cells(random, list),
    }
}

fn insert(list: &mut Vec<u8>, at: usize, record: &[u8]) {
    let behind = list.split_off(at * RECORD);
    list.extend(record);
    list.extend(behind);
}

fn swap(list: &mut [u8], a: usize, b: usize) {
    for i in 0..RECORD {
        list.swap(a * RECORD + i, b * RECORD + i);
    }
}

/// A value at the end of a field in a satellite's or cell's record.
fn put_edge(random: &mut Random, list: &mut [u8], at: usize) {
    let value = random.pick(&EDGES) as u16;
    let place = at * RECORD + 2 * random.between(2, 7);
    list[place..place + 2].copy_from_slice(&value.to_be_bytes());
}

fn change_header(random: &mut Random, list: &mut [u8]) {
    match random.below(6) {
        0 => list[header::FLAGS] ^= 1 << random.below(8),
        1 => list[header::FLAGS] = random.below(64) as u8,
        2 => {
            // A flag and its interval together, so that the header is good.
            let i = random.below(5);
            list[header::FLAGS] ^= flag::BLOCKS[i];
            let there = list[header::FLAGS] & flag::BLOCKS[i] != 0;
            list[header::INTERVALS + i] = if there { random.below(15) as u8 } else { ABSENT };
        }
        3 => {
            let time = random.pick(&[0u16, 3599, 3600, 4095, 4096, 65535]);
            list[header::TIME..header::TIME + 2].copy_from_slice(&time.to_be_bytes());
        }
        4 => list[header::INTERVALS + random.below(5)] = random.pick(&[0, 14, 15, 16, 255]),
        _ => list[random.pick(&[header::MASK_ID, header::IOD_SET])] = random.pick(&[0, 31, 32, 37, 255]),
    }
}

fn change_system(random: &mut Random, list: &mut [u8]) {
    let systems: Vec<usize> = places_of(list, SYSTEM);
    if systems.is_empty() {
        return;
    }
    let at = random.pick(&systems) * RECORD;
    let (octet, value) = match random.below(8) {
        0 => (system::PLACE, random.below(3) as u8),
        1 => (system::GNSS, random.pick(&[0, 1, 2, 3, 16])),
        2 => (system::CELL_FLAG, random.below(3) as u8),
        3 => (system::NAVIGATION, random.below(3) as u8),
        4 => (system::MULTIPLIER, random.pick(&[0, 3, 4, 254, 255])),
        5 => (system::SUBSET_MULTIPLIER, random.pick(&[0, 3, 4, 254, 255])),
        6 => (system::END + random.below(2), random.below(2) as u8),
        _ => {
            let octet = system::SATELLITES + random.below(7);
            (octet, list[at + octet] ^ 1 << random.below(8))
        }
    };
    list[at + octet] = value;
}

/// Makes a value absent that is there, or the reverse.
fn absent_or_not(random: &mut Random, list: &mut [u8], at: usize) {
    let record = &mut list[at * RECORD..(at + 1) * RECORD];
    let place = 2 * random.between(2, 7);
    let absent = record[place] == 0x80 && record[place + 1] == 0;
    let value: u16 = if absent { random.below(1024) as u16 } else { 0x8000 };
    record[place..place + 2].copy_from_slice(&value.to_be_bytes());
}

/// The two systems with all their records in the other order, places named anew.
fn exchange_systems(list: &mut Vec<u8>) {
    let systems = places_of(list, SYSTEM);
    let [first, second] = systems[..] else {
        return;
    };
    let behind = list.split_off(second * RECORD);
    let before = list.split_off(first * RECORD);
    for (part, place) in [(behind, 0), (before, 1)] {
        for record in part.chunks(RECORD) {
            let start = list.len();
            list.extend(record);
            if record.len() > system::PLACE {
                list[start + system::PLACE] = place;
            }
        }
    }
}

/// Some or all cells are left out.
fn remove_cells(random: &mut Random, list: &mut Vec<u8>) {
    let keep = random.below(4);
    let stays = |record: &&[u8]| record[KIND] != CELL || random.below(4) < keep;
    *list = list.chunks(RECORD).filter(stays).flatten().copied().collect();
}

fn places_of(list: &[u8], kind: u8) -> Vec<usize> {
    let whole = list.chunks_exact(RECORD).enumerate();
    whole.filter(|(_, record)| record[KIND] == kind).map(|(i, _)| i).collect()
}
