//! The writer of message type 1 (01, Records; open points 37 to 46).
//! It judges the list record by record, then encodes it.

use crate::bits::Bits;
use crate::code::{CONTENT, MOST_OCTETS};
use crate::reader::{Lent, Mask, System, LAST_INTERVAL};
use crate::records::{cell, flag, header, satellite, system, *};
use crate::refusal::Refusal;
use crate::time::LAST_TIME_OF_HOUR;

/// Checks in order: OUT; FORM for length and header; MASK; FORM; LONG. The answer is the size.
pub fn write(octets: &[u8], lent: Lent, out: &mut [u8]) -> Result<usize, Refusal> {
    if out.len() != MOST_OCTETS {
        return Err(Refusal::Out);
    }
    if octets.is_empty() || !octets.len().is_multiple_of(RECORD) {
        return Err(Refusal::Form);
    }
    let list: Vec<Record> = octets.chunks_exact(RECORD).map(|r| r.try_into().expect("16 octets")).collect();
    if !good_header(&list[0]) {
        return Err(Refusal::Form);
    }
    let mut mask = None;
    if uses_lent(&list[0]) {
        let lent = lent.mask(list[0][header::MASK_ID] as u64);
        mask = Some(lent.ok_or(Refusal::Mask)?);
    }
    if !good_list(&list, mask.as_ref()) {
        return Err(Refusal::Form);
    }
    let body = encode(&list);
    if body.len() > MOST_OCTETS * 8 {
        return Err(Refusal::Long);
    }
    let message = filled(body);
    out[..message.len()].copy_from_slice(&message);
    Ok(message.len() / CONTENT)
}

/// Mask flag 0 and another flag 1.
fn uses_lent(head: &Record) -> bool {
    let flags = head[header::FLAGS];
    flags != 0 && flags & flag::MASK == 0
}

/// A header record that some message has (open point 37).
fn good_header(head: &Record) -> bool {
    let flags = head[header::FLAGS];
    let intervals = &head[header::INTERVALS..header::END];
    head[KIND] == HEADER
        && flags < 64
        && head[header::MASK_ID] < 32
        && head[header::IOD_SET] < 32
        && unsigned(head, header::TIME) as u64 <= LAST_TIME_OF_HOUR
        && flag::BLOCKS.iter().zip(intervals).all(|(block, interval)| {
            if flags & block != 0 {
                *interval <= LAST_INTERVAL
            } else {
                *interval == ABSENT
            }
        })
        && head[header::END..].iter().all(|octet| *octet == 0)
}

/// Whether some bit string reads to the list; `lent` is there if the lent mask is used.
fn good_list(list: &[Record], lent: Option<&Mask>) -> bool {
    let flags = list[0][header::FLAGS];
    let mut walk = Walk { flags, rest: &list[1..], subset: false, systems: Vec::new() };
    if flags == 0 {
        return walk.rest.is_empty();
    }
    let good = match lent {
        Some(mask) => mask.iter().all(|system| walk.system(Some(system))),
        None => walk.system(None) && (walk.rest.is_empty() || walk.system(None)),
    };
    let subset = flags & flag::SUBSET != 0;
    good && walk.rest.is_empty() && walk.subset == subset
}

/// A walk through the list, system by system.
struct Walk<'a> {
    flags: u8,
    rest: &'a [Record],
    /// Some system is in the subset.
    subset: bool,
    /// GNSS IDs met so far.
    systems: Vec<u8>,
}

impl<'a> Walk<'a> {
    fn has(&self, block: u8) -> bool {
        self.flags & block != 0
    }

    fn next(&mut self) -> Option<&'a Record> {
        let (first, rest) = self.rest.split_first()?;
        self.rest = rest;
        Some(first)
    }

    /// A system, its satellites and their cells, all as they must be.
    fn system(&mut self, lent: Option<&System>) -> bool {
        let place = self.systems.len() as u8;
        let Some(record) = self.next() else {
            return false;
        };
        if record[system::PLACE] != place || !self.good_system(record, lent) {
            return false;
        }
        self.systems.push(record[system::GNSS]);
        self.subset |= record[system::SUBSET_MULTIPLIER] != ABSENT;
        let mut cells = lent.map(|system| system.cells.iter());
        for index in satellite_indexes(satellites(record)) {
            if !self.satellite(record, index) {
                return false;
            }
            for signal in signal_indexes(signals(record)) {
                let named = [CELL, place, index, signal];
                let wanted = match &mut cells {
                    Some(cells) => *cells.next().expect("a bit for each cell"),
                    None if record[system::CELL_FLAG] == 0 => true,
                    None => self.rest.first().is_some_and(|next| next[..4] == named),
                };
                if wanted && !self.cell(named) {
                    return false;
                }
            }
        }
        true
    }

    fn good_system(&self, record: &Record, lent: Option<&System>) -> bool {
        let gnss = record[system::GNSS];
        let as_lent = |lent: &System| {
            lent.gnss == gnss
                && lent.cell_flag as u8 == record[system::CELL_FLAG]
                && lent.satellites == satellites(record)
                && lent.signals == signals(record)
        };
        record[KIND] == SYSTEM
            && (gnss == GPS || gnss == GALILEO)
            && !self.systems.contains(&gnss)
            && record[system::CELL_FLAG] <= 1
            && record[system::NAVIGATION] == 0
            && small(record[system::MULTIPLIER], self.has(flag::CLOCK))
            && (record[system::SUBSET_MULTIPLIER] == ABSENT
                || small(record[system::SUBSET_MULTIPLIER], self.has(flag::SUBSET)))
            && record[system::END..].iter().all(|octet| *octet == 0)
            && lent.is_none_or(as_lent)
    }

    fn satellite(&mut self, of: &Record, index: u8) -> bool {
        let Some(record) = self.next() else {
            return false;
        };
        let orbit = self.has(flag::ORBIT);
        let iod = unsigned(record, satellite::IOD);
        let subset = signed(record, satellite::SUBSET_CLOCK);
        record[KIND] == SATELLITE
            && record[system::PLACE] == of[system::PLACE]
            && record[satellite::INDEX] == index
            && record[satellite::UNNAMED] == 0
            && (if orbit { iod >> iod_width(of[system::GNSS]) == 0 } else { iod == ABSENT_IOD })
            && fits(signed(record, satellite::RADIAL), RADIAL_WIDTH, orbit)
            && fits(signed(record, satellite::IN_TRACK), TRACK_WIDTH, orbit)
            && fits(signed(record, satellite::CROSS_TRACK), TRACK_WIDTH, orbit)
            && fits(signed(record, satellite::CLOCK), CLOCK_WIDTH, self.has(flag::CLOCK))
            && (subset == ABSENT_VALUE || fits(subset, CLOCK_WIDTH, of[system::SUBSET_MULTIPLIER] != ABSENT))
    }

    fn cell(&mut self, named: [u8; 4]) -> bool {
        let Some(record) = self.next() else {
            return false;
        };
        record[..4] == named
            && fits(signed(record, cell::CODE), BIAS_WIDTH, self.has(flag::CODE))
            && fits(signed(record, cell::PHASE), BIAS_WIDTH, self.has(flag::PHASE))
            && small(record[cell::DISCONTINUITY], self.has(flag::PHASE))
            && record[cell::END..].iter().all(|octet| *octet == 0)
    }
}

/// A field of two bits, or absent.
fn small(value: u8, present: bool) -> bool {
    if present {
        value < 4
    } else {
        value == ABSENT
    }
}

/// A signed field of so many bits, or absent.
fn fits(value: i32, width: usize, present: bool) -> bool {
    let half = 1 << (width - 1);
    if present {
        -half <= value && value < half
    } else {
        value == ABSENT_VALUE
    }
}

/// The body of a good list. Any list of records gives some bits.
pub fn encode(list: &[Record]) -> Bits {
    let head = &list[0];
    let flags = head[header::FLAGS];
    let mut bits = Bits::default();
    bits.put(unsigned(head, header::TIME) as i64, 12);
    bits.put(flags as i64, 6);
    bits.put(0, 4);
    bits.put(head[header::MASK_ID] as i64, 5);
    bits.put(head[header::IOD_SET] as i64, 5);
    if flags & flag::MASK != 0 {
        put_mask(&mut bits, list);
    }
    let blocks = [put_orbit, put_clock, put_subset, put_code, put_phase];
    for (i, block) in blocks.iter().enumerate() {
        if flags & flag::BLOCKS[i] != 0 {
            bits.put(head[header::INTERVALS + i] as i64, 4);
            block(&mut bits, list);
        }
    }
    bits
}

fn of_kind(list: &[Record], kind: u8) -> impl Iterator<Item = &Record> {
    list.iter().filter(move |record| record[KIND] == kind)
}

/// The satellites of the system at one place.
fn satellites_of(list: &[Record], place: u8) -> impl Iterator<Item = &Record> {
    of_kind(list, SATELLITE).filter(move |record| record[system::PLACE] == place)
}

fn put_mask(bits: &mut Bits, list: &[Record]) {
    bits.put(of_kind(list, SYSTEM).count() as i64, 4);
    for record in of_kind(list, SYSTEM) {
        bits.put(record[system::GNSS] as i64, 4);
        bits.put(satellites(record) as i64, 40);
        bits.put(signals(record) as i64, 16);
        bits.put(record[system::CELL_FLAG] as i64, 1);
        if record[system::CELL_FLAG] == 1 {
            put_cell_mask(bits, list, record);
        }
        bits.put(record[system::NAVIGATION] as i64, 3);
    }
    bits.put(0, 6);
}

/// A one for each cell that is listed.
fn put_cell_mask(bits: &mut Bits, list: &[Record], of: &Record) {
    let place = of[system::PLACE];
    let listed: std::collections::HashSet<[u8; 2]> = of_kind(list, CELL)
        .filter(|record| record[system::PLACE] == place)
        .map(|record| [record[satellite::INDEX], record[cell::SIGNAL]])
        .collect();
    for index in satellite_indexes(satellites(of)) {
        for signal in signal_indexes(signals(of)) {
            bits.push(listed.contains(&[index, signal]));
        }
    }
}

fn put_orbit(bits: &mut Bits, list: &[Record]) {
    for system in of_kind(list, SYSTEM) {
        for record in satellites_of(list, system[system::PLACE]) {
            bits.put(unsigned(record, satellite::IOD) as i64, iod_width(system[system::GNSS]));
            bits.put(signed(record, satellite::RADIAL) as i64, RADIAL_WIDTH);
            bits.put(signed(record, satellite::IN_TRACK) as i64, TRACK_WIDTH);
            bits.put(signed(record, satellite::CROSS_TRACK) as i64, TRACK_WIDTH);
        }
    }
}

fn put_clock(bits: &mut Bits, list: &[Record]) {
    for record in of_kind(list, SYSTEM) {
        bits.put(record[system::MULTIPLIER] as i64, 2);
    }
    for record in of_kind(list, SATELLITE) {
        bits.put(signed(record, satellite::CLOCK) as i64, CLOCK_WIDTH);
    }
}

fn put_subset(bits: &mut Bits, list: &[Record]) {
    let in_subset = |record: &&Record| record[system::SUBSET_MULTIPLIER] != ABSENT;
    bits.put(of_kind(list, SYSTEM).filter(in_subset).count() as i64, 4);
    for system in of_kind(list, SYSTEM).filter(in_subset) {
        bits.put(system[system::GNSS] as i64, 4);
        bits.put(system[system::SUBSET_MULTIPLIER] as i64, 2);
        let clocks: Vec<i32> =
            satellites_of(list, system[system::PLACE]).map(|record| signed(record, satellite::SUBSET_CLOCK)).collect();
        for clock in &clocks {
            bits.push(*clock != ABSENT_VALUE);
        }
        for clock in clocks.iter().filter(|clock| **clock != ABSENT_VALUE) {
            bits.put(*clock as i64, CLOCK_WIDTH);
        }
    }
}

fn put_code(bits: &mut Bits, list: &[Record]) {
    for record in of_kind(list, CELL) {
        bits.put(signed(record, cell::CODE) as i64, BIAS_WIDTH);
    }
}

fn put_phase(bits: &mut Bits, list: &[Record]) {
    for record in of_kind(list, CELL) {
        bits.put(signed(record, cell::PHASE) as i64, BIAS_WIDTH);
        bits.put(record[cell::DISCONTINUITY] as i64, 2);
    }
}

/// The fewest pages, the last one filled with 0101.. from the body's end on.
fn filled(mut body: Bits) -> Vec<u8> {
    let end = body.len();
    while !body.len().is_multiple_of(CONTENT * 8) {
        body.push((body.len() - end) % 2 == 1);
    }
    body.octets().to_vec()
}

#[cfg(test)]
mod tests {
    use super::*;
    use crate::reader::read;

    const NONE: Lent = Lent { id: 0, octets: &[] };
    const LISTING: [&str; 4] = [
        "01280102000AFF05FFFFFF0000000000",
        "020002000001FF800000000080000000",
        "03000000FFFF800080008000FFFD8000",
        "0400000080008000FF00000000000000",
    ];

    fn octets(lines: &[&str]) -> Vec<u8> {
        let text: String = lines.concat();
        (0..text.len() / 2).map(|i| u8::from_str_radix(&text[2 * i..2 * i + 2], 16).unwrap()).collect()
    }

    #[test]
    fn the_listing_example() {
        let mut out = vec![9; MOST_OCTETS];
        assert_eq!(write(&octets(&LISTING), NONE, &mut out), Ok(1));
        let mut expected = vec![0x00, 0xAA, 0x00, 0x22, 0x12, 0x80, 0, 0, 0, 0, 0x80, 0x00, 0x00, 0x15, 0xFF, 0xEA];
        expected.resize(53, 0xAA);
        assert_eq!(out[..53], expected);
        assert!(out[53..].iter().all(|octet| *octet == 9));
    }

    #[test]
    fn checks_in_order() {
        let good = octets(&LISTING);
        let mut out = vec![9; MOST_OCTETS];
        assert_eq!(write(&[], NONE, &mut out[1..]), Err(Refusal::Out));
        assert_eq!(write(&[], NONE, &mut out), Err(Refusal::Form));
        assert_eq!(write(&good[..63], NONE, &mut out), Err(Refusal::Form));
        // The header needs a lent mask; the rest is not looked at before that.
        let mut needs = good.clone();
        needs[1] = flag::CLOCK;
        needs[20] = 77;
        assert_eq!(write(&needs, NONE, &mut out), Err(Refusal::Mask));
        needs[15] = 1;
        assert_eq!(write(&needs, NONE, &mut out), Err(Refusal::Form));
        assert!(out.iter().all(|octet| *octet == 9));
    }

    #[test]
    fn one_change_makes_it_form() {
        // Octet, and a value no reading gives there.
        let changes = [
            (0, 2),
            (1, 0x68),
            (2, 32),
            (3, 32),
            (4, 0x0F),
            (6, 0),
            (7, 15),
            (11, 1),
            (16, 3),
            (17, 1),
            (18, 1),
            (19, 2),
            (20, 1),
            (21, 4),
            (21, 255),
            (22, 0),
            (23, 0),
            (28, 0),
            (30, 1),
            (32, 4),
            (33, 1),
            (34, 1),
            (35, 1),
            (36, 0),
            (38, 0),
            (44, 0x10),
            (44, 0xEF),
            (46, 0),
            (48, 5),
            (51, 1),
            (52, 0),
            (54, 0),
            (56, 0),
            (57, 1),
            (63, 1),
        ];
        let mut out = vec![9; MOST_OCTETS];
        for (at, value) in changes {
            let mut list = octets(&LISTING);
            list[at] = value;
            assert_eq!(write(&list, NONE, &mut out), Err(Refusal::Form), "octet {at} is {value}");
        }
    }

    #[test]
    fn a_cell_may_be_left_out_if_there_is_a_cell_mask() {
        let mut list = octets(&LISTING);
        list.truncate(48);
        let mut out = vec![9; MOST_OCTETS];
        assert_eq!(write(&list, NONE, &mut out), Err(Refusal::Form));
        list[19] = 1;
        assert_eq!(write(&list, NONE, &mut out), Ok(1));
        let mut back = vec![0; RECORDS_OCTETS];
        assert_eq!(read(&out[..53], NONE, &mut back), Ok(3));
        assert_eq!(back[..48], list);
    }
}
