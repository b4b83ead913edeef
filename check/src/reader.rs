//! The reader of message type 1 (01, Message type 1; ICD 5).
//! The mask gives the records with absent values; each block then fills in its own.

use crate::bits::{refused, Cursor, Refused};
use crate::code::size_of;
use crate::records::{self, cell, flag, header, satellite, system, *};
use crate::refusal::Refusal;
use crate::time::LAST_TIME_OF_HOUR;

/// The bit place that MASK names: the Mask ID's.
pub const MASK_PLACE: usize = 22;
/// Index 15 of ICD Table 23 is reserved.
pub const LAST_INTERVAL: u8 = 14;

/// One system of a Mask block.
#[derive(Clone, Debug, PartialEq, Eq)]
pub struct System {
    pub gnss: u8,
    pub satellites: u64,
    pub signals: u16,
    pub cell_flag: bool,
    /// Satellites times signals, row by row; all ones if there is no cell mask.
    pub cells: Vec<bool>,
    pub navigation: u8,
}

pub type Mask = Vec<System>;

/// A lent mask: its ID and the Mask block's bits. No octets means none.
#[derive(Clone, Copy)]
pub struct Lent<'a> {
    pub id: u64,
    pub octets: &'a [u8],
}

impl Lent<'_> {
    /// The mask, if it is there, has this ID and reads cleanly.
    pub fn mask(self, id: u64) -> Option<Mask> {
        if self.octets.is_empty() || self.id != id {
            return None;
        }
        read_mask(&mut Cursor::whole(self.octets)).ok()
    }
}

/// Checks in order: LENGTH, OUT, then those of `read_bits`. The answer is the number of records.
pub fn read(message: &[u8], lent: Lent, out: &mut [u8]) -> Result<usize, Refused> {
    if size_of(message.len()).is_none() {
        return refused(Refusal::Length, 0);
    }
    if out.len() != RECORDS_OCTETS {
        return refused(Refusal::Out, 0);
    }
    let list = read_bits(&mut Cursor::whole(message), lent)?;
    for (to, from) in out.chunks_exact_mut(RECORD).zip(&list) {
        to.copy_from_slice(from);
    }
    Ok(list.len())
}

/// Reads a bit string of any length: TOH, MASK, then fields in reading order.
pub fn read_bits(cursor: &mut Cursor, lent: Lent) -> Result<Vec<Record>, Refused> {
    let head = read_header(cursor)?;
    let flags = head[header::FLAGS];
    if flags == 0 {
        return Ok(vec![head]);
    }
    let mask = if flags & flag::MASK != 0 {
        read_mask(cursor)?
    } else {
        let Some(mask) = lent.mask(head[header::MASK_ID] as u64) else {
            return refused(Refusal::Mask, MASK_PLACE);
        };
        mask
    };
    let mut list = skeleton(head, &mask);
    let blocks = [read_orbit, read_clock, read_subset, read_code, read_phase];
    for (i, block) in blocks.iter().enumerate() {
        if flags & flag::BLOCKS[i] != 0 {
            list[0][header::INTERVALS + i] = read_interval(cursor)?;
            block(cursor, &mask, &mut list)?;
        }
    }
    Ok(list)
}

/// The 32 bits of the header, as a record with all intervals absent.
fn read_header(cursor: &mut Cursor) -> Result<Record, Refused> {
    let time = cursor.field(12)?;
    if time > LAST_TIME_OF_HOUR {
        return refused(Refusal::Toh, 0);
    }
    let flags = cursor.field(6)? as u8;
    cursor.field(4)?;
    let mask_id = cursor.field(5)? as u8;
    let iod_set = cursor.field(5)? as u8;
    let mut record = [0; RECORD];
    record[KIND] = HEADER;
    record[header::FLAGS] = flags;
    record[header::MASK_ID] = mask_id;
    record[header::IOD_SET] = iod_set;
    records::put(&mut record, header::TIME, time as i32);
    record[header::INTERVALS..header::END].fill(ABSENT);
    Ok(record)
}

/// The Mask block.
pub fn read_mask(cursor: &mut Cursor) -> Result<Mask, Refused> {
    let place = cursor.at();
    let count = cursor.field(4)?;
    if count != 1 && count != 2 {
        return refused(Refusal::Count, place);
    }
    let mut mask: Mask = Vec::new();
    for _ in 0..count {
        let place = cursor.at();
        let gnss = cursor.field(4)? as u8;
        if gnss != GPS && gnss != GALILEO {
            return refused(Refusal::System, place);
        }
        if mask.iter().any(|system| system.gnss == gnss) {
            return refused(Refusal::Twice, place);
        }
        mask.push(read_system(cursor, gnss)?);
    }
    cursor.field(6)?;
    Ok(mask)
}

/// What follows the GNSS ID of one system.
fn read_system(cursor: &mut Cursor, gnss: u8) -> Result<System, Refused> {
    let satellites = cursor.field(40)?;
    let signals = cursor.field(16)? as u16;
    let cell_flag = cursor.field(1)? == 1;
    let width = (satellites.count_ones() * signals.count_ones()) as usize;
    let cells = if cell_flag { cursor.raw(width)? } else { vec![true; width] };
    let place = cursor.at();
    let navigation = cursor.field(3)? as u8;
    if navigation != 0 {
        return refused(Refusal::NavMsg, place);
    }
    Ok(System { gnss, satellites, signals, cell_flag, cells, navigation })
}

/// The header and the records of the mask, all values absent.
fn skeleton(head: Record, mask: &Mask) -> Vec<Record> {
    let mut list = vec![head];
    for (place, system) in mask.iter().enumerate() {
        list.push(system_record(place as u8, system));
        let mut cells = system.cells.iter();
        for satellite in satellite_indexes(system.satellites) {
            list.push(satellite_record(place as u8, satellite));
            for signal in signal_indexes(system.signals) {
                if *cells.next().expect("a bit for each cell") {
                    list.push(cell_record(place as u8, satellite, signal));
                }
            }
        }
    }
    list
}

fn system_record(place: u8, system: &System) -> Record {
    let mut record = [0; RECORD];
    record[KIND] = SYSTEM;
    record[system::PLACE] = place;
    record[system::GNSS] = system.gnss;
    record[system::CELL_FLAG] = system.cell_flag as u8;
    record[system::NAVIGATION] = system.navigation;
    record[system::MULTIPLIER] = ABSENT;
    record[system::SUBSET_MULTIPLIER] = ABSENT;
    record[system::SATELLITES..system::SIGNALS].copy_from_slice(&system.satellites.to_be_bytes()[3..]);
    records::put(&mut record, system::SIGNALS, system.signals as i32);
    record
}

fn satellite_record(place: u8, index: u8) -> Record {
    let mut record = [0; RECORD];
    record[KIND] = SATELLITE;
    record[system::PLACE] = place;
    record[satellite::INDEX] = index;
    records::put(&mut record, satellite::IOD, ABSENT_IOD);
    for at in (satellite::RADIAL..RECORD).step_by(2) {
        records::put(&mut record, at, ABSENT_VALUE);
    }
    record
}

fn cell_record(place: u8, index: u8, signal: u8) -> Record {
    let mut record = [0; RECORD];
    record[KIND] = CELL;
    record[system::PLACE] = place;
    record[satellite::INDEX] = index;
    record[cell::SIGNAL] = signal;
    records::put(&mut record, cell::CODE, ABSENT_VALUE);
    records::put(&mut record, cell::PHASE, ABSENT_VALUE);
    record[cell::DISCONTINUITY] = ABSENT;
    record
}

fn read_interval(cursor: &mut Cursor) -> Result<u8, Refused> {
    let place = cursor.at();
    let index = cursor.field(4)? as u8;
    if index > LAST_INTERVAL {
        return refused(Refusal::Validity, place);
    }
    Ok(index)
}

fn of_kind(list: &mut [Record], kind: u8) -> impl Iterator<Item = &mut Record> {
    list.iter_mut().filter(move |record| record[KIND] == kind)
}

fn read_orbit(cursor: &mut Cursor, mask: &Mask, list: &mut [Record]) -> Result<(), Refused> {
    for record in of_kind(list, SATELLITE) {
        let gnss = mask[record[system::PLACE] as usize].gnss;
        records::put(record, satellite::IOD, cursor.field(iod_width(gnss))? as i32);
        records::put(record, satellite::RADIAL, cursor.signed(RADIAL_WIDTH)?);
        records::put(record, satellite::IN_TRACK, cursor.signed(TRACK_WIDTH)?);
        records::put(record, satellite::CROSS_TRACK, cursor.signed(TRACK_WIDTH)?);
    }
    Ok(())
}

fn read_clock(cursor: &mut Cursor, _: &Mask, list: &mut [Record]) -> Result<(), Refused> {
    for record in of_kind(list, SYSTEM) {
        record[system::MULTIPLIER] = cursor.field(2)? as u8;
    }
    for record in of_kind(list, SATELLITE) {
        records::put(record, satellite::CLOCK, cursor.signed(CLOCK_WIDTH)?);
    }
    Ok(())
}

fn read_subset(cursor: &mut Cursor, mask: &Mask, list: &mut [Record]) -> Result<(), Refused> {
    let at = cursor.at();
    let count = cursor.field(4)? as usize;
    if count < 1 || count > mask.len() {
        return refused(Refusal::Count, at);
    }
    let mut seen = Vec::new();
    for _ in 0..count {
        let at = cursor.at();
        let gnss = cursor.field(4)? as u8;
        let Some(place) = mask.iter().position(|system| system.gnss == gnss) else {
            return refused(Refusal::System, at);
        };
        if seen.contains(&gnss) {
            return refused(Refusal::Twice, at);
        }
        seen.push(gnss);
        read_subset_system(cursor, place as u8, &mask[place], list)?;
    }
    Ok(())
}

fn read_subset_system(cursor: &mut Cursor, place: u8, system: &System, list: &mut [Record]) -> Result<(), Refused> {
    let multiplier = cursor.field(2)? as u8;
    let chosen = cursor.raw(system.satellites.count_ones() as usize)?;
    for record in of_kind(list, SYSTEM).filter(|record| record[system::PLACE] == place) {
        record[system::SUBSET_MULTIPLIER] = multiplier;
    }
    let satellites = of_kind(list, SATELLITE).filter(|record| record[system::PLACE] == place);
    for (record, chosen) in satellites.zip(chosen) {
        if chosen {
            records::put(record, satellite::SUBSET_CLOCK, cursor.signed(CLOCK_WIDTH)?);
        }
    }
    Ok(())
}

fn read_code(cursor: &mut Cursor, _: &Mask, list: &mut [Record]) -> Result<(), Refused> {
    for record in of_kind(list, CELL) {
        records::put(record, cell::CODE, cursor.signed(BIAS_WIDTH)?);
    }
    Ok(())
}

fn read_phase(cursor: &mut Cursor, _: &Mask, list: &mut [Record]) -> Result<(), Refused> {
    for record in of_kind(list, CELL) {
        records::put(record, cell::PHASE, cursor.signed(BIAS_WIDTH)?);
        record[cell::DISCONTINUITY] = cursor.field(2)? as u8;
    }
    Ok(())
}

#[cfg(test)]
mod tests {
    use super::*;
    use crate::bits::Bits;

    const NONE: Lent = Lent { id: 0, octets: &[] };

    fn page(start: &[u8]) -> Vec<u8> {
        let mut octets = start.to_vec();
        octets.resize(53, 0xAA);
        octets
    }

    fn list(message: &[u8], lent: Lent) -> Result<Vec<Record>, Refused> {
        let mut out = vec![7; RECORDS_OCTETS];
        let count = read(message, lent, &mut out)?;
        assert!(out[count * RECORD..].iter().all(|octet| *octet == 7));
        Ok(out[..count * RECORD].chunks_exact(RECORD).map(|r| r.try_into().unwrap()).collect())
    }

    #[test]
    fn header_by_hand() {
        // Time 3599, clock full only, Mask ID 5, IOD Set 9; no mask is lent.
        let message = page(&[0xE0, 0xF2, 0x00, 0xA9]);
        assert_eq!(list(&message, NONE), refused(Refusal::Mask, 22));
        let head = read_header(&mut Cursor::whole(&message)).unwrap();
        assert_eq!(head[..6], [1, flag::CLOCK, 5, 9, 0x0E, 0x0F]);
        let late = page(&[0xE1, 0x02, 0x00, 0xA9]);
        assert_eq!(list(&late, NONE), refused(Refusal::Toh, 0));
    }

    #[test]
    fn the_listing_example() {
        let start = [0x00, 0xAA, 0x00, 0x22, 0x12, 0x80, 0, 0, 0, 0, 0x80, 0x00, 0x00, 0x15, 0xFF, 0xEA];
        let lines: Vec<String> = list(&page(&start), NONE)
            .unwrap()
            .iter()
            .map(|record| record.iter().map(|octet| format!("{octet:02X}")).collect())
            .collect();
        assert_eq!(
            lines,
            [
                "01280102000AFF05FFFFFF0000000000",
                "020002000001FF800000000080000000",
                "03000000FFFF800080008000FFFD8000",
                "0400000080008000FF00000000000000",
            ]
        );
    }

    #[test]
    fn length_and_out_come_first() {
        let late = page(&[0xFF]);
        assert_eq!(read(&late[..52], NONE, &mut [0; 3]), refused(Refusal::Length, 0));
        assert_eq!(read(&late, NONE, &mut [0; 3]), refused(Refusal::Out, 0));
        assert_eq!(list(&late, NONE), refused(Refusal::Toh, 0));
    }

    #[test]
    fn no_flag_at_all() {
        assert_eq!(list(&page(&[0, 0x10, 0x03, 0xC1]), NONE).unwrap().len(), 1);
    }

    /// A clock message of one GPS satellite, the mask lent.
    #[test]
    fn lent_masks() {
        let mut mask = Bits::default();
        for (value, width) in [(1, 4), (0, 4), (1 << 39, 40), (0, 16), (0, 1), (0, 3), (0x3F, 6)] {
            mask.put(value, width);
        }
        assert_eq!(mask.len(), 74);
        let mut octets = mask.octets().to_vec();
        octets.push(0xFF);
        let message = page(&[0, 0x12, 0x00, 0xA9, 0x3C, 0, 0]);
        let lent = |id, octets| list(&message, Lent { id, octets });
        assert_eq!(lent(5, &octets).unwrap().len(), 3);
        assert_eq!(lent(5, &octets[..10]).unwrap().len(), 3);
        assert_eq!(lent(5, &octets[..9]), refused(Refusal::Mask, 22));
        assert_eq!(lent(37, &octets), refused(Refusal::Mask, 22));
        assert_eq!(lent(5, &[]), refused(Refusal::Mask, 22));
    }

    #[test]
    fn short_comes_before_the_value() {
        // Mask flag; two systems, the first one whole, the second one's ID cut off.
        let mut bits = Bits::default();
        for (value, width) in [(0, 12), (32, 6), (0, 14), (2, 4), (2, 4), (0, 40), (0, 16), (1, 1), (0, 3)] {
            bits.put(value, width);
        }
        let at = bits.len();
        bits.put(7, 3);
        let cut = read_bits(&mut Cursor::new(bits.octets(), bits.len()), NONE);
        assert_eq!(cut, refused(Refusal::Short, at));
        bits.put(1, 1);
        let reserved = read_bits(&mut Cursor::new(bits.octets(), bits.len()), NONE);
        assert_eq!(reserved, refused(Refusal::System, at));
    }
}
