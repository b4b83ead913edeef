//! Records of 16 octets (01, Records).

pub const RECORD: usize = 16;
/// One header, two systems, 80 satellites, 1,280 cells.
pub const MOST_RECORDS: usize = 1363;
pub const RECORDS_OCTETS: usize = MOST_RECORDS * RECORD;

pub type Record = [u8; RECORD];

pub const KIND: usize = 0;
pub const HEADER: u8 = 1;
pub const SYSTEM: u8 = 2;
pub const SATELLITE: u8 = 3;
pub const CELL: u8 = 4;

/// Octet places in the header record.
pub mod header {
    pub const FLAGS: usize = 1;
    pub const MASK_ID: usize = 2;
    pub const IOD_SET: usize = 3;
    pub const TIME: usize = 4;
    pub const INTERVALS: usize = 6;
    pub const END: usize = 11;
}

/// Octet places in a system record. The system's place is octet 1 of kinds 2, 3 and 4.
pub mod system {
    pub const PLACE: usize = 1;
    pub const GNSS: usize = 2;
    pub const CELL_FLAG: usize = 3;
    pub const NAVIGATION: usize = 4;
    pub const MULTIPLIER: usize = 5;
    pub const SUBSET_MULTIPLIER: usize = 6;
    pub const SATELLITES: usize = 7;
    pub const SIGNALS: usize = 12;
    pub const END: usize = 14;
}

/// Octet places in a satellite record.
pub mod satellite {
    pub const INDEX: usize = 2;
    pub const UNNAMED: usize = 3;
    pub const IOD: usize = 4;
    pub const RADIAL: usize = 6;
    pub const IN_TRACK: usize = 8;
    pub const CROSS_TRACK: usize = 10;
    pub const CLOCK: usize = 12;
    pub const SUBSET_CLOCK: usize = 14;
}

/// Octet places in a cell record; the satellite index is where a satellite record has it.
pub mod cell {
    pub const SIGNAL: usize = 3;
    pub const CODE: usize = 4;
    pub const PHASE: usize = 6;
    pub const DISCONTINUITY: usize = 8;
    pub const END: usize = 9;
}

pub const ABSENT: u8 = 255;
pub const ABSENT_IOD: i32 = 65535;
pub const ABSENT_VALUE: i32 = -32768;

pub const GPS: u8 = 0;
pub const GALILEO: u8 = 2;

/// Width of the reference IOD (ICD Table 26).
pub fn iod_width(gnss: u8) -> usize {
    if gnss == GPS {
        8
    } else {
        10
    }
}

/// Widths of the signed fields (ICD Tables 25, 31, 37, 40).
pub const RADIAL_WIDTH: usize = 13;
pub const TRACK_WIDTH: usize = 12;
pub const CLOCK_WIDTH: usize = 13;
pub const BIAS_WIDTH: usize = 11;

/// The six flags of the header, in the order of the blocks (ICD Table 12).
pub mod flag {
    pub const MASK: u8 = 32;
    pub const ORBIT: u8 = 16;
    pub const CLOCK: u8 = 8;
    pub const SUBSET: u8 = 4;
    pub const CODE: u8 = 2;
    pub const PHASE: u8 = 1;
    /// The five blocks behind the mask, in block order.
    pub const BLOCKS: [u8; 5] = [ORBIT, CLOCK, SUBSET, CODE, PHASE];
}

/// Write two octets.
pub fn put(record: &mut Record, at: usize, value: i32) {
    record[at..at + 2].copy_from_slice(&(value as u16).to_be_bytes());
}

/// Two octets as a signed value.
pub fn signed(record: &Record, at: usize) -> i32 {
    i16::from_be_bytes([record[at], record[at + 1]]) as i32
}

/// Two octets as a value that is not signed.
pub fn unsigned(record: &Record, at: usize) -> i32 {
    u16::from_be_bytes([record[at], record[at + 1]]) as i32
}

/// The masks of a system record.
pub fn satellites(record: &Record) -> u64 {
    record[system::SATELLITES..system::SIGNALS].iter().fold(0, |mask, octet| mask << 8 | *octet as u64)
}

pub fn signals(record: &Record) -> u16 {
    unsigned(record, system::SIGNALS) as u16
}

/// The indexes of the ones in a mask of `width` bits; index 0 is the most significant bit.
pub fn indexes(mask: u64, width: usize) -> Vec<u8> {
    (0..width).filter(|i| mask >> (width - 1 - i) & 1 == 1).map(|i| i as u8).collect()
}

pub fn satellite_indexes(mask: u64) -> Vec<u8> {
    indexes(mask, 40)
}

pub fn signal_indexes(mask: u16) -> Vec<u8> {
    indexes(mask as u64, 16)
}
