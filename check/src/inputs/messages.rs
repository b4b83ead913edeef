//! Random messages of type 1, as bit strings. They are put together here field by field,
//! apart from the writer, with reserved bits of any value and the subset's systems in any order.

use super::random::Random;
use crate::bits::Bits;
use crate::code::{CONTENT, MOST_PAGES};
use crate::reader::System;
use crate::records::{flag, iod_width, GALILEO, GPS};

/// What a message holds, values aside.
pub struct Plan {
    pub time: u64,
    pub flags: u8,
    pub mask_id: u8,
    pub iod_set: u8,
    pub systems: Vec<System>,
    /// The subset: systems in any order, each with its chosen satellites.
    pub subset: Vec<(u8, Vec<bool>)>,
}

/// A message as a bit string of any length, and a mask to lend with it.
pub struct Sample {
    pub body: Bits,
    pub mask_id: u64,
    pub mask: Vec<u8>,
}

/// Writes a plan. One judged field may be given a wrong value.
struct Draft<'a> {
    random: &'a mut Random,
    bits: Bits,
    /// How many judged fields come before the wrong one.
    wrong_in: Option<usize>,
}

pub fn plan(random: &mut Random) -> Plan {
    let flags = match random.below(20) {
        0 => 0,
        1 => flag::MASK,
        2..=11 => random.below(64) as u8 | flag::MASK,
        _ => random.below(32) as u8,
    };
    let systems = systems(random);
    let subset = subset(random, &systems);
    let time = random.below(3600) as u64;
    Plan {
        time: random.pick(&[0, 10, 3598, 3599, time, time]),
        flags,
        mask_id: random.below(32) as u8,
        iod_set: random.below(32) as u8,
        systems,
        subset,
    }
}

/// One or two systems in either order.
fn systems(random: &mut Random) -> Vec<System> {
    let mut ids = [GPS, GALILEO];
    random.shuffle(&mut ids);
    let count = random.between(1, 2);
    ids[..count].iter().map(|gnss| system(random, *gnss)).collect()
}

fn system(random: &mut Random, gnss: u8) -> System {
    let most_satellites = random.pick(&[0, 2, 4, 4, 6, 6, 12, 20, 40]);
    let most_signals = random.pick(&[0, 1, 2, 3, 3, 4, 8, 16]);
    let satellite_count = random.between(most_satellites / 2, most_satellites);
    let signal_count = random.between(most_signals / 2, most_signals);
    let satellites = random.mask(40, satellite_count);
    let signals = random.mask(16, signal_count) as u16;
    let cell_flag = random.once_in(2);
    let cells = random.pick(&[0, 1, 2, 2, 2, 4]);
    let mut bit = || !cell_flag || if cells == 0 { false } else { cells == 1 || random.below(cells) > 0 };
    let cells = (0..satellite_count * signal_count).map(|_| bit()).collect();
    System { gnss, satellites, signals, cell_flag, cells, navigation: 0 }
}

/// At least one system, in either order, each with any satellites of its mask.
fn subset(random: &mut Random, systems: &[System]) -> Vec<(u8, Vec<bool>)> {
    let mut chosen: Vec<&System> = systems.iter().collect();
    random.shuffle(&mut chosen);
    let count = random.between(1, chosen.len());
    chosen.truncate(count);
    let choose = |system: &&System| {
        let odds = random.pick(&[1, 2, 4]);
        let bits = (0..system.satellites.count_ones()).map(|_| random.below(4) < odds).collect();
        (system.gnss, bits)
    };
    chosen.iter().map(choose).collect()
}

/// A random message; now and then one judged field is wrong.
pub fn sample(random: &mut Random) -> Sample {
    let plan = plan(random);
    let wrong_in = random.once_in(4).then(|| random.below(9));
    sample_of(random, &plan, wrong_in)
}

/// A random message that reads cleanly with its mask lent.
pub fn good_sample(random: &mut Random) -> Sample {
    let plan = plan(random);
    sample_of(random, &plan, None)
}

pub fn sample_of(random: &mut Random, plan: &Plan, wrong_in: Option<usize>) -> Sample {
    let body = body(random, plan, wrong_in);
    let mut lent = Draft { random, bits: Bits::default(), wrong_in: None };
    lent.mask(&plan.systems);
    // What stands behind the block is ignored.
    while !lent.bits.len().is_multiple_of(8) {
        let bit = lent.random.once_in(2);
        lent.bits.push(bit);
    }
    let mut mask = lent.bits.octets().to_vec();
    let extra = random.pick(&[0, 0, 0, 1, 7]);
    mask.extend(random.octets(extra));
    Sample { body, mask_id: plan.mask_id as u64, mask }
}

fn body(random: &mut Random, plan: &Plan, wrong_in: Option<usize>) -> Bits {
    let mut draft = Draft { random, bits: Bits::default(), wrong_in };
    draft.judged(plan.time as i64, 12, |random| random.pick(&[3600, 3601, 4095]));
    draft.bits.put(plan.flags as i64, 6);
    draft.any(4);
    draft.bits.put(plan.mask_id as i64, 5);
    draft.bits.put(plan.iod_set as i64, 5);
    if plan.flags & flag::MASK != 0 {
        draft.mask(&plan.systems);
    }
    let blocks = [Draft::orbit, Draft::clock, Draft::subset, Draft::code, Draft::phase];
    for (block, bit) in blocks.iter().zip(flag::BLOCKS) {
        if plan.flags & bit != 0 {
            let interval = draft.random.below(15) as i64;
            draft.judged(interval, 4, |_| 15);
            block(&mut draft, plan);
        }
    }
    draft.bits
}

impl Draft<'_> {
    /// A field that the reader judges.
    fn judged(&mut self, value: i64, width: usize, wrong: impl Fn(&mut Random) -> i64) {
        let now = self.wrong_in == Some(0);
        self.wrong_in = self.wrong_in.and_then(|left| left.checked_sub(1));
        let value = if now { wrong(self.random) } else { value };
        self.bits.put(value, width);
    }

    /// A field with any value; the least and the greatest often.
    fn any(&mut self, width: usize) {
        let half = 1 << (width - 1);
        let value = self.random.draw() as i64;
        let value = self.random.pick(&[value, value, value, value, half, half - 1, 0, -1]);
        self.bits.put(value, width);
    }

    fn mask(&mut self, systems: &[System]) {
        let count = systems.len() as i64;
        self.judged(count, 4, |random| random.pick(&[0, 3, 4, 15, 3 - count]));
        for system in systems {
            let first = systems[0].gnss as i64;
            self.judged(system.gnss as i64, 4, |random| random.pick(&[1, 3, 4, 15, first, first]));
            self.bits.put(system.satellites as i64, 40);
            self.bits.put(system.signals as i64, 16);
            self.bits.push(system.cell_flag);
            if system.cell_flag {
                for cell in &system.cells {
                    self.bits.push(*cell);
                }
            }
            self.judged(0, 3, |random| random.between(1, 7) as i64);
        }
        self.any(6);
    }

    fn orbit(&mut self, plan: &Plan) {
        for system in &plan.systems {
            for _ in 0..system.satellites.count_ones() {
                for width in [iod_width(system.gnss), 13, 12, 12] {
                    self.any(width);
                }
            }
        }
    }

    fn clock(&mut self, plan: &Plan) {
        for _ in &plan.systems {
            self.any(2);
        }
        for system in &plan.systems {
            for _ in 0..system.satellites.count_ones() {
                self.any(13);
            }
        }
    }

    fn subset(&mut self, plan: &Plan) {
        let most = plan.systems.len() as i64;
        let count = plan.subset.len() as i64;
        self.judged(count, 4, |random| random.pick(&[0, most + 1, 3, 15]));
        for (gnss, chosen) in &plan.subset {
            let first = plan.subset[0].0 as i64;
            self.judged(*gnss as i64, 4, |random| random.pick(&[0, 1, 2, 3, 15, first, first]));
            self.any(2);
            for bit in chosen {
                self.bits.push(*bit);
            }
            for _ in chosen.iter().filter(|bit| **bit) {
                self.any(13);
            }
        }
    }

    fn cells(plan: &Plan) -> usize {
        plan.systems.iter().map(|system| system.cells.iter().filter(|cell| **cell).count()).sum()
    }

    fn code(&mut self, plan: &Plan) {
        for _ in 0..Self::cells(plan) {
            self.any(11);
        }
    }

    fn phase(&mut self, plan: &Plan) {
        for _ in 0..Self::cells(plan) {
            self.any(11);
            self.any(2);
        }
    }
}

/// A message whose body has exactly this many bits, from about 1,500 to 14,000 of them:
/// 80 satellites and up to 1,280 cells, code biases and a clock subset.
pub fn sample_of_length(random: &mut Random, length: usize) -> Sample {
    let fixed = 32 + 4 + 2 * (64 + 640) + 6 + 4 + (4 + 4 + 2 * (6 + 40));
    let rest = length - fixed;
    let fits = |clocks: &usize| {
        rest >= 13 * clocks && (rest - 13 * clocks).is_multiple_of(11) && (rest - 13 * clocks) / 11 <= 1280
    };
    let choices: Vec<usize> = (0..=80).filter(fits).collect();
    let clocks = random.pick(&choices);
    let mut cells = some(random, 1280, (rest - 13 * clocks) / 11);
    let mut chosen = some(random, 80, clocks);
    let all = |gnss, cells| System {
        gnss,
        satellites: (1 << 40) - 1,
        signals: 0xFFFF,
        cell_flag: true,
        cells,
        navigation: 0,
    };
    let plan = Plan {
        time: 77,
        flags: flag::MASK | flag::SUBSET | flag::CODE,
        mask_id: 1,
        iod_set: 2,
        systems: vec![all(GALILEO, cells.split_off(640)), all(GPS, cells)],
        subset: vec![(GPS, chosen.split_off(40)), (GALILEO, chosen)],
    };
    let sample = sample_of(random, &plan, None);
    assert_eq!(sample.body.len(), length);
    sample
}

fn some(random: &mut Random, width: usize, ones: usize) -> Vec<bool> {
    let mut bits = vec![false; width];
    bits[..ones].fill(true);
    random.shuffle(&mut bits);
    bits
}

/// The body in whole pages: as many as it needs, or fewer, or more; filled in several ways.
pub fn pages(random: &mut Random, body: &Bits) -> Vec<u8> {
    let needed = body.len().div_ceil(CONTENT * 8);
    let count = match random.below(8) {
        0 => random.between(1, needed),
        1 => needed.saturating_sub(1),
        2 => needed + random.below(4),
        _ => needed,
    };
    let count = count.clamp(1, MOST_PAGES);
    let mut bits = body.clone();
    let filling = random.below(3);
    while bits.len() < count * CONTENT * 8 {
        let bit = match filling {
            0 => random.once_in(2),
            1 => (bits.len() - body.len()) % 2 == 1,
            _ => true,
        };
        bits.push(bit);
    }
    bits.octets()[..count * CONTENT].to_vec()
}

/// The sample's mask to lend: most often right, else with another ID, cut, damaged or absent.
pub fn lend(random: &mut Random, sample: &Sample) -> (u64, Vec<u8>) {
    let (mut id, mut mask) = (sample.mask_id, sample.mask.clone());
    match random.below(24) {
        0 => id = random.below(32) as u64,
        1 => id += random.pick(&[32, 256, 1 << 32]),
        2 => mask.clear(),
        3 => mask.truncate(random.below(mask.len())),
        4 => random.flip(&mut mask),
        5 => {
            mask.truncate(10);
            random.flip(&mut mask[..1]);
        }
        6 => {
            let n = random.below(40);
            mask = random.octets(n);
        }
        7 => mask = good_mask(random),
        _ => {}
    }
    (id, mask)
}

/// Some other mask.
fn good_mask(random: &mut Random) -> Vec<u8> {
    let systems = systems(random);
    let mut draft = Draft { random, bits: Bits::default(), wrong_in: None };
    draft.mask(&systems);
    draft.bits.octets().to_vec()
}
