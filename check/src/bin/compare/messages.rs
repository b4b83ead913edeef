//! Inputs for read and write.

use crate::both::{Both, Compared};
use check::calls::{refusal_of, value_of};
use check::code::{CONTENT, MOST_OCTETS};
use check::inputs::lists::{damage, list_of};
use check::inputs::messages::{good_sample, lend, pages, plan, sample, sample_of, sample_of_length, Sample};
use check::inputs::random::Random;
use check::records::{flag, RECORD, RECORDS_OCTETS};

pub fn reads(both: &mut Both, random: &mut Random, rounds: usize) -> Compared<()> {
    // Every length of message, and every length of buffer near the right one and near 0.
    let long = vec![0; MOST_OCTETS + 120];
    for n in 0..=long.len() {
        both.read(&long[..n], 0, &[], RECORDS_OCTETS)?;
    }
    for m in (0..100).chain(RECORDS_OCTETS - 40..RECORDS_OCTETS + 40) {
        both.read(&long[..CONTENT], 0, &[], m)?;
    }
    // A good message with its mask cut at every octet, and with every mask ID.
    for _ in 0..20 {
        let sample = good_sample(random);
        let message = pages(random, &sample.body);
        for n in 0..sample.mask.len() {
            both.read(&message, sample.mask_id, &sample.mask[..n], RECORDS_OCTETS)?;
        }
        for id in 0..70 {
            both.read(&message, id, &sample.mask, RECORDS_OCTETS)?;
        }
    }
    for _ in 0..rounds {
        read_one(both, random)?;
    }
    Ok(())
}

fn read_one(both: &mut Both, random: &mut Random) -> Compared<()> {
    let sample = sample(random);
    let mut message = pages(random, &sample.body);
    let (id, mask) = lend(random, &sample);
    let mut m = RECORDS_OCTETS;
    match random.below(30) {
        0 | 1 => random.flip(&mut message),
        2 | 3 => {
            let near = message.len().min(40);
            for _ in 0..random.between(1, 4) {
                random.flip(&mut message[..near]);
            }
        }
        4 => message = random.octets(message.len()),
        5 => drop(message.pop()),
        6 => m = random.pick(&[0, 16, RECORDS_OCTETS - 16, RECORDS_OCTETS - 1, RECORDS_OCTETS + 1]),
        7 => message.extend([0; CONTENT]),
        _ => {}
    }
    let result = both.read(&message, id, &mask, m)?;
    // Now and then what was read is written again.
    if refusal_of(result) == 0 && random.once_in(6) {
        let list = both.written()[..value_of(result) * RECORD].to_vec();
        both.write(&list, id, &mask, MOST_OCTETS)?;
    }
    Ok(())
}

pub fn writes(both: &mut Both, random: &mut Random, rounds: usize) -> Compared<()> {
    // Every length of list and of buffer.
    let sample = good_sample(random);
    let list = list_of(&sample);
    for n in 0..=list.len().min(2000) {
        both.write(&list[..n], sample.mask_id, &sample.mask, MOST_OCTETS)?;
    }
    for m in 0..MOST_OCTETS + 100 {
        both.write(&list, sample.mask_id, &sample.mask, m)?;
    }
    // Bodies about the greatest length, and about whole pages.
    for length in (13_540..13_600).chain(13_130..13_160).chain(4200..4260) {
        let sample = sample_of_length(random, length);
        both.write(&list_of(&sample), 0, &[], MOST_OCTETS)?;
    }
    // One record at a time is left out or comes twice.
    each_record(both, random, 40)?;
    for _ in 0..rounds {
        write_one(both, random)?;
    }
    for _ in 0..rounds / 60 {
        write_long(both, random)?;
    }
    Ok(())
}

fn each_record(both: &mut Both, random: &mut Random, rounds: usize) -> Compared<()> {
    for _ in 0..rounds {
        let sample = good_sample(random);
        let list = list_of(&sample);
        for at in (0..list.len().min(60 * RECORD)).step_by(RECORD) {
            let without = [&list[..at], &list[at + RECORD..]].concat();
            both.write(&without, sample.mask_id, &sample.mask, MOST_OCTETS)?;
            let twice = [&list[..at + RECORD], &list[at..]].concat();
            both.write(&twice, sample.mask_id, &sample.mask, MOST_OCTETS)?;
        }
    }
    Ok(())
}

fn write_one(both: &mut Both, random: &mut Random) -> Compared<()> {
    let sample = good_sample(random);
    let mut list = list_of(&sample);
    for _ in 0..random.pick(&[0, 1, 1, 1, 2]) {
        damage(random, &mut list);
    }
    let (id, mask) = lend(random, &sample);
    let m = if random.once_in(60) { random.pick(&[0, 53, 1695, 1697]) } else { MOST_OCTETS };
    let result = both.write(&list, id, &mask, m)?;
    // Now and then what was written is read again.
    if refusal_of(result) == 0 && random.once_in(4) {
        let message = both.written()[..value_of(result) * CONTENT].to_vec();
        both.read(&message, id, &mask, RECORDS_OCTETS)?;
    }
    Ok(())
}

/// Small messages and their lists, each octet with each value in turn.
pub fn every_octet(both: &mut Both, random: &mut Random, rounds: usize) -> Compared<()> {
    for round in 0..2 * rounds {
        let (sample, mut list) = small(random, round % 2 == 0);
        for at in 0..list.len() {
            let right = list[at];
            for value in 0..=255 {
                list[at] = value;
                both.write(&list, sample.mask_id, &sample.mask, MOST_OCTETS)?;
            }
            list[at] = right;
        }
        let mut message = pages(random, &sample.body);
        for at in 0..message.len() {
            let right = message[at];
            for value in 0..=255 {
                message[at] = value;
                both.read(&message, sample.mask_id, &sample.mask, RECORDS_OCTETS)?;
            }
            message[at] = right;
        }
    }
    Ok(())
}

/// A message of one page and few records, with four blocks or more, its own mask or a lent one.
fn small(random: &mut Random, own: bool) -> (Sample, Vec<u8>) {
    loop {
        let mut plan = plan(random);
        plan.flags = plan.flags & 31 | if own { flag::MASK } else { 0 };
        let sample = sample_of(random, &plan, None);
        let records = list_of(&sample);
        if plan.flags.count_ones() >= 4
            && (5..9).contains(&(records.len() / RECORD))
            && sample.body.len() <= CONTENT * 8
        {
            return (sample, records);
        }
    }
}

/// Long lists, at times damaged, at times with more records than any message has.
fn write_long(both: &mut Both, random: &mut Random) -> Compared<()> {
    let length = random.between(12_000, 15_000);
    let mut list = list_of(&sample_of_length(random, length));
    match random.below(4) {
        0 => damage(random, &mut list),
        1 => {
            let more = random.between(1, 300) * RECORD;
            list.extend(random.octets(more));
        }
        _ => {}
    }
    both.write(&list, 0, &[], MOST_OCTETS).map(drop)
}
