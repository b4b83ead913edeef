//! Inputs for start, feed and replay.

use crate::both::{Both, Compared};
use crate::pair::line;
use crate::table;
use check::calls::{refusal_of, value_of, ENTRY_OCTETS, LOG_OCTETS};
use check::code::{CONTENT, MOST_OCTETS};
use check::collector::Collector;
use check::image::{HEAD_OCTETS, STORE_OCTETS};
use check::inputs::drives::{drive, no_page_in_vain, whole_messages, Drive, Event};
use check::inputs::images::Octets;
use check::inputs::random::Random;
use check::page::PAGE_OCTETS;

pub fn starts(both: &mut Both, _: &mut Random, _: usize) -> Compared<()> {
    let wide = [1 << 32, 1 << 32 | 60, u64::MAX];
    for timeout in (0..=610).chain(wide) {
        // After a wrong time-out there is no collector, and the feeds are refused.
        let mut pair = both.start(timeout)?;
        both.feed(&mut pair, &event(0, 40))?;
        both.feed(&mut pair, &event(0, 41))?;
        both.feed(&mut pair, &event(1, 42))?;
    }
    for length in (0..20).chain(HEAD_OCTETS - 80..HEAD_OCTETS + 80).filter(|length| *length != HEAD_OCTETS) {
        both.start_in(length, STORE_OCTETS, 60)?;
        both.start_in(length, STORE_OCTETS, 0)?;
    }
    for length in (0..20).chain(STORE_OCTETS - 20..STORE_OCTETS + 20).filter(|length| *length != STORE_OCTETS) {
        both.start_in(HEAD_OCTETS, length, 60)?;
        both.start_in(HEAD_OCTETS, length, 601)?;
        both.start_in(length, length, 601)?;
    }
    // Head and store in each other's place.
    both.start_in(STORE_OCTETS, HEAD_OCTETS, 60).map(drop)
}

/// A page of a message of four pages.
fn event(second: u64, number: u8) -> Event {
    let mut page = vec![7; PAGE_OCTETS];
    page[..3].copy_from_slice(&[0x44, 0x63, number]);
    Event { second, page, out: MOST_OCTETS }
}

/// Feeds with every wrong length of page and buffer, and with wrong ones of head and store.
pub fn wrong_lengths(both: &mut Both, _: &mut Random, _: usize) -> Compared<()> {
    let mut pair = both.start(60)?;
    for n in 0..130 {
        let page = vec![0x44; n];
        both.feed(&mut pair, &Event { second: 5, page, out: MOST_OCTETS })?;
    }
    for out in 0..MOST_OCTETS + 100 {
        both.feed(&mut pair, &Event { out, ..event(5, 200) })?;
    }
    // A good image, cut or with more octets behind it.
    let good = Octets::of(&Collector::fresh(60));
    for more in [0, 1, 8] {
        for (head, store) in [(0, 0), (1, 1), (HEAD_OCTETS - 1, STORE_OCTETS), (HEAD_OCTETS, STORE_OCTETS - 1)] {
            let mut octets = good.clone();
            octets.head.resize(head + more, 0);
            octets.store.resize(store + more, 0);
            let mut pair = both.pair(&octets);
            both.feed(&mut pair, &event(5, 200))?;
            both.feed(&mut pair, &Event { second: u64::MAX, page: vec![], out: 0 })?;
        }
    }
    Ok(())
}

/// Every first octet of a header, with many second and third ones.
pub fn headers(both: &mut Both, random: &mut Random, rounds: usize) -> Compared<()> {
    let mut pair = both.start(20)?;
    for round in 0..rounds {
        let mut event = event(round as u64 / 4, 0);
        event.page[0] = round as u8;
        event.page[1] = random.draw() as u8 & random.pick(&[0xFF, 0xE1]);
        event.page[2] = random.pick(&[0, 1, 2, 3, 32, 33, 34, 195, 255]);
        both.feed(&mut pair, &event)?;
    }
    Ok(())
}

/// Random drives: feed by feed with the image carried on, then the same as one replay.
pub fn drives(both: &mut Both, random: &mut Random, rounds: usize) -> Compared<()> {
    for round in 0..rounds {
        let length = random.pick(&[3, 20, 60, 120, 250]);
        let drive = match round % 12 {
            0 => whole_messages(random, 1 + round / 12 % 32),
            1 => no_page_in_vain(random),
            _ => drive(random, length),
        };
        run(both, &drive).map_err(|text| format!("{text}\nin drive {round}"))?;
    }
    Ok(())
}

fn run(both: &mut Both, drive: &Drive) -> Compared<()> {
    let mut pair = both.start(drive.timeout)?;
    let mut entries = Vec::new();
    let mut log = Vec::new();
    for event in &drive.events {
        let result = both.feed(&mut pair, event)?;
        // A feed with a wrong length changes nothing and has no entry.
        if let Some(entry) = event.entry() {
            entries.extend(entry);
            log.extend(line(result));
            if let [2, size] = line(result) {
                log.extend(&both.written()[..size as usize * CONTENT]);
            }
            both.table.count(table::LINES, refusal_of(result));
        }
    }
    let result = both.replay(drive.timeout, &entries, entries.len() / ENTRY_OCTETS * LOG_OCTETS)?;
    if value_of(result) != log.len() || both.written()[..log.len()] != log {
        return Err(format!("replay and feeding differ, time-out {}, {} feeds", drive.timeout, drive.events.len()));
    }
    Ok(())
}

/// Replays that are refused, and the empty one.
pub fn wrong_replays(both: &mut Both, random: &mut Random, rounds: usize) -> Compared<()> {
    let entries = random.octets(4 * ENTRY_OCTETS);
    for n in 0..=entries.len() {
        both.replay(60, &entries[..n], n / ENTRY_OCTETS * LOG_OCTETS)?;
    }
    for m in (0..250).chain(MOST_OCTETS - 5..MOST_OCTETS + 5) {
        for n in 0..5 {
            both.replay(60, &entries[..n * ENTRY_OCTETS], m)?;
        }
    }
    for timeout in (0..=610).chain([1 << 32, 1 << 32 | 60, u64::MAX]) {
        both.replay(timeout, &entries[..ENTRY_OCTETS], LOG_OCTETS)?;
    }
    for _ in 0..rounds {
        let n = random.pick(&[0, 64, 128, 63, 65, 100]);
        let m = random.pick(&[0, LOG_OCTETS, 2 * LOG_OCTETS, LOG_OCTETS - 1, LOG_OCTETS + 1]);
        let timeout = random.pick(&[0, 1, 60, 600, 601, u64::MAX]);
        both.replay(timeout, &entries[..n], m)?;
    }
    Ok(())
}
