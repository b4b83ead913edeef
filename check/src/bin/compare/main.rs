//! Compares the independent implementation with the proved library, call by call.
//! Without the feature `archive` the independent implementation stands on both sides; this tests the runner.
//! Arguments: a seed (1 if not given) and how many times the usual amount (1 if not given).

#[cfg(feature = "archive")]
mod archive;
mod both;
mod buffer;
mod drives;
mod images;
mod messages;
mod pages;
mod pair;
mod table;

use both::{Both, Compared};
use check::calls::{Calls, Own};
use check::inputs::random::Random;
use std::process::ExitCode;
use std::time::Instant;

#[cfg(feature = "archive")]
const RIGHT: &dyn Calls = &archive::Archive;
#[cfg(not(feature = "archive"))]
const RIGHT: &dyn Calls = &Own;

fn main() -> ExitCode {
    let mut arguments = std::env::args().skip(1).map(|text| text.parse::<u64>());
    let (Ok(seed), Ok(times)) = (arguments.next().unwrap_or(Ok(1)), arguments.next().unwrap_or(Ok(1))) else {
        eprintln!("usage: compare [seed [times]]");
        return ExitCode::from(2);
    };
    let mut both = Both::new(&Own, RIGHT);
    println!("left: {}, right: {}, seed {seed}", both.left.name(), both.right.name());
    let start = Instant::now();
    if let Err(text) = compare(&mut both, seed, times as usize) {
        println!("{text}");
        return ExitCode::from(1);
    }
    println!();
    both.table.print();
    println!();
    println!("{} calls compared in {:.1} s, no difference", both.table.calls(), start.elapsed().as_secs_f64());
    let unseen = both.table.unseen();
    if !unseen.is_empty() {
        println!("not seen: {}", unseen.join("; "));
        return ExitCode::from(1);
    }
    println!("every refusal number 1 to 25 was seen, and each that a call can give from that call");
    ExitCode::SUCCESS
}

/// A part of the comparison: its name, what it runs, and how many random rounds.
type Part = (&'static str, fn(&mut Both, &mut Random, usize) -> Compared<()>, usize);

const PARTS: [Part; 14] = [
    ("reference times", pages::reference_times, 250_000),
    ("encoded pages", pages::encode_pages, 130_000),
    ("solved pages", pages::solves, 60_000),
    ("starts", drives::starts, 0),
    ("wrong lengths", drives::wrong_lengths, 0),
    ("headers", drives::headers, 20_000),
    ("wrong replays", drives::wrong_replays, 500),
    ("images", images::images, 1_000),
    ("image octets", images::every_octet, 5),
    ("flipped images", images::flipped, 1_000),
    ("drives", drives::drives, 3_500),
    ("messages read", messages::reads, 130_000),
    ("lists written", messages::writes, 60_000),
    ("every octet", messages::every_octet, 2),
];

fn compare(both: &mut Both, seed: u64, times: usize) -> Compared<()> {
    for (i, (name, run, rounds)) in PARTS.iter().enumerate() {
        let start = Instant::now();
        let before = both.table.calls();
        // Each part has numbers of its own, so that a change to one leaves the others as they are.
        let mut random = Random::new(seed.wrapping_mul(1000).wrapping_add(i as u64));
        run(both, &mut random, rounds * times)?;
        let calls = both.table.calls() - before;
        println!("{name:<16} {calls:>9} calls {:>8.2} s", start.elapsed().as_secs_f64());
    }
    Ok(())
}
