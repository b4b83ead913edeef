//! Images of collectors that need not be what a feed has left: good ones and damaged ones.

use crate::both::{Both, Compared};
use crate::pair::Pair;
use check::calls::{refusal_of, NO_IMAGE};
use check::collector::Collector;
use check::image::{get, HEAD_OCTETS, STORE_OCTETS};
use check::inputs::drives::{drive, Event};
use check::inputs::images::{collector, event_for, Octets, DAMAGES};
use check::inputs::random::Random;

/// Good images, each fed on; and on each of them every damage alone.
pub fn images(both: &mut Both, random: &mut Random, rounds: usize) -> Compared<()> {
    for fill in [0x00, 0xFF] {
        let octets = Octets { head: vec![fill; HEAD_OCTETS], store: vec![fill; STORE_OCTETS] };
        feed_once(both, &octets, &event_for(random, &Collector::fresh(60)), false)?;
    }
    for round in 0..rounds {
        let collector = collector(random);
        let good = Octets::of(&collector);
        feed_on(both, random, &good).map_err(|text| format!("{text}\nin round {round}"))?;
        for (name, damage) in DAMAGES {
            let mut octets = good.clone();
            damage(random, &mut octets);
            let event = event_for(random, &collector);
            feed_once(both, &octets, &event, false).map_err(|text| format!("{text}\n{name}, in round {round}"))?;
        }
    }
    Ok(())
}

/// Each octet of head and store changed alone: of the head to some values, of the store to one.
pub fn every_octet(both: &mut Both, random: &mut Random, rounds: usize) -> Compared<()> {
    for _ in 0..rounds {
        let collector = collector(random);
        let good = Octets::of(&collector);
        for at in 0..HEAD_OCTETS {
            let old = good.head[at];
            let mut values =
                vec![0, 1, 2, 3, 31, 32, 33, 255, old ^ 1, old ^ 128, old.wrapping_add(1), old.wrapping_sub(1)];
            values.sort();
            values.dedup();
            for value in values {
                let mut octets = good.clone();
                octets.head[at] = value;
                let mut pair = both.pair(&octets);
                both.feed(&mut pair, &event_for(random, &collector))?;
            }
        }
        for at in 0..STORE_OCTETS {
            let mut octets = good.clone();
            octets.store[at] ^= random.pick(&[1, 128, 255]);
            // A page may have any content; behind the pages all is 0.
            feed_once(both, &octets, &event_for(random, &collector), good.in_use(at))?;
        }
    }
    Ok(())
}

/// What drives have left, with some bits changed.
pub fn flipped(both: &mut Both, random: &mut Random, rounds: usize) -> Compared<()> {
    for _ in 0..rounds {
        let drive = drive(random, 12);
        let mut pair = both.start(drive.timeout)?;
        for event in &drive.events {
            both.feed(&mut pair, event)?;
        }
        let left = pair.octets();
        let Some(collector) = get(&left.head, &left.store) else {
            return Err(format!("a drive of time-out {} has left no image", drive.timeout));
        };
        for _ in 0..4 {
            let mut octets = left.clone();
            for _ in 0..random.between(1, 3) {
                random.flip(&mut octets.head);
            }
            if random.once_in(4) {
                random.flip(&mut octets.store);
            }
            let mut pair = both.pair(&octets);
            both.feed(&mut pair, &event_for(random, &collector))?;
            both.feed(&mut pair, &event_for(random, &collector))?;
        }
    }
    Ok(())
}

/// Some feeds of a good image, each of which fits what the one before has left.
fn feed_on(both: &mut Both, random: &mut Random, good: &Octets) -> Compared<()> {
    let mut pair = both.pair(good);
    for _ in 0..8 {
        let octets = pair.octets();
        let Some(collector) = get(&octets.head, &octets.store) else {
            return Err("a feed has left no image".into());
        };
        feed(both, &mut pair, &event_for(random, &collector), true)?;
    }
    Ok(())
}

/// One feed of these octets.
fn feed_once(both: &mut Both, octets: &Octets, event: &Event, image: bool) -> Compared<()> {
    let mut pair = both.pair(octets);
    feed(both, &mut pair, event, image)
}

/// FORM exactly if the octets are no image.
fn feed(both: &mut Both, pair: &mut Pair, event: &Event, image: bool) -> Compared<()> {
    let result = both.feed(pair, event)?;
    if (refusal_of(result) != NO_IMAGE.number() as usize) == image {
        Ok(())
    } else {
        Err(format!("octets that are {} image give {result:#X}", if image { "an" } else { "no" }))
    }
}
