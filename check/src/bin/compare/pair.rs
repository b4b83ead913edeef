//! A collector on each side, carried on as an image from call to call.

use crate::both::{Both, Compared};
use crate::buffer::{hex, Buffer};
use crate::table;
use check::calls::{refusal_of, NO_IMAGE};
use check::image::{HEAD_OCTETS, STORE_OCTETS};
use check::inputs::drives::Event;
use check::inputs::images::Octets;

/// The image of one side.
#[derive(Clone, Default)]
struct Image {
    head: Buffer,
    store: Buffer,
}

impl Image {
    fn differs(&self, other: &Image) -> Option<String> {
        let head = self.head.differs(&other.head).map(|text| format!("head, {text}"));
        head.or_else(|| self.store.differs(&other.store).map(|text| format!("store, {text}")))
    }
}

/// The images of both sides: as long as nothing differs they have the same octets.
pub struct Pair {
    images: [Image; 2],
}

impl Pair {
    pub fn octets(&self) -> Octets {
        Octets { head: self.images[0].head.seen().to_vec(), store: self.images[0].store.seen().to_vec() }
    }
}

/// A call with a collector, as it ended on both sides.
struct Ended<'a> {
    call: usize,
    results: [u64; 2],
    pair: &'a Pair,
    /// How the output buffers differ.
    out: Option<String>,
    /// The image as it was, and whether it had to stay so.
    before: &'a Image,
    fixed: bool,
}

/// Whether a refusal of feed leaves everything unchanged: LENGTH, OUT, SECOND, CLOCK, and no image.
fn unchanged(refusal: usize) -> bool {
    (1..=4).contains(&refusal) || refusal == NO_IMAGE.number() as usize
}

impl Both<'_> {
    /// Starts a collector on each side.
    pub fn start(&mut self, timeout: u64) -> Compared<Pair> {
        self.start_in(HEAD_OCTETS, STORE_OCTETS, timeout)
    }

    /// The same in a head and a store of these lengths.
    pub fn start_in(&mut self, head: usize, store: usize, timeout: u64) -> Compared<Pair> {
        self.turn += 1;
        let mut before = Image::default();
        before.head.fill(head, self.turn);
        before.store.fill(store, self.turn);
        let mut pair = Pair { images: [before.clone(), before.clone()] };
        let [left, right] = &mut pair.images;
        let results = [
            self.left.start(left.head.lent(), left.store.lent(), timeout),
            self.right.start(right.head.lent(), right.store.lent(), timeout),
        ];
        let fixed = refusal_of(results[0]) != 0;
        let ended = Ended { call: table::START, results, pair: &pair, out: None, before: &before, fixed };
        self.judge(ended, || format!("head of {head}, store of {store}, time-out {timeout}"))?;
        Ok(pair)
    }

    /// These octets on each side, be they an image or not.
    pub fn pair(&mut self, octets: &Octets) -> Pair {
        self.turn += 1;
        let mut image = Image::default();
        image.head.hold(&octets.head, self.turn);
        image.store.hold(&octets.store, self.turn);
        Pair { images: [image.clone(), image] }
    }

    /// Feeds both collectors.
    pub fn feed(&mut self, pair: &mut Pair, event: &Event) -> Compared<u64> {
        self.turn += 1;
        let [left_out, right_out] = &mut self.out;
        left_out.fill(event.out, self.turn);
        right_out.fill(event.out, self.turn);
        let before = pair.images[0].clone();
        let [left, right] = &mut pair.images;
        let (second, page) = (event.second, &event.page);
        let results = [
            self.left.feed(left.head.lent(), left.store.lent(), second, page, left_out.lent()),
            self.right.feed(right.head.lent(), right.store.lent(), second, page, right_out.lent()),
        ];
        let out = left_out.differs(right_out).map(|text| format!("out, {text}"));
        let fixed = unchanged(refusal_of(results[0]));
        let ended = Ended { call: table::FEED, results, pair, out, before: &before, fixed };
        self.judge(ended, || {
            let (head, store) = (hex(before.head.seen()), hex(before.store.seen()));
            format!("head {head}\nstore {store}\nsecond {second}, buffer of {}, page {}", event.out, hex(page))
        })?;
        if let [2, size] = line(results[0]) {
            self.table.count_ready(size as usize);
        }
        Ok(results[0])
    }

    /// Equal results and octets; and where nothing may be written, nothing was.
    fn judge(&mut self, ended: Ended, input: impl Fn() -> String) -> Compared<()> {
        let Ended { call, results, pair, out, before, fixed } = ended;
        let buffers = out.or_else(|| pair.images[0].differs(&pair.images[1]));
        if results[0] != results[1] || buffers.is_some() {
            return Err(self.difference(call, results[0], results[1], buffers, &input()));
        }
        if let Some(change) = before.differs(&pair.images[0]).filter(|_| fixed) {
            let change = format!("equal, but the refusal wrote: {change}");
            return Err(self.difference(call, results[0], results[1], Some(change), &input()));
        }
        self.table.count(call, refusal_of(results[0]));
        Ok(())
    }
}

/// The two octets of a log that a feed's result stands for.
pub fn line(result: u64) -> [u8; 2] {
    match refusal_of(result) {
        0 => [(result >> 24) as u8, result as u8],
        number => [3, number as u8],
    }
}
