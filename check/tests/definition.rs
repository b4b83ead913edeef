//! The writer's verdict against document 01's own words: FORM exactly if no bit string reads to the list,
//! LONG exactly if one does but none within 13,568 bits.

use check::bits::Cursor;
use check::code::{CONTENT, MOST_OCTETS};
use check::inputs::lists::{damage, list_of};
use check::inputs::messages::{good_sample, lend, pages, sample_of_length};
use check::inputs::random::Random;
use check::reader::{read, read_bits, Lent};
use check::records::{Record, RECORD, RECORDS_OCTETS};
use check::refusal::Refusal;
use check::writer::{encode, write};

/// Whether the list's own encoding reads to it. If any bit string does, this one does.
fn reads_to(list: &[u8], lent: Lent) -> Option<usize> {
    let records: Vec<Record> = list.chunks_exact(RECORD).map(|r| r.try_into().unwrap()).collect();
    let body = encode(&records);
    let read = read_bits(&mut Cursor::new(body.octets(), body.len()), lent);
    (read.ok()? == records).then_some(body.len())
}

#[test]
fn form_is_what_nothing_reads_to() {
    let mut random = Random::new(5);
    let mut seen = [0; 26];
    for round in 0..60_000 {
        let sample = good_sample(&mut random);
        let mut list = list_of(&sample);
        for _ in 0..random.below(3) {
            damage(&mut random, &mut list);
        }
        let (id, mask) = lend(&mut random, &sample);
        let lent = Lent { id, octets: &mask };
        let mut out = vec![0; MOST_OCTETS];
        let whole = !list.is_empty() && list.len().is_multiple_of(RECORD);
        let expected = if whole { reads_to(&list, lent) } else { None };
        match write(&list, lent, &mut out) {
            Ok(size) => {
                assert_eq!(expected.map(|bits| bits.div_ceil(CONTENT * 8)), Some(size), "round {round}");
                let mut back = vec![0; RECORDS_OCTETS];
                assert_eq!(read(&out[..size * CONTENT], lent, &mut back), Ok(list.len() / RECORD));
                assert_eq!(back[..list.len()], list);
                seen[0] += 1;
            }
            Err(refusal) => {
                let long = expected.is_some_and(|bits| bits > MOST_OCTETS * 8);
                assert_eq!(long, refusal == Refusal::Long, "round {round}");
                assert!(long || expected.is_none(), "round {round}, {refusal:?}");
                seen[refusal.number() as usize] += 1;
            }
        }
    }
    assert!(seen[0] > 10_000 && seen[17] > 500 && seen[24] > 10_000 && seen[25] > 4, "{seen:?}");
}

/// What is read is written; reading that again gives the same records, writing those the same octets.
#[test]
fn what_reads_is_written() {
    let mut random = Random::new(6);
    let mut read_count = 0;
    for _ in 0..20_000 {
        let sample = good_sample(&mut random);
        let message = pages(&mut random, &sample.body);
        let lent = Lent { id: sample.mask_id, octets: &sample.mask };
        let mut list = vec![0; RECORDS_OCTETS];
        let Ok(count) = read(&message, lent, &mut list) else {
            continue;
        };
        read_count += 1;
        let mut out = vec![0; MOST_OCTETS];
        let size = write(&list[..count * RECORD], lent, &mut out).unwrap();
        let mut again = vec![0; RECORDS_OCTETS];
        assert_eq!(read(&out[..size * CONTENT], lent, &mut again), Ok(count));
        assert_eq!(again, list);
        let mut twice = vec![0; MOST_OCTETS];
        assert_eq!(write(&again[..count * RECORD], lent, &mut twice), Ok(size));
        assert_eq!(twice, out);
    }
    assert!(read_count > 10_000);
}

#[test]
fn the_longest_body() {
    let mut random = Random::new(7);
    for (length, expected) in [(13_567, Ok(32)), (13_568, Ok(32)), (13_569, Err(Refusal::Long))] {
        let sample = sample_of_length(&mut random, length);
        let mut out = vec![0; MOST_OCTETS];
        let lent = Lent { id: 0, octets: &[] };
        assert_eq!(write(&list_of(&sample), lent, &mut out), expected);
    }
}
