//! The ICD's Annex C: 15 pages, collected, solved, read and written again.

use check::bits::Cursor;
use check::code::{solve, CONTENT, MOST_OCTETS};
use check::collector::{Answer, Collector};
use check::page::{Header, HEADER_OCTETS, PAGE_OCTETS};
use check::reader::{read, read_bits, Lent};
use check::records::{RECORD, RECORDS_OCTETS};
use check::writer::write;

const PAGES: &str = include_str!("../data/annex_c.txt");
const NONE: Lent = Lent { id: 0, octets: &[] };

fn pages() -> Vec<(u8, Vec<u8>)> {
    let line = |line: &str| -> Vec<u8> { line.split_whitespace().map(|n| n.parse().unwrap()).collect() };
    PAGES.lines().map(line).map(|octets| (octets[0], octets[1..].to_vec())).collect()
}

fn message() -> Vec<u8> {
    let numbers: Vec<u8> = pages().iter().map(|page| page.0).collect();
    let contents: Vec<u8> = pages().iter().flat_map(|page| page.1.clone()).collect();
    assert_eq!((numbers.len(), contents.len()), (15, 15 * CONTENT));
    solve(&contents, &numbers)
}

#[test]
fn header_of_the_sample_page() {
    // The sample C/NAV page: 14 reserved bits, then the HAS page.
    let frame = [0xff, 0xfc, 0x17, 0xb8, 0xde, 0x11];
    let mut cursor = Cursor::whole(&frame);
    cursor.field(14).unwrap();
    let octets = [0; 3].map(|_: u8| cursor.field(8).unwrap() as u8);
    // 01 reads the size field as size - 1. The annex gives MS and MID as 15, and PID 55.
    assert_eq!(Header::of(octets), Header { status: 0, kind: 1, number: 15, size: 15, page: 55 });
    assert_eq!(cursor.field(8), Ok(132));
}

#[test]
fn reads_to_198_records() {
    let message = message();
    assert_eq!(message.len(), 795);
    let mut cursor = Cursor::whole(&message);
    let list = read_bits(&mut cursor, NONE).unwrap();
    assert_eq!(list.len(), 198);
    assert_eq!(cursor.at(), 6081);
    // Time 0, flags 110011, Mask ID 0, IOD Set 11.
    assert_eq!(list[0][..6], [1, 0b110011, 0, 11, 0, 0]);
    for i in 0..279 {
        assert_eq!(cursor.field(1), Ok(i % 2));
    }
    assert!(cursor.field(1).is_err());
}

#[test]
fn writes_back_to_the_same_octets() {
    let message = message();
    let mut list = vec![0; RECORDS_OCTETS];
    let count = read(&message, NONE, &mut list).unwrap();
    let mut out = vec![0; MOST_OCTETS];
    assert_eq!(write(&list[..count * RECORD], NONE, &mut out), Ok(15));
    assert_eq!(out[..795], message);
}

#[test]
fn comes_out_of_the_collector() {
    let mut collector = Collector::fresh(150);
    let mut out = vec![0; MOST_OCTETS];
    for (i, (number, content)) in pages().iter().rev().enumerate() {
        let header = Header { status: 0, kind: 1, number: 15, size: 15, page: *number };
        let mut page = [0; PAGE_OCTETS];
        page[..HEADER_OCTETS].copy_from_slice(&header.octets());
        page[HEADER_OCTETS..].copy_from_slice(content);
        let expected = if i == 14 { Answer::Ready(15) } else { Answer::Kept(i + 1) };
        assert_eq!(collector.feed(1000 + i as u64, &page, &mut out), Ok(expected));
    }
    assert_eq!(out[..795], message());
}
