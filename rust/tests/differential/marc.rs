//! Headings of exchange records: the answer and the whole output compared, for whole and damaged records, and for lists of every kind.

use crate::asks::{marc_heading, told};
use crate::draw::Draw;
use crate::records::{damaged, long_record, record, record_of, strings, Field, List, FIELD_END, RECORD_END};
use shuuxideg::{WideRefusal, RECORD_NODES};
use std::fs;
use std::path::Path;

/// The numbers that a call can answer with, 0 for a heading.
const NUMBERS: [u16; 7] = [0, 19, 8, 17, 20, 21, 22];

/// How often each number, and each kind of place of 17, was met.
#[derive(Default, Debug)]
struct Met {
    asked: usize,
    numbers: [usize; NUMBERS.len()],
    /// record length, base address, an entry's length and start, the directory's mark, a field's, the record's
    frames: [usize; 7],
    /// the name, the dates
    unlisted: [usize; 2],
    /// a place that 16 bits do not hold
    far: usize,
}

impl Met {
    fn ask(&mut self, record: &[u8], list: &List, absent: u16, room: usize) {
        let refusal = match marc_heading(record, list, absent, room) {
            Ok(_) => WideRefusal { number: 0, place: 0 },
            Err(refusal) => refusal,
        };
        self.asked += 1;
        self.numbers[NUMBERS.iter().position(|&number| number == refusal.number).expect("a number of this call")] += 1;
        self.far += usize::from(refusal.place > u64::from(u16::MAX));
        match refusal.number {
            17 => self.frames[frame_test(record, refusal.place as usize)] += 1,
            22 => self.unlisted[refusal.place as usize] += 1,
            8 | 20 | 21 => assert_eq!(refusal.place, 0),
            _ => {}
        }
    }

    fn all_met(&self, times: usize) -> bool {
        self.numbers.iter().chain(&self.frames).chain(&self.unlisted).all(|&met| met >= times)
    }
}

/// Which test of the frame a place belongs to, as far as it can be told without making the test.
fn frame_test(record: &[u8], place: usize) -> usize {
    let base = || std::str::from_utf8(&record[12..17]).unwrap().parse::<usize>().unwrap();
    match place {
        0 => 0,
        12 => 1,
        _ if place + 1 == record.len() => 6,
        _ if place + 1 == base() => 4,
        _ if place >= base() => 5,
        _ if (place - 24) % 12 == 3 => 2,
        _ => {
            assert_eq!((place - 24) % 12, 7);
            3
        }
    }
}

fn room(draw: &mut Draw) -> usize {
    draw.one(&[0, 1, 2, 3, 3, 3, 3, 4, 5, 6, 7, 8, 3, 3, 3, 8])
}

/// A record, and a list by which it is often read.
fn question(draw: &mut Draw) -> (Vec<u8>, List, u16) {
    let count = draw.one(&[0, 1, 2, 3, 5, 8, 12, 23, 24, 25, 40]);
    let known = strings(draw, count);
    (record(draw, &known), List::drawn(draw, &known), draw.one(&[0, 1, 399, 5000, 65535]))
}

#[test]
fn whole_and_damaged_records() {
    let mut draw = Draw::new(70);
    let mut met = Met::default();
    for _ in 0..20_000 {
        let (record, list, absent) = question(&mut draw);
        met.ask(&record, &list, absent, room(&mut draw));
        let once = damaged(&mut draw, &record);
        met.ask(&once, &list, absent, RECORD_NODES);
        if !once.is_empty() {
            met.ask(&damaged(&mut draw, &once), &list, absent, RECORD_NODES);
        }
    }
    assert!(met.all_met(300), "{:?}", met);
    told("exchange records, whole and damaged", met.asked, 59_000);
}

#[test]
fn lists_of_every_kind() {
    let mut draw = Draw::new(71);
    let mut met = Met::default();
    for _ in 0..20_000 {
        let (record, list, absent) = question(&mut draw);
        let once = list.damaged(&mut draw, absent);
        met.ask(&record, &once, absent, RECORD_NODES);
        met.ask(&record, &once.damaged(&mut draw, absent), absent, room(&mut draw));
    }
    assert!(met.numbers.iter().enumerate().all(|(index, &times)| times > 300 || NUMBERS[index] == 17), "{:?}", met);
    told("exchange records, lists of every kind", met.asked, 40_000);
}

#[test]
fn long_lists_and_long_records() {
    let mut draw = Draw::new(72);
    let mut met = Met::default();
    for _ in 0..300 {
        let count = draw.one(&[100, 255, 256, 257, 500, 1000]);
        let known = strings(&mut draw, count);
        let mut list = List::drawn(&mut draw, &known);
        if draw.chance(30) {
            list = list.damaged(&mut draw, 65535);
        }
        let bytes = draw.one(&[9_999, 10_000, 65_535, 65_536, 65_600, 99_998, 99_999]);
        let mut record = long_record(&mut draw, &known, bytes);
        met.ask(&record, &list, 65535, RECORD_NODES);
        *record.last_mut().unwrap() = FIELD_END;
        met.ask(&record, &list, 65535, RECORD_NODES);
    }
    assert!(met.far > 50 && met.numbers[0] > 50, "{:?}", met);
    told("exchange records, long lists and long records", met.asked, 600);
}

/// So many strings in no order, no two the same.
fn many_strings(count: usize) -> Vec<Vec<u8>> {
    (0..count as u32).map(|k| k.wrapping_mul(0x9e37_79b1).to_be_bytes().to_vec()).collect()
}

/// Such strings that the proved test has on one chain: their digest takes a byte 31 times with the next one added, so that it is the same of all.
fn strings_of_one_digest(count: usize) -> Vec<Vec<u8>> {
    (0..count).map(|k| (0..10).flat_map(|bit| if k >> bit & 1 == 0 { *b"B[" } else { *b"Az" }).collect()).collect()
}

/// A string twice, in entries at the edges of blocks of 16,384 strings, and sometimes the number of absent dates: the first fault is told.
#[test]
fn lists_of_several_blocks() {
    let mut draw = Draw::new(74);
    let mut met = Met::default();
    for strings in [16_384, 16_385, 32_769, 50_000].map(many_strings).into_iter().chain([strings_of_one_digest(600)]) {
        let (count, record) = (strings.len(), record(&mut draw, &strings[..1]));
        met.ask(&record, &List::new(&strings, vec![7; count]), 8, RECORD_NODES);
        let mut edges = vec![0, 300, 16_383, 16_384, 32_768, count - 1];
        edges.retain(|&edge| edge < count);
        edges.dedup();
        for (index, &later) in edges.iter().enumerate() {
            for &earlier in &edges[..index] {
                let (mut twice, mut numbers) = (strings.clone(), vec![7; count]);
                twice[later] = strings[earlier].clone();
                let absent = draw.below(2 * count);
                numbers.iter_mut().skip(absent).take(1).for_each(|number| *number = 8);
                let told = marc_heading(&record, &List::new(&twice, numbers), 8, RECORD_NODES);
                assert_eq!(told, Err(WideRefusal { number: 19, place: later.min(absent) as u64 }));
                met.asked += 1;
            }
        }
    }
    assert!(met.numbers[1] == 0, "{:?}", met);
    told("exchange records, lists of several blocks", met.asked, 40);
}

#[test]
fn each_byte_and_each_length() {
    let mut draw = Draw::new(73);
    let field = |tag: &[u8; 3], bytes: &[u8]| Field { tag: *tag, bytes: bytes.to_vec() };
    let record = record_of(&[field(b"101", b"7"), field(b"100", b"1 \x1faA\x1fdD"), field(b"400", b"1 \x1faD")]);
    let list = List::new(&[b"A".to_vec(), b"D".to_vec(), b"AD".to_vec()], vec![3, 5, 5]);
    let mut met = Met::default();
    for at in 0..record.len() {
        for byte in 0..=255 {
            let mut changed = record.clone();
            changed[at] = byte;
            met.ask(&changed, &list, 8, RECORD_NODES);
        }
    }
    let more = [&record[..], &[RECORD_END; 30]].concat();
    for length in 0..more.len() {
        met.ask(&more[..length], &list, 8, draw.below(9));
    }
    assert!(met.numbers.iter().enumerate().all(|(index, &times)| times > 0 || NUMBERS[index] == 19), "{:?}", met);
    told("exchange records, each byte and each length", met.asked, 20_000);
}

/// The records of an input, each as long as it says; what follows the last that can be cut off counts as one more.
fn records_in(mut bytes: &[u8]) -> Vec<&[u8]> {
    let mut records = Vec::new();
    while let Some(length) = bytes.get(..5).and_then(|digits| std::str::from_utf8(digits).ok()?.parse().ok()) {
        if length == 0 || length > bytes.len() {
            break;
        }
        let (record, rest) = bytes.split_at(length);
        records.push(record);
        bytes = rest;
    }
    records.push(bytes);
    records
}

/// Records that other programs made, and damaged ones: the files of tests/marc, if they are there, whole and cut into records.
#[test]
fn stored_records() {
    let folder = Path::new(file!()).with_file_name("../../../tests/marc");
    let names = ["Strauss, Johann,", "Strauss, Johann", "1804-1849", "1825-1899", "Strauss, J.", ""];
    let list = List::new(&names.map(|name| name.as_bytes().to_vec()), vec![3, 3, 5, 6, 3, 9]);
    let mut met = Met::default();
    for kind in ["made", "damaged"] {
        let files = fs::read_dir(folder.join(kind)).into_iter().flatten();
        for file in files {
            let bytes = fs::read(file.unwrap().path()).unwrap();
            met.ask(&bytes, &list, 8, RECORD_NODES);
            records_in(&bytes).iter().for_each(|record| met.ask(record, &list, 8, RECORD_NODES));
        }
    }
    let there = folder.exists();
    assert!(!there || met.numbers[0] >= 30 && met.frames.iter().all(|&times| times > 0), "{:?}", met);
    told("exchange records, stored", met.asked, if there { 200 } else { 0 });
}
