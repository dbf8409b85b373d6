//! The C interface itself: what is written through the pointers that are lent for answers. A refusal leaves them, but for a match's degrees.

use crate::asks::told;
use crate::draw::{damaged, damaged_file, damaged_pairs, Draw, Drawn};
use crate::records;
use shuuxideg::{ffi, plain, Known, Refusal, WORDS};

const BEFORE: u16 = 4711;

/// The answer of 32 bits for a plain result.
fn answer<T>(plain: &Result<T, Refusal>) -> u32 {
    plain.as_ref().map_or_else(|refusal| u32::from(refusal.place) << 16 | u32::from(refusal.number), |_| 0)
}

#[test]
fn answers_through_pointers() {
    let mut draw = Draw::new(40);
    let mut asked = 0;
    for _ in 0..3000 {
        let table = Drawn::small(&mut draw);
        let file = if draw.chance(70) { table.file() } else { damaged_file(&mut draw, &table.file()) };
        let (mut pattern, mut heading) = table.question(&mut draw, 8, 5);
        if draw.chance(30) {
            pattern = damaged(&mut draw, &pattern);
        }
        if draw.chance(30) {
            heading = damaged(&mut draw, &heading);
        }
        numbers(&mut draw, &file);
        degrees(&file, &pattern, &heading, draw.one(&[0, 1, 500, 700]));
        writing(&mut draw, &table);
        widening(&mut draw);
        record(&mut draw);
        asked += 9;
    }
    told("raw, answers through pointers", asked, 27_000);
}

fn numbers(draw: &mut Draw, file: &[u8]) {
    let (a, b, index) = (draw.below(9) as u16, draw.below(9) as u16, draw.below(9) + draw.one(&[0, 0, 1 << 16]));
    let mut degree = BEFORE;
    let ours = unsafe { ffi::shx_symbol_degree(file.as_ptr(), file.len(), a, b, &mut degree) };
    let plain = plain::symbol_degree(file, a, b);
    assert_eq!((ours, degree), (answer(&plain), plain.unwrap_or(BEFORE)));

    let mut arity = 77;
    let ours = unsafe { ffi::shx_arity(file.as_ptr(), file.len(), a, &mut arity) };
    let plain = plain::arity(file, a);
    assert_eq!((ours, arity), (answer(&plain), plain.unwrap_or(77)));

    let mut pair = shuuxideg::Pair { lower: BEFORE, higher: BEFORE, degree: BEFORE };
    let unwritten = pair;
    let ours =
        unsafe { ffi::shx_pair(file.as_ptr(), file.len(), index, &mut pair.lower, &mut pair.higher, &mut pair.degree) };
    let plain = plain::pair(file, index);
    assert_eq!((ours, pair), (answer(&plain), plain.unwrap_or(unwritten)));
    assert_eq!(unsafe { ffi::shx_table(file.as_ptr(), file.len()) }, answer(&plain::check_table(file)));
}

fn degrees(file: &[u8], pattern: &[u16], heading: &[u16], cut: u16) {
    let mut degree = BEFORE;
    let ours = unsafe {
        ffi::shx_heading_degree(
            file.as_ptr(),
            file.len(),
            heading.as_ptr(),
            heading.len(),
            pattern.as_ptr(),
            pattern.len(),
            &mut degree,
        )
    };
    let plain = plain::heading_degree(file, heading, pattern);
    assert_eq!((ours, degree), (answer(&plain), plain.unwrap_or(BEFORE)));

    let (mut spans, mut sets) = (vec![0; 128], vec![0; WORDS * heading.len()]);
    let (mut lowest, mut highest) = (BEFORE, BEFORE);
    let ours = unsafe {
        ffi::shx_match(
            file.as_ptr(),
            file.len(),
            pattern.as_ptr(),
            pattern.len(),
            heading.as_ptr(),
            heading.len(),
            cut,
            spans.as_mut_ptr(),
            spans.len(),
            sets.as_mut_ptr(),
            sets.len(),
            &mut lowest,
            &mut highest,
        )
    };
    let plain = plain::match_heading(file, pattern, heading, cut, &mut spans, &mut sets);
    let expected = plain.as_ref().map_or((0, 0), |degrees| (degrees.lowest, degrees.highest));
    assert_eq!((ours, lowest, highest), (answer(&plain), expected.0, expected.1));
}

fn writing(draw: &mut Draw, table: &Drawn) {
    let symbols = table.arities.len();
    let pairs = if draw.chance(50) { table.pairs.clone() } else { damaged_pairs(draw, symbols, &table.pairs) };
    let mut out = vec![0; table.file().len() - draw.below(2)];
    let mut total = usize::from(BEFORE);
    let ours = unsafe {
        ffi::shx_write_table(
            table.arities.as_ptr(),
            symbols,
            pairs.as_ptr(),
            pairs.len(),
            out.as_mut_ptr(),
            out.len(),
            &mut total,
        )
    };
    let plain = plain::write_table(&table.arities, &pairs, &mut out);
    assert_eq!((ours, total), (answer(&plain), plain.unwrap_or(usize::from(BEFORE))));
}

fn widening(draw: &mut Draw) {
    let words = vec![7; draw.below(10)];
    let mut out = vec![0; draw.below(20)];
    let mut written = usize::from(BEFORE);
    let ours =
        unsafe { ffi::shx_widen(words.as_ptr(), words.len(), out.as_mut_ptr(), out.len(), &mut written) };
    let plain = plain::widen(&words, &mut out);
    assert_eq!((ours, written), (answer(&plain), plain.unwrap_or(usize::from(BEFORE))));
}

/// Three strings, a record of them, whole or not, and the answer of 64 bits.
fn record(draw: &mut Draw) {
    let strings = records::strings(draw, 3);
    let list = records::List::drawn(draw, &strings);
    let mut record = records::record(draw, &strings);
    if draw.chance(40) {
        record = records::damaged(draw, &record);
    }
    let (heading, absent, mut nodes) = (draw.node(), draw.node(), vec![BEFORE; draw.below(6)]);
    let mut after = nodes.clone();
    let ours = unsafe {
        ffi::shx_marc_heading(
            record.as_ptr(),
            record.len(),
            list.text.as_ptr(),
            list.text.len(),
            list.ends.as_ptr(),
            list.ends.len(),
            list.numbers.as_ptr(),
            list.numbers.len(),
            heading,
            absent,
            nodes.as_mut_ptr(),
            nodes.len(),
        )
    };
    let known = Known { text: &list.text, ends: &list.ends, numbers: &list.numbers };
    let plain = plain::marc_heading(&record, known, heading, absent, &mut after);
    let answer = plain.map_or_else(|refusal| refusal.place << 16 | u64::from(refusal.number), |_| 0);
    assert_eq!((ours, nodes), (answer, after));
}
