//! The heading of a MARC 21 record in the frame of ISO 2709.

use super::known::Checked;
use crate::{Known, WideRefusal, RECORD_NODES};
use std::ops::Range;

/// The leader, and in it the base address.
const LEADER: usize = 24;
const BASE: Range<usize> = 12..17;
/// An entry of the directory, and in it the length and the start of its field.
const ENTRY: usize = 12;
const LENGTH: Range<usize> = 3..7;
const START: Range<usize> = 7..12;
/// Leader, directory's end and record's end: no record is shorter.
const SHORTEST: usize = LEADER + 2;
const INDICATORS: usize = 2;
const RECORD_END: u8 = 0x1d;
const FIELD_END: u8 = 0x1e;
const DELIMITER: u8 = 0x1f;

fn refusal(number: u16, place: usize) -> WideRefusal {
    WideRefusal { number, place: place as u64 }
}

/// Writes the heading of an exchange record to the front of the nodes: the heading symbol, and the numbers of the name and of the dates in its
/// first 100 field, or the absent number where that has no dates. The nodes behind the three stay. Refusals 19, 8, 17, 20, 21 and 22, in
/// this order, which write nothing.
pub fn marc_heading(
    record: &[u8],
    known: Known,
    heading: u16,
    absent: u16,
    nodes: &mut [u16],
) -> Result<(), WideRefusal> {
    let known = Checked::new(known, absent).map_err(|entry| refusal(19, entry))?;
    let nodes = nodes.get_mut(..RECORD_NODES).ok_or(refusal(8, 0))?;
    let (name, dates) = name_and_dates(first_100(record)?);
    let name = known.number(name.ok_or(refusal(21, 0))?).ok_or(refusal(22, 0))?;
    let dates = match dates {
        Some(dates) => known.number(dates).ok_or(refusal(22, 1))?,
        None => absent,
    };
    nodes.copy_from_slice(&[heading, name, dates]);
    Ok(())
}

fn number(digits: &[u8]) -> Option<usize> {
    digits.iter().try_fold(0, |number, byte| match byte {
        b'0'..=b'9' => Some(10 * number + usize::from(byte - b'0')),
        _ => None,
    })
}

/// Where a field lies, without the mark that ends it and stands before `last`; or where in the entry the number stands that is bad. (Within the
/// loop below it takes a fifth less, and that loop apart from the rest another tenth.)
#[inline(always)]
fn field(entry: &[u8], base: usize, last: usize) -> Result<Range<usize>, usize> {
    let length = number(&entry[LENGTH]).filter(|&length| length > 0).ok_or(LENGTH.start)?;
    let start = number(&entry[START]).map(|start| base + start).filter(|start| start + length <= last);
    start.map(|start| start..start + length - 1).ok_or(START.start)
}

/// The first 100 field. One pass over the directory makes the tests: a bad number of an entry comes before all that is seen of the fields, so
/// the first field without its mark is only noted. Refusals 17 and 20.
#[inline(never)]
fn first_100(record: &[u8]) -> Result<&[u8], WideRefusal> {
    let bad = |place| refusal(17, place);
    if record.len() < SHORTEST || number(&record[..5]) != Some(record.len()) {
        return Err(bad(0));
    }
    let last = record.len() - 1;
    let may_be_base = |base: &usize| (SHORTEST - 1..=last).contains(base) && (base - (SHORTEST - 1)) % ENTRY == 0;
    let base = number(&record[BASE]).filter(may_be_base).ok_or(bad(BASE.start))?;
    let entries = record[LEADER..base - 1].chunks_exact(ENTRY);
    let mut unmarked = None;
    for (index, entry) in entries.clone().enumerate() {
        let field = field(entry, base, last).map_err(|place| bad(LEADER + ENTRY * index + place))?;
        if record[field.end] != FIELD_END {
            unmarked = unmarked.or(Some(field.end));
        }
    }
    if record[base - 1] != FIELD_END {
        return Err(bad(base - 1));
    }
    if let Some(mark) = unmarked {
        return Err(bad(mark));
    }
    if record[last] != RECORD_END {
        return Err(bad(last));
    }
    let entry = entries.clone().find(|entry| entry.starts_with(b"100")).ok_or(refusal(20, 0))?;
    field(entry, base, last).map(|field| &record[field]).map_err(bad)
}

/// The texts of the first subfields a and d. What stands before the first delimiter belongs to none, and a delimiter with another one or nothing
/// behind it has no code.
fn name_and_dates(field: &[u8]) -> (Option<&[u8]>, Option<&[u8]>) {
    let (mut name, mut dates) = (None, None);
    let behind = field.get(INDICATORS..).unwrap_or(&[]);
    for subfield in behind.split(|&byte| byte == DELIMITER).skip(1) {
        match subfield.split_first() {
            Some((b'a', text)) if name.is_none() => name = Some(text),
            Some((b'd', text)) if dates.is_none() => dates = Some(text),
            _ => {}
        }
    }
    (name, dates)
}
