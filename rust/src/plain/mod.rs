//! The calls in plain Rust, written from the rules of the formats alone: nothing here is taken over from the proved library, and both
//! are compared by the tests. Safe code; scratch is on the stack, in classes by size, so that a small call clears little. Nothing is
//! allocated, but for a long list of known strings in any order.

mod degrees;
mod facing;
mod known;
mod marc;
mod matching;
mod near;
mod position;
mod runs;
mod saved;
mod table;
mod terms;
mod writer;

use crate::{Answer, Degrees, Pair, Refusal};
use table::{Table, TOP};
use terms::{check_heading, check_pattern};

pub use marc::marc_heading;
pub use saved::widen;
pub use writer::write_table;

fn refuse<T>(number: u16, place: usize) -> Answer<T> {
    Err(Refusal { number, place: place as u16 })
}

/// Is this a table? Refusals 1 to 4.
pub fn check_table(table: &[u8]) -> Answer<()> {
    Table::read(table).map(|_| ())
}

/// How near two symbols are. Refusals 1 to 4, and 13 at 0 or 1: the first of the two numbers that is no symbol of the table.
pub fn symbol_degree(table: &[u8], a: u16, b: u16) -> Answer<u16> {
    let table = Table::read(table)?;
    match [a, b].iter().position(|&symbol| table.arity(symbol).is_none()) {
        Some(place) => refuse(13, place),
        None if a == b => Ok(TOP),
        None => Ok(table.degree(a, b)),
    }
}

/// The arity of a symbol. Refusals 1 to 4 and 14.
pub fn arity(table: &[u8], symbol: u16) -> Answer<u8> {
    Table::read(table)?.arity(symbol).map_or_else(|| refuse(14, 0), Ok)
}

/// The pair at an index. Refusals 1 to 4 and 14.
pub fn pair(table: &[u8], index: usize) -> Answer<Pair> {
    Table::read(table)?.pair(index).map_or_else(|| refuse(14, 0), Ok)
}

/// How near two headings are. Refuses the table by 1 to 4, the first heading by 6, the second by 7.
pub fn heading_degree(table: &[u8], first: &[u16], second: &[u16]) -> Answer<u16> {
    let table = Table::read(table)?;
    check_heading(&table, first).or_else(|place| refuse(6, place))?;
    check_heading(&table, second).or_else(|place| refuse(7, place))?;
    let [degree] = terms::degrees(&table, [(first, second)]);
    Ok(degree)
}

/// The subterm at an index, as that part of the term. Where there is no such node, and where one of the two lists is refused, it is the empty
/// part at the term's start.
pub fn subterm<'a>(table: &[u8], term: &'a [u16], index: usize) -> &'a [u16] {
    match Table::read(table) {
        Ok(table) if index < term.len() && check_pattern(&table, term).is_ok() => {
            &term[index..index + terms::nodes_at(&table, term, index)]
        }
        _ => &term[..0],
    }
}

/// The candidate that is nearer to the heading, whole, the first if both are as near; the empty part at the first one's start if the
/// table or one of the three is refused.
pub fn nearer<'a>(table: &[u8], heading: &[u16], first: &'a [u16], second: &'a [u16]) -> &'a [u16] {
    let refused = &first[..0];
    let table = match Table::read(table) {
        Ok(table) => table,
        Err(_) => return refused,
    };
    if [heading, first, second].iter().any(|nodes| check_heading(&table, nodes).is_err()) {
        return refused;
    }
    let [of_first, of_second] = terms::degrees(&table, [(heading, first), (heading, second)]);
    if of_second > of_first {
        second
    } else {
        first
    }
}

/// All terms for the pattern's variables that bring it within the cut of the heading, in spans and sets. Refusals 1 to 10: 1 to 8 leave
/// both buffers as they were, 9 and 10 fill them with 0.
pub fn match_heading(
    table: &[u8],
    pattern: &[u16],
    heading: &[u16],
    cut: u16,
    spans: &mut [u16],
    sets: &mut [u64],
) -> Answer<Degrees> {
    let table = Table::read(table)?;
    if !(1..=TOP).contains(&cut) {
        return refuse(5, 0);
    }
    check_pattern(&table, pattern).or_else(|place| refuse(6, place))?;
    check_heading(&table, heading).or_else(|place| refuse(7, place))?;
    if spans.len() < crate::SPANS || sets.len() < crate::WORDS * heading.len() {
        return refuse(8, 0);
    }
    matching::Question { table: &table, pattern, heading, cut }.answer(spans, sets).map_err(|refusal| {
        spans.fill(0);
        matching::clear(sets);
        refusal
    })
}
