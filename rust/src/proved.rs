//! The proved library: each function hands what it was lent to the C interface, and its answer back.
//!
//! What makes the calls sound is that the library reads and writes nothing but the parts that it is lent by pointer and length, which is
//! proved of it, and that a slice is such a part.

use crate::ffi;
use crate::{Answer, Degrees, Known, Pair, Refusal, WideRefusal};

fn accepted(answer: u32) -> Answer<()> {
    match answer as u16 {
        0 => Ok(()),
        number => Err(Refusal { number, place: (answer >> 16) as u16 }),
    }
}

/// Is this a table? Refusals 1 to 4.
pub fn check_table(table: &[u8]) -> Answer<()> {
    accepted(unsafe { ffi::shx_table(table.as_ptr(), table.len()) })
}

/// How near two symbols are. Refusals 1 to 4, and 13 at 0 or 1: the first of the two numbers that is no symbol of the table.
pub fn symbol_degree(table: &[u8], a: u16, b: u16) -> Answer<u16> {
    let mut degree = 0;
    accepted(unsafe { ffi::shx_symbol_degree(table.as_ptr(), table.len(), a, b, &mut degree) })?;
    Ok(degree)
}

/// The arity of a symbol. Refusals 1 to 4 and 14.
pub fn arity(table: &[u8], symbol: u16) -> Answer<u8> {
    let mut arity = 0;
    accepted(unsafe { ffi::shx_arity(table.as_ptr(), table.len(), symbol, &mut arity) })?;
    Ok(arity)
}

/// The pair at an index. Refusals 1 to 4 and 14.
pub fn pair(table: &[u8], index: usize) -> Answer<Pair> {
    let mut pair = Pair { lower: 0, higher: 0, degree: 0 };
    accepted(unsafe {
        ffi::shx_pair(table.as_ptr(), table.len(), index, &mut pair.lower, &mut pair.higher, &mut pair.degree)
    })?;
    Ok(pair)
}

/// How near two headings are. Refuses the table by 1 to 4, the first heading by 6, the second by 7.
pub fn heading_degree(table: &[u8], first: &[u16], second: &[u16]) -> Answer<u16> {
    let mut degree = 0;
    accepted(unsafe {
        ffi::shx_heading_degree(
            table.as_ptr(),
            table.len(),
            first.as_ptr(),
            first.len(),
            second.as_ptr(),
            second.len(),
            &mut degree,
        )
    })?;
    Ok(degree)
}

/// The subterm at an index, as that part of the term. Where there is no such node, and where one of the two lists is refused, it is the empty
/// part at the term's start.
pub fn subterm<'a>(table: &[u8], term: &'a [u16], index: usize) -> &'a [u16] {
    let nodes = unsafe { ffi::shx_subterm(table.as_ptr(), table.len(), term.as_ptr(), term.len(), index) };
    if nodes == 0 {
        &term[..0]
    } else {
        &term[index..index + nodes]
    }
}

/// The candidate that is nearer to the heading, whole, the first if both are as near; the empty part at the first one's start if the
/// table or one of the three is refused.
pub fn nearer<'a>(table: &[u8], heading: &[u16], first: &'a [u16], second: &'a [u16]) -> &'a [u16] {
    let which = unsafe {
        ffi::shx_nearer(
            table.as_ptr(),
            table.len(),
            heading.as_ptr(),
            heading.len(),
            first.as_ptr(),
            first.len(),
            second.as_ptr(),
            second.len(),
        )
    };
    match which {
        1 => first,
        2 => second,
        _ => &first[..0],
    }
}

/// All terms for the pattern's variables that bring it within the cut of the heading, in spans and sets. Refusals 1 to 10: 1 to 8 leave
/// both buffers as they were, 9 and 10 fill them with 0.
pub fn match_heading(
    table: &[u8],
    pattern: &[u16],
    heading: &[u16],
    cut: u16,
    spans: &mut [u16],
    sets: &mut [u64],
) -> Answer<Degrees> {
    let (mut lowest, mut highest) = (0, 0);
    accepted(unsafe {
        ffi::shx_match(
            table.as_ptr(),
            table.len(),
            pattern.as_ptr(),
            pattern.len(),
            heading.as_ptr(),
            heading.len(),
            cut,
            spans.as_mut_ptr(),
            spans.len(),
            sets.as_mut_ptr(),
            sets.len(),
            &mut lowest,
            &mut highest,
        )
    })?;
    Ok(Degrees { lowest, highest })
}

/// Writes the table file and returns its length; bytes behind it stay. Refusals 2, 3, 4 and 8, which write nothing.
pub fn write_table(arities: &[u8], pairs: &[Pair], out: &mut [u8]) -> Answer<usize> {
    let mut total = 0;
    accepted(unsafe {
        ffi::shx_write_table(
            arities.as_ptr(),
            arities.len(),
            pairs.as_ptr(),
            pairs.len(),
            out.as_mut_ptr(),
            out.len(),
            &mut total,
        )
    })?;
    Ok(total)
}

/// Makes the sets of a saved answer, of [`crate::SAVED_WORDS`] words each, sets of today, and returns how many words were written; those behind
/// them stay. Refusal 8, which writes nothing.
pub fn widen(words: &[u64], out: &mut [u64]) -> Answer<usize> {
    let mut written = 0;
    accepted(unsafe { ffi::shx_widen(words.as_ptr(), words.len(), out.as_mut_ptr(), out.len(), &mut written) })?;
    Ok(written)
}

/// Writes the heading of an exchange record to the front of the nodes: the heading symbol, and the numbers of the name and of the dates in its
/// first 100 field, or the absent number where that has no dates. The nodes behind the three stay. Refusals 19, 8, 17, 20, 21 and 22, in
/// this order, which write nothing.
pub fn marc_heading(
    record: &[u8],
    known: Known,
    heading: u16,
    absent: u16,
    nodes: &mut [u16],
) -> Result<(), WideRefusal> {
    let answer = unsafe {
        ffi::shx_marc_heading(
            record.as_ptr(),
            record.len(),
            known.text.as_ptr(),
            known.text.len(),
            known.ends.as_ptr(),
            known.ends.len(),
            known.numbers.as_ptr(),
            known.numbers.len(),
            heading,
            absent,
            nodes.as_mut_ptr(),
            nodes.len(),
        )
    };
    match answer as u16 {
        0 => Ok(()),
        number => Err(WideRefusal { number, place: answer >> 16 }),
    }
}
