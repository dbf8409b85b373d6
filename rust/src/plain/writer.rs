//! The table writer.

use super::refuse;
use super::runs::{Window, BEFORE, RUN};
use super::table::{check_arities, check_counts, check_pairs, HEADER, PAIR};
use crate::{Answer, Pair};

/// Writes the table file and returns its length; bytes behind it stay. Refusals 2, 3, 4 and 8, which write nothing.
pub fn write_table(arities: &[u8], pairs: &[Pair], out: &mut [u8]) -> Answer<usize> {
    check_counts(arities.len(), pairs.len())?;
    check_arities(arities)?;
    let window = |index: usize| image(&pairs[index..index + BEFORE + RUN]);
    check_pairs(arities, pairs.len(), |index| pairs[index..].iter().copied(), window)?;
    let pairs_at = HEADER + arities.len();
    let total = pairs_at + PAIR * pairs.len();
    let out = match out.get_mut(..total) {
        Some(out) => out,
        None => return refuse(8, 0),
    };
    let (front, back) = out.split_at_mut(pairs_at);
    let numbers = [arities.len(), pairs.len(), HEADER, pairs_at, total];
    for (bytes, number) in front.chunks_exact_mut(2).zip(numbers) {
        bytes.copy_from_slice(&(number as u16).to_le_bytes());
    }
    front[HEADER..].copy_from_slice(arities);
    put(pairs, back);
    Ok(total)
}

/// Writes the pairs as they lie in a table. For a block, whose size it knows, the compiler makes a copy of it all, without a loop.
#[inline(always)]
fn put(pairs: &[Pair], out: &mut [u8]) {
    const BLOCK: usize = 16;
    let (mut blocks, mut out_blocks) = (pairs.chunks_exact(BLOCK), out.chunks_exact_mut(PAIR * BLOCK));
    for (pairs, out) in (&mut blocks).zip(&mut out_blocks) {
        put_each(pairs, out);
    }
    put_each(blocks.remainder(), out_blocks.into_remainder());
}

#[inline(always)]
fn put_each(pairs: &[Pair], out: &mut [u8]) {
    for (bytes, pair) in out.chunks_exact_mut(PAIR).zip(pairs) {
        bytes[..2].copy_from_slice(&pair.lower.to_le_bytes());
        bytes[2..4].copy_from_slice(&pair.higher.to_le_bytes());
        bytes[4..].copy_from_slice(&pair.degree.to_le_bytes());
    }
}

#[inline(always)]
fn image(pairs: &[Pair]) -> Window {
    let mut window = [0; PAIR * (BEFORE + RUN)];
    put(pairs, &mut window);
    window
}
