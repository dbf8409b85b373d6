//! The converter of saved answers.

use super::refuse;
use crate::{Answer, SAVED_WORDS, WORDS};

/// Makes the sets of a saved answer sets of today, and returns how many words were written; those behind them stay. Refusal 8, which writes
/// nothing.
pub fn widen(words: &[u64], out: &mut [u64]) -> Answer<usize> {
    let sets = words.chunks_exact(SAVED_WORDS);
    let written = WORDS * sets.len();
    if !sets.remainder().is_empty() || out.len() < written {
        return refuse(8, 0);
    }
    for (to, set) in out.chunks_exact_mut(WORDS).zip(sets) {
        let (saved, new) = to.split_at_mut(SAVED_WORDS);
        saved.copy_from_slice(set);
        new.fill(0);
    }
    Ok(written)
}
