//! The table file: its check, and what is looked up in it.

use super::refuse;
use super::runs::{self, Window, BEFORE, RUN};
use crate::{Answer, Pair, WORDS};
use std::borrow::Borrow;
use std::mem::size_of;

/// The highest degree: of a symbol with itself.
pub const TOP: u16 = 1000;
/// The highest degree that a pair may have.
pub const LISTED_TOP: u16 = 999;
/// How many bytes stand before the arities.
pub const HEADER: usize = 10;
/// How many bytes a pair has.
pub const PAIR: usize = 6;

/// A set has a bit for each symbol.
pub const MAX_SYMBOLS: usize = 64 * WORDS;
const MAX_PAIRS: usize = 8192;
const MAX_ARITY: u8 = 8;

/// A table file that has passed its check.
pub struct Table<'a> {
    arities: &'a [u8],
    pub pairs: Pairs<'a>,
}

/// Pairs as they lie in a table.
#[derive(Clone, Copy)]
pub struct Pairs<'a>(&'a [u8]);

impl<'a> Pairs<'a> {
    #[inline]
    pub fn len(&self) -> usize {
        self.0.len() / PAIR
    }

    /// By blocks, and what is left.
    #[inline(always)]
    pub fn blocks(self) -> (impl Iterator<Item = Block<'a>>, Pairs<'a>) {
        let blocks = self.0.chunks_exact(PAIR * BLOCK);
        let rest = Pairs(blocks.remainder());
        (blocks.map(|block| Block(block.try_into().expect("a block's bytes"))), rest)
    }

    #[inline(always)]
    pub fn for_each(self, mut hand_on: impl FnMut(Pair)) {
        let (blocks, rest) = self.blocks();
        blocks.for_each(|block| block.for_each(&mut hand_on));
        rest.0.chunks_exact(PAIR).map(pair_of).for_each(hand_on);
    }
}

/// How many pairs a block has.
const BLOCK: usize = 8;

/// As many pairs as the compiler makes no loop for.
#[derive(Clone, Copy)]
pub struct Block<'a>(&'a [u8; PAIR * BLOCK]);

impl Block<'_> {
    #[inline(always)]
    pub fn for_each(self, hand_on: impl FnMut(Pair)) {
        self.0.chunks_exact(PAIR).map(pair_of).for_each(hand_on);
    }

    /// The lower symbol of all, if they have one: they rise.
    #[inline(always)]
    pub fn one_lower(self) -> Option<u16> {
        let (first, last) = (word(self.0, 0), word(self.0, PAIR * (BLOCK - 1)));
        (first == last).then_some(first)
    }
}

pub fn check_counts(symbols: usize, pairs: usize) -> Answer<()> {
    if (1..=MAX_SYMBOLS).contains(&symbols) && pairs <= MAX_PAIRS {
        Ok(())
    } else {
        refuse(2, 0)
    }
}

pub fn check_arities(arities: &[u8]) -> Answer<()> {
    // The greatest is found many at a time; which one is at fault is only looked for if there is one.
    let greatest = arities.iter().fold(0, |greatest, &arity| arity.max(greatest));
    if greatest <= MAX_ARITY {
        return Ok(());
    }
    refuse(3, arities.iter().position(|&arity| arity > MAX_ARITY).unwrap_or(0))
}

/// A number that rises as pairs must: by lower symbol, then by higher.
#[inline]
fn key(lower: u16, higher: u16) -> u32 {
    u32::from(lower) << 16 | u32::from(higher)
}

/// Pair by pair from that index on: each is sound by itself and comes after the one before it, where one was seen.
#[inline]
fn walk(arities: &[u8], first: usize, mut pairs: impl Iterator<Item = Pair>) -> Answer<()> {
    let mut before = 0; // below the key of every sound pair
    let fault = pairs.position(|Pair { lower, higher, degree }| {
        let rises = key(lower, higher) > before;
        before = key(lower, higher);
        let (lower, higher) = (usize::from(lower), usize::from(higher));
        let alike = higher < arities.len() && arities[..higher].get(lower) == Some(&arities[higher]);
        !rises || !alike || degree.wrapping_sub(1) >= LISTED_TOP
    });
    fault.map_or(Ok(()), |index| refuse(4, first + index))
}

/// The pairs, which are handed out one by one from an index on, or as the window that begins there: in runs, if there are enough of them.
#[inline]
pub fn check_pairs<I: Iterator<Item = Pair>, W: Borrow<Window>>(
    arities: &[u8],
    count: usize,
    pairs: impl Fn(usize) -> I,
    window: impl Fn(usize) -> W,
) -> Answer<()> {
    if count < BEFORE + RUN {
        walk(arities, 0, pairs(0))
    } else {
        check_runs(arities, count, pairs, window)
    }
}

/// Between the runs that pass and the end the pairs are walked, from the last that is known to be sound.
#[inline(never)]
fn check_runs<I: Iterator<Item = Pair>, W: Borrow<Window>>(
    arities: &[u8],
    count: usize,
    pairs: impl Fn(usize) -> I,
    window: impl Fn(usize) -> W,
) -> Answer<()> {
    walk(arities, 0, pairs(0).take(BEFORE))?;
    let sound = runs::sound(arities, count, window);
    walk(arities, sound - 1, pairs(sound - 1))
}

#[inline]
fn word(bytes: &[u8], at: usize) -> u16 {
    u16::from_le_bytes(bytes[at..at + 2].try_into().expect("two bytes"))
}

#[inline(always)]
fn pair_of(bytes: &[u8]) -> Pair {
    let bytes: &[u8; PAIR] = bytes.try_into().expect("a pair's bytes");
    Pair { lower: word(bytes, 0), higher: word(bytes, 2), degree: word(bytes, 4) }
}

impl<'a> Table<'a> {
    pub fn read(file: &'a [u8]) -> Answer<Self> {
        if file.len() < HEADER {
            return refuse(1, 0);
        }
        let number = |at| usize::from(word(file, at));
        let (symbols, count) = (number(0), number(2));
        check_counts(symbols, count)?;
        let total = HEADER + symbols + PAIR * count;
        if number(4) != HEADER || number(6) != HEADER + symbols || number(8) != total || file.len() != total {
            return refuse(1, 0);
        }
        let (arities, pairs) = file[HEADER..].split_at(symbols);
        check_arities(arities)?;
        let window = |index| -> &Window { pairs[PAIR * index..][..size_of::<Window>()].try_into().expect("a window") };
        check_pairs(arities, count, |index| pairs[PAIR * index..].chunks_exact(PAIR).map(pair_of), window)?;
        Ok(Table { arities, pairs: Pairs(pairs) })
    }

    #[inline]
    pub fn symbols(&self) -> usize {
        self.arities.len()
    }

    /// For how many symbols scratch is made, so that a small table takes little.
    #[inline]
    pub fn size(&self) -> usize {
        match self.symbols() {
            0..=16 => 16,
            17..=64 => 64,
            65..=256 => 256,
            _ => MAX_SYMBOLS,
        }
    }

    #[inline]
    pub fn arity(&self, symbol: u16) -> Option<u8> {
        self.arities.get(usize::from(symbol)).copied()
    }

    pub fn pair(&self, index: usize) -> Option<Pair> {
        self.pairs.0.chunks_exact(PAIR).nth(index).map(pair_of)
    }

    /// The degree of two unlike symbols of the table.
    #[inline]
    pub fn degree(&self, a: u16, b: u16) -> u16 {
        self.listed(key(a.min(b), a.max(b)))
    }

    /// The degree of the pair with that key, 0 if it is not listed: from the first pair on in steps that are halved, each taken unless it
    /// leads past the key or the end. (Of 32 bits, so that the compiler sees that no sum of them is too large.)
    fn listed(&self, wanted: u32) -> u16 {
        let key_at = |at: u32| {
            let symbols = self.pairs.0.get(at as usize..at as usize + 4)?;
            Some(u32::from_le_bytes(symbols.try_into().expect("two symbols' bytes")).rotate_left(16))
        };
        let mut at = 0;
        let mut step = (PAIR * self.pairs.len().next_power_of_two()) as u32;
        while step > PAIR as u32 {
            step /= 2;
            if key_at(at + step).unwrap_or(u32::MAX) <= wanted {
                at += step;
            }
        }
        if key_at(at) == Some(wanted) {
            word(self.pairs.0, at as usize + 4)
        } else {
            0
        }
    }
}
