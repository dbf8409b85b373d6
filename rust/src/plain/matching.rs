//! The match on sound input. One walk along pattern and heading finds a clash and notes what faces each variable; what is near to the symbols
//! that do is gathered from the pairs; then the variables are settled, position by position, in the caller's buffers.

use super::facing::{Facing, Walk};
use super::near::{Gathered, Near, Places, Set, NOT_NEAR};
use super::position::Faced;
use super::refuse;
use super::table::{Table, MAX_SYMBOLS, TOP};
use crate::{Answer, Degrees, MAX_NODES, SPAN, WORDS};

pub struct Question<'a> {
    pub table: &'a Table<'a>,
    pub pattern: &'a [u16],
    pub heading: &'a [u16],
    pub cut: u16,
}

impl<'a> Question<'a> {
    pub fn answer(&self, spans: &mut [u16], sets: &mut [u64]) -> Answer<Degrees> {
        match self.pattern.len() {
            0..=32 => self.answer_with::<32>(spans, sets),
            33..=128 => self.answer_with::<128>(spans, sets),
            _ => self.answer_with::<MAX_NODES>(spans, sets),
        }
    }

    #[inline(never)]
    fn answer_with<const NOTES: usize>(&self, spans: &mut [u16], sets: &mut [u64]) -> Answer<Degrees> {
        let mut facing = [Facing::NOTHING; NOTES];
        let walk = Walk::along(self, &mut facing)?;
        spans.fill(0);
        if walk.noted == 0 {
            clear(sets);
            return Ok(Degrees { lowest: walk.least, highest: walk.least });
        }
        match self.table.size() {
            16 => self.settle::<16>(&walk, spans, sets),
            64 => self.settle::<64>(&walk, spans, sets),
            256 => self.settle::<256>(&walk, spans, sets),
            _ => self.settle::<MAX_SYMBOLS>(&walk, spans, sets),
        }
    }

    /// Gives places to the symbols that face variables, and chooses the size of what is kept for them. Where no variable stands twice, no
    /// degrees by symbol are asked for.
    #[inline(never)]
    fn settle<const SYMBOLS: usize>(&self, walk: &Walk, spans: &mut [u16], sets: &mut [u64]) -> Answer<Degrees> {
        let mut places = Places::<SYMBOLS>::NONE;
        for first in walk.firsts() {
            for position in 0..walk.nodes(first) {
                walk.for_symbols(first, position, |symbol| places.give(symbol));
            }
        }
        match (walk.repeats, places.count) {
            (false, 0..=8) => self.settle_with::<SYMBOLS, 0, 8>(walk, &places, spans, sets),
            (false, _) => self.settle_with::<SYMBOLS, 0, SYMBOLS>(walk, &places, spans, sets),
            (true, 0..=8) => self.settle_with::<SYMBOLS, SYMBOLS, 8>(walk, &places, spans, sets),
            (true, 9..=32) => self.settle_with::<SYMBOLS, SYMBOLS, 32>(walk, &places, spans, sets),
            (true, _) => self.settle_with::<SYMBOLS, SYMBOLS, SYMBOLS>(walk, &places, spans, sets),
        }
    }

    /// Packs each variable, with its own degrees, where the pattern first has it.
    #[inline(never)]
    fn settle_with<const SYMBOLS: usize, const ROW: usize, const PLACES: usize>(
        &self,
        walk: &Walk,
        places: &Places<SYMBOLS>,
        spans: &mut [u16],
        sets: &mut [u64],
    ) -> Answer<Degrees> {
        let mut near = [Near::NOBODY; PLACES];
        let mut degrees = [[NOT_NEAR; ROW]; PLACES];
        let mut gathered = Gathered { near: &mut near, degrees: &mut degrees };
        gathered.gather(self.table, self.cut, places);
        let mut all = Degrees { lowest: walk.least, highest: walk.least };
        let mut formless: u32 = 0; // a bit for each variable without a form
        let mut faced = Faced::<PLACES>::NOBODY;
        let mut packed = 0;
        for first in walk.firsts() {
            let nodes = walk.nodes(first);
            let mut own = Degrees { lowest: TOP, highest: TOP };
            for position in 0..nodes {
                let at = packed + position;
                faced.clear();
                walk.for_symbols(first, position, |symbol| faced.meet(at as u16 + 1, places, symbol));
                let set: &mut Set = (&mut sets[WORDS * at..][..WORDS]).try_into().expect("a set's words");
                let any = gathered.share(faced.places(), set);
                match faced.places() {
                    // One symbol: it reaches the top with itself.
                    &[place] => own.lowest = own.lowest.min(gathered.near[usize::from(place)].least),
                    _ if !any => formless |= 1 << first.variable,
                    several if formless == 0 => gathered.degrees(set, several, &mut own),
                    _ => {}
                }
            }
            let span = [packed as u16, nodes as u16, own.lowest, own.highest];
            spans[SPAN * usize::from(first.variable)..][..SPAN].copy_from_slice(&span);
            all = Degrees { lowest: all.lowest.min(own.lowest), highest: all.highest.min(own.highest) };
            packed += nodes;
        }
        if formless != 0 {
            return refuse(10, formless.trailing_zeros() as usize);
        }
        clear(&mut sets[WORDS * packed..]);
        Ok(all)
    }
}

/// Fills the words with 0, in parts of 2 KB: the C library's way to clear more at once is counted as an instruction a byte.
pub fn clear(words: &mut [u64]) {
    words.chunks_mut(256).for_each(|part| part.fill(0));
}
