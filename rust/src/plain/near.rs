//! What is near to each symbol that faces a variable, gathered from the pairs.

use super::table::{Block, Pairs, Table, TOP};
use crate::WORDS;

pub type Set = [u64; WORDS];

/// By symbol: where what is near to it is kept, if it faces a variable.
pub struct Places<const SYMBOLS: usize> {
    /// From 1; 0 for none.
    places: [u16; SYMBOLS],
    pub count: usize,
}

impl<const SYMBOLS: usize> Places<SYMBOLS> {
    pub const NONE: Self = Places { places: [0; SYMBOLS], count: 0 };

    /// The next place, if the symbol has none yet.
    #[inline]
    pub fn give(&mut self, symbol: u16) {
        let place = &mut self.places[usize::from(symbol) % SYMBOLS];
        if *place == 0 {
            self.count += 1;
            *place = self.count as u16;
        }
    }

    #[inline]
    pub fn of(&self, symbol: u16) -> Option<usize> {
        usize::from(self.places[usize::from(symbol) % SYMBOLS]).checked_sub(1)
    }
}

/// The symbols that reach the cut with one symbol, and the least of their degrees.
#[derive(Clone, Copy)]
pub struct Near {
    pub set: Set,
    pub least: u16,
}

impl Near {
    pub const NOBODY: Near = Near { set: [0; WORDS], least: TOP };
}

/// In place of the degree of a symbol that is not near: below all degrees. (Its bytes are unlike, as those of `degrees::NOT_LISTED` are.)
pub const NOT_NEAR: i16 = -2;

/// By place: what is near to the symbol that has it. The lists are with the caller, since large ones are copied when they are returned.
pub struct Gathered<'a, const ROW: usize, const PLACES: usize> {
    pub near: &'a mut [Near; PLACES],
    /// The degrees of what is near, by symbol; none with rows of no length.
    pub degrees: &'a mut [[i16; ROW]; PLACES],
}

impl<const ROW: usize, const PLACES: usize> Gathered<'_, ROW, PLACES> {
    /// For each symbol that has a place gathers what reaches the cut with it, itself too.
    pub fn gather<const SYMBOLS: usize>(&mut self, table: &Table, cut: u16, places: &Places<SYMBOLS>) {
        for symbol in 0..table.symbols() as u16 {
            self.add(places.of(symbol), symbol, TOP, cut);
        }
        self.add_higher(table.pairs, cut, places);
        self.add_lower(table.pairs, cut, places);
    }

    /// Adds the higher symbol of each pair to what is near to the lower one, of which most blocks have a single one.
    #[inline(never)]
    fn add_higher<const SYMBOLS: usize>(&mut self, pairs: Pairs, cut: u16, places: &Places<SYMBOLS>) {
        let (blocks, rest) = pairs.blocks();
        for block in blocks {
            match block.one_lower().map(|lower| places.of(lower)) {
                Some(Some(place)) => {
                    add_block(&mut self.near[place % PLACES], &mut self.degrees[place % PLACES], block, cut)
                }
                Some(None) => {}
                None => block.for_each(|pair| self.add(places.of(pair.lower), pair.higher, pair.degree, cut)),
            }
        }
        rest.for_each(|pair| self.add(places.of(pair.lower), pair.higher, pair.degree, cut));
    }

    /// Adds the lower symbol of each pair to what is near to the higher one.
    #[inline(never)]
    fn add_lower<const SYMBOLS: usize>(&mut self, pairs: Pairs, cut: u16, places: &Places<SYMBOLS>) {
        pairs.for_each(|pair| self.add(places.of(pair.higher), pair.lower, pair.degree, cut));
    }

    #[inline(always)]
    fn add(&mut self, place: Option<usize>, symbol: u16, degree: u16, cut: u16) {
        if let Some(place) = place {
            add(&mut self.near[place % PLACES], &mut self.degrees[place % PLACES], symbol, degree, cut);
        }
    }
}

/// Adds the higher symbols of a block to what is near to its one lower symbol. (Apart, so that the addresses stay in registers.)
#[inline(never)]
fn add_block<const ROW: usize>(near: &mut Near, degrees: &mut [i16; ROW], block: Block, cut: u16) {
    block.for_each(|pair| add(near, degrees, pair.higher, pair.degree, cut));
}

/// Adds a symbol, if its degree reaches the cut.
#[inline(always)]
fn add<const ROW: usize>(near: &mut Near, degrees: &mut [i16; ROW], symbol: u16, degree: u16, cut: u16) {
    if degree >= cut {
        near.set[usize::from(symbol / 64) % WORDS] |= 1 << (symbol % 64);
        near.least = near.least.min(degree);
        if ROW > 0 {
            degrees[usize::from(symbol) % ROW] = degree as i16;
        }
    }
}
