//! One position of a variable: which symbols face it, which are near to all of these, and how near.

use super::near::{Gathered, Places, Set};
use super::table::TOP;
use crate::Degrees;

/// The symbols that face a position, each once, by their places.
pub struct Faced<const PLACES: usize> {
    places: [u16; PLACES],
    count: usize,
    /// By place: the last position that it was met at.
    met: [u16; PLACES],
}

impl<const PLACES: usize> Faced<PLACES> {
    pub const NOBODY: Self = Faced { places: [0; PLACES], count: 0, met: [0; PLACES] };

    #[inline(always)]
    pub fn clear(&mut self) {
        self.count = 0;
    }

    /// Positions are told apart by numbers from 1.
    #[inline(always)]
    pub fn meet<const SYMBOLS: usize>(&mut self, position: u16, places: &Places<SYMBOLS>, symbol: u16) {
        if let Some(place) = places.of(symbol) {
            let met = &mut self.met[place % PLACES];
            if *met != position {
                *met = position;
                self.places[self.count % PLACES] = place as u16;
                self.count += 1;
            }
        }
    }

    #[inline(always)]
    pub fn places(&self) -> &[u16] {
        &self.places[..self.count]
    }
}

impl<const ROW: usize, const PLACES: usize> Gathered<'_, ROW, PLACES> {
    /// Puts the symbols that are near to all of these into the set; whether there are any.
    #[inline(always)]
    pub fn share(&self, faced: &[u16], set: &mut Set) -> bool {
        let near = |place: &u16| &self.near[usize::from(*place) % PLACES].set;
        if let Some((first, others)) = faced.split_first() {
            *set = *near(first);
            for other in others {
                for (word, near) in set.iter_mut().zip(near(other)) {
                    *word &= near;
                }
            }
        }
        set.iter().fold(0, |all, word| all | word) != 0
    }

    /// What a position that several symbols face makes of a variable's lowest and highest degree so far. A member's degree is the least that
    /// it has with these symbols; the least of these counts for the lowest, the best one for the highest. Both are settled when the best is
    /// no longer below the highest, and the lowest no longer above what each member has at least: what any near symbol of these has.
    #[inline(never)]
    pub fn degrees(&self, set: &Set, faced: &[u16], own: &mut Degrees) {
        let near = |place: &u16| &self.near[usize::from(*place) % PLACES];
        let at_least = faced.iter().fold(TOP, |least, place| near(place).least.min(least));
        let mut best = 0;
        for (index, &word) in set.iter().enumerate() {
            let mut left = word;
            while left != 0 {
                let degree = self.of_member(64 * index + left.trailing_zeros() as usize, faced);
                left &= left - 1;
                own.lowest = own.lowest.min(degree);
                best = best.max(degree);
                if best >= own.highest && own.lowest <= at_least {
                    return;
                }
            }
        }
        own.highest = own.highest.min(best);
    }

    #[inline(always)]
    fn of_member(&self, member: usize, faced: &[u16]) -> u16 {
        let degree = |place: &u16| self.degrees[usize::from(*place) % PLACES][member % ROW.max(1)] as u16;
        faced.iter().map(degree).fold(TOP, u16::min)
    }
}
