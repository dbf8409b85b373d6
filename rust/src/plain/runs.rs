//! The rules for pairs, tested many pairs at a time: every number of a run as it lies, by the same few steps, so that the compiler can take
//! eight numbers in one. What is found wrong is only joined, so that a run that fails has to be walked for the place.

use super::table::{LISTED_TOP, MAX_SYMBOLS, PAIR};
use std::borrow::Borrow;

/// How many pairs a run has. (With 16 the table of 8,192 takes a tenth more instructions, with 64 a fifth.)
pub const RUN: usize = 32;
/// How many pairs before a run come with it: the one that its first pair has to come after, and one more, of which a number is read but plays
/// no part.
pub const BEFORE: usize = 2;
/// A run and the pairs before it, as they lie in a table.
pub type Window = [u8; PAIR * (BEFORE + RUN)];

const NUMBERS: usize = 3 * RUN;
type Numbers = [u8; 2 * NUMBERS];

/// A number for each number of a run, so that they can be read eight at a time.
#[repr(align(16))]
struct Lanes([u16; NUMBERS]);

impl Lanes {
    /// The same for all pairs.
    fn new(at_lower: u16, at_higher: u16, at_degree: u16) -> Self {
        let mut lanes = Lanes([0; NUMBERS]);
        for pair in lanes.0.chunks_exact_mut(3) {
            pair.copy_from_slice(&[at_lower, at_higher, at_degree]);
        }
        lanes
    }
}

struct Rules<const SYMBOLS: usize> {
    arities: [u8; SYMBOLS],
    /// What one less than a number may be at most; one less than 0 is too much. A lower symbol needs no bound but the higher one. (With a
    /// single symbol this bound is too high, but there the first of all pairs is bad already.)
    most: Lanes,
    /// All ones where a higher symbol stands, since there the order is tested.
    tested: Lanes,
}

impl<const SYMBOLS: usize> Rules<SYMBOLS> {
    fn new(arities: &[u8]) -> Self {
        let mut known = [0; SYMBOLS];
        known[..arities.len()].copy_from_slice(arities);
        let most = Lanes::new(u16::MAX, (arities.len() as u16).saturating_sub(2), LISTED_TOP - 1);
        Rules { arities: known, most, tested: Lanes::new(0, u16::MAX, 0) }
    }

    #[inline(always)]
    fn hold(&self, window: &Window) -> bool {
        let numbers = |back: usize| -> &Numbers {
            let first = PAIR * BEFORE - 2 * back;
            window[first..first + 2 * NUMBERS].try_into().expect("a run's bytes")
        };
        self.in_order(numbers(0), numbers(1), numbers(3), numbers(4)) && self.alike(numbers(0))
    }

    /// Every number is in its range, each lower symbol is below its higher one, and the pairs rise. Besides the numbers themselves those one,
    /// three and four places before them are lent: where a higher symbol stands, its lower one and both of the pair before. (They overlap.
    /// Inlined, where the compiler knows that, it carries numbers from step to step, which takes longer than reading them.)
    #[inline(never)]
    fn in_order(&self, here: &Numbers, lower: &Numbers, higher_before: &Numbers, lower_before: &Numbers) -> bool {
        let number = |numbers: &Numbers, at: usize| {
            u16::from_le_bytes(numbers[2 * at..2 * at + 2].try_into().expect("a number's bytes"))
        };
        let mut faults = 0;
        for at in 0..NUMBERS {
            let one_less = number(here, at).wrapping_sub(1);
            let (lower, lower_before) = (number(lower, at), number(lower_before, at));
            let not_below = lower.saturating_sub(one_less);
            let falls = lower_before.saturating_sub(lower);
            let same_row = lower == lower_before;
            let not_after = if same_row { number(higher_before, at).saturating_sub(one_less) } else { 0 };
            faults |= (not_below | falls | not_after) & self.tested.0[at];
            faults |= one_less.saturating_sub(self.most.0[at]);
        }
        faults == 0
    }

    /// The symbols of each pair have one arity. They are symbols, so that the remainder only spares a test.
    #[inline(always)]
    fn alike(&self, run: &Numbers) -> bool {
        let arity = |bytes: &[u8]| self.arities[usize::from(u16::from_le_bytes([bytes[0], bytes[1]])) % SYMBOLS];
        run.chunks_exact(PAIR).fold(0, |unlike, pair| unlike | (arity(pair) ^ arity(&pair[2..]))) == 0
    }

    #[inline(always)]
    fn pass<W: Borrow<Window>>(&self, count: usize, window: impl Fn(usize) -> W) -> usize {
        let mut sound = BEFORE;
        while sound + RUN <= count && self.hold(window(sound - BEFORE).borrow()) {
            sound += RUN;
        }
        sound
    }
}

/// How many pairs lie before the first run that fails, if those before the first run are sound. A window is asked for by its first pair's
/// index.
pub fn sound<W: Borrow<Window>>(arities: &[u8], count: usize, window: impl Fn(usize) -> W) -> usize {
    const FEWER: usize = 256; // so that a byte can be the index
    if arities.len() <= FEWER {
        Rules::<FEWER>::new(arities).pass(count, window)
    } else {
        Rules::<MAX_SYMBOLS>::new(arities).pass(count, window)
    }
}
