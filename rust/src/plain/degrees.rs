//! The degrees of many pairs of symbols: searched for one by one at first, and laid out in a matrix where that will be cheaper.

use super::table::{Table, MAX_SYMBOLS, TOP};

/// Something that asks for the degrees of unlike symbols, and can stop and go on.
pub trait Asks {
    /// Goes on to its end, or until it has asked so often; whether it is at its end.
    fn go_on(&mut self, at_most: usize, degree: impl Fn(u16, u16) -> u16) -> bool;
}

/// Lets it ask to its end, at most so often.
#[inline]
pub fn answer(table: &Table, at_most: usize, asks: &mut impl Asks) {
    if !asks.go_on(searches(table, at_most), |a, b| table.degree(a, b)) {
        match table.size() {
            16 => answer_from_matrix::<16>(table, asks),
            64 => answer_from_matrix::<64>(table, asks),
            256 => answer_from_matrix::<256>(table, asks),
            _ => answer_from_matrix::<MAX_SYMBOLS>(table, asks),
        }
    }
}

/// How many degrees are searched for before a matrix is made: all, if that costs less. Otherwise, since what asks may soon be at its end, as
/// many as cost a sixteenth of the matrix. (Costs are counts of instructions, about.)
fn searches(table: &Table, at_most: usize) -> usize {
    let pairs = table.pairs.len();
    let search = 16 * (usize::BITS - pairs.leading_zeros()) as usize;
    let matrix = 128 + table.size() * table.size() / 8 + 8 * pairs;
    if at_most * search <= matrix {
        at_most
    } else {
        matrix / (16 * search)
    }
}

/// Where the matrix has no pair. (Zeros the compiler leaves to the C library, whose way to write so many is counted as an instruction a byte;
/// numbers of unlike bytes it writes itself, 16 bytes at a time.)
const NOT_LISTED: u16 = TOP + 1;

/// Degrees by the lower symbol, then by the higher. It is filled and read in functions of their own, so that its address is in a register.
type Matrix<const SYMBOLS: usize> = [[u16; SYMBOLS]; SYMBOLS];

#[inline(never)]
fn answer_from_matrix<const SYMBOLS: usize>(table: &Table, asks: &mut impl Asks) {
    let mut degrees = [[NOT_LISTED; SYMBOLS]; SYMBOLS];
    lay_out(table, &mut degrees);
    read(&degrees, asks);
}

#[inline(never)]
fn lay_out<const SYMBOLS: usize>(table: &Table, degrees: &mut Matrix<SYMBOLS>) {
    table.pairs.for_each(|pair| {
        degrees[usize::from(pair.lower) % SYMBOLS][usize::from(pair.higher) % SYMBOLS] = pair.degree;
    });
}

#[inline(never)]
fn read<const SYMBOLS: usize>(degrees: &Matrix<SYMBOLS>, asks: &mut impl Asks) {
    asks.go_on(usize::MAX, |a, b| match degrees[usize::from(a.min(b)) % SYMBOLS][usize::from(a.max(b)) % SYMBOLS] {
        NOT_LISTED => 0,
        degree => degree,
    });
}
