//! Every call of the proved library against the plain implementation. Inputs are drawn from seeds, so each run compares the same cases;
//! how many is told by each test and asserted, so that none can pass by comparing nothing.

mod asks;
mod draw;
mod examples;
mod lent;
mod marc;
mod matches;
mod raw;
mod records;
mod richer;
mod saved;
mod tables;
mod terms;
mod writer;

/// The arities and the pairs of table T, which the examples use.
pub const T_ARITIES: [u8; 8] = [2, 1, 1, 1, 1, 0, 0, 0];
pub const T_PAIRS: [(u16, u16, u16); 8] =
    [(1, 2, 500), (1, 3, 600), (1, 4, 700), (2, 3, 600), (2, 4, 800), (5, 6, 500), (5, 7, 700), (6, 7, 800)];
/// The node of variable 0.
pub const X: u16 = shuuxideg::VARIABLE;
