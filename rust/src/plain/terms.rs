//! Lists of nodes: whether one is a term, where its parts end, and the degree of two headings.

use super::degrees::{answer, Asks};
use super::table::{Table, TOP};
use crate::{MAX_NODES, VARIABLE, VARIABLES};

const MAX_DEPTH: usize = 64;

/// The number of the variable that the node is.
#[inline]
pub fn variable(node: u16) -> Option<usize> {
    let number = usize::from(node.wrapping_sub(VARIABLE));
    (number < VARIABLES).then_some(number)
}

/// A term without variables, or the place of the first fault.
pub fn check_heading(table: &Table, nodes: &[u16]) -> Result<(), usize> {
    check(nodes, |node| table.arity(node))
}

/// A term, or the place of the first fault.
pub fn check_pattern(table: &Table, nodes: &[u16]) -> Result<(), usize> {
    check(nodes, |node| table.arity(node).or_else(|| variable(node).map(|_| 0)))
}

/// One pass. A node with arguments opens a level, and when the last of them is read that level is left; a term that ends leaves all.
#[inline]
fn check(nodes: &[u16], arity: impl Fn(u16) -> Option<u8>) -> Result<(), usize> {
    if nodes.len() > MAX_NODES {
        return Err(MAX_NODES);
    }
    let mut levels = [0; MAX_DEPTH - 1]; // how many subterms are still to come on each, when what was opened behind them is left
    let mut open = 0; // levels around the next node's
    let mut to_come = 1; // on that node's own level, always one or more
    for (place, &node) in nodes.iter().enumerate() {
        let arity = arity(node).ok_or(place)?;
        to_come -= 1;
        if arity > 0 {
            // On the deepest level there is no room for arguments: the fault is the first of them.
            *levels.get_mut(open).ok_or(place + 1)? = to_come;
            open += 1;
            to_come = arity;
        }
        while to_come == 0 {
            open = open.wrapping_sub(1);
            match levels.get(open) {
                Some(&left) => to_come = left,
                None if place + 1 == nodes.len() => return Ok(()),
                None => return Err(place + 1),
            }
        }
    }
    Err(nodes.len())
}

/// How many nodes a subterm has, by its index.
#[inline]
pub fn nodes_at(table: &Table, term: &[u16], index: usize) -> usize {
    let mut to_come = 1;
    let mut nodes = 0;
    for &node in &term[index..] {
        to_come += usize::from(table.arity(node).unwrap_or(0));
        to_come -= 1;
        nodes += 1;
        if to_come == 0 {
            break;
        }
    }
    nodes
}

/// What is still to be compared of two headings, and the least degree so far. Near symbols have equal arities, so what faces what is found by
/// going along both lists, until a degree is 0 and the rest plays no part. Lists of unlike length have unlike shapes, and so such a degree.
struct Compared<'a> {
    first: &'a [u16],
    second: &'a [u16],
    least: u16,
}

impl<'a> Compared<'a> {
    fn new(first: &'a [u16], second: &'a [u16]) -> Self {
        if first.len() == second.len() {
            Compared { first, second, least: TOP }
        } else {
            Compared { first: &[], second: &[], least: 0 }
        }
    }

    /// Whether it is at its end.
    #[inline]
    fn go_on(&mut self, at_most: usize, degree: impl Fn(u16, u16) -> u16) -> bool {
        let Compared { first, second, mut least } = *self;
        let (mut index, mut left) = (0, at_most);
        while index < first.len() && index < second.len() {
            let (a, b) = (first[index], second[index]);
            if a != b {
                if left == 0 {
                    *self = Compared { first: &first[index..], second: &second[index..], least };
                    return false;
                }
                left -= 1;
                least = least.min(degree(a, b));
                if least == 0 {
                    break;
                }
            }
            index += 1;
        }
        *self = Compared { first: &[], second: &[], least };
        true
    }
}

impl<const PAIRS: usize> Asks for [Compared<'_>; PAIRS] {
    #[inline]
    fn go_on(&mut self, at_most: usize, degree: impl Fn(u16, u16) -> u16) -> bool {
        self.iter_mut().fold(true, |ended, compared| compared.go_on(at_most / PAIRS, &degree) && ended)
    }
}

/// The degrees of pairs of headings.
pub fn degrees<const PAIRS: usize>(table: &Table, pairs: [(&[u16], &[u16]); PAIRS]) -> [u16; PAIRS] {
    let mut compared = pairs.map(|(first, second)| Compared::new(first, second));
    let nodes = pairs.iter().map(|(first, _)| first.len()).sum();
    answer(table, nodes, &mut compared);
    compared.map(|compared| compared.least)
}
