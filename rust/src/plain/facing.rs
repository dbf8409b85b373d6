//! The walk along pattern and heading: it finds a clash, and notes what faces each variable.

use super::degrees::{answer, Asks};
use super::matching::Question;
use super::refuse;
use super::table::TOP;
use super::terms::{nodes_at, variable};
use crate::{Answer, VARIABLES};

/// A subterm of the heading that faces a variable.
#[derive(Clone, Copy)]
pub struct Facing {
    pub variable: u16,
    start: u16,
    /// The note of the next subterm that faces the same variable, or none.
    next: u16,
    /// Nothing that faces the variable was noted before.
    first: bool,
}

/// The last of a variable's notes, or none, and how many nodes the first subterm has.
#[derive(Clone, Copy)]
struct Chain {
    last: u16,
    nodes: u16,
}

pub struct Walk<'a> {
    question: &'a Question<'a>,
    /// Where it has stopped in the pattern, and in the heading.
    index: usize,
    at: usize,
    clash: Option<usize>,
    /// The least degree of a pattern's symbol with the one that faces it.
    pub least: u16,
    facing: &'a mut [Facing],
    pub noted: usize,
    /// Some variable stands more than once.
    pub repeats: bool,
    chains: [Chain; VARIABLES],
}

const NONE: u16 = u16::MAX;

impl Facing {
    pub const NOTHING: Facing = Facing { variable: 0, start: 0, next: NONE, first: false };
}

impl Chain {
    const EMPTY: Chain = Chain { last: NONE, nodes: 0 };
}

impl Asks for Walk<'_> {
    /// Without a clash so far pattern and heading have one shape, so each pattern's symbol is faced by the next node of the heading, and each
    /// variable by the subterm there.
    #[inline]
    fn go_on(&mut self, at_most: usize, degree: impl Fn(u16, u16) -> u16) -> bool {
        let Question { table, pattern, heading, cut } = *self.question;
        let (mut at, mut left) = (self.at, at_most);
        for (index, &node) in pattern.iter().enumerate().skip(self.index) {
            let faced = heading[at];
            if let Some(variable) = variable(node) {
                let nodes = nodes_at(table, heading, at);
                self.note(variable, at, nodes);
                at += nodes - 1;
            } else if node != faced {
                if left == 0 {
                    (self.index, self.at) = (index, at);
                    return false;
                }
                left -= 1;
                let degree = degree(node, faced);
                if degree < cut {
                    self.clash = Some(index);
                    return true;
                }
                self.least = self.least.min(degree);
            }
            at += 1;
        }
        true
    }
}

impl<'a> Walk<'a> {
    pub fn along(question: &'a Question<'a>, facing: &'a mut [Facing]) -> Answer<Self> {
        let chains = [Chain::EMPTY; VARIABLES];
        let mut walk =
            Walk { question, index: 0, at: 0, clash: None, least: TOP, facing, noted: 0, repeats: false, chains };
        answer(question.table, question.pattern.len(), &mut walk);
        match walk.clash {
            Some(index) => refuse(9, index),
            None => Ok(walk),
        }
    }

    #[inline(always)]
    fn note(&mut self, variable: usize, start: usize, nodes: usize) {
        let chain = &mut self.chains[variable];
        let first = chain.last == NONE;
        if first {
            chain.nodes = nodes as u16;
        } else {
            self.facing[usize::from(chain.last)].next = self.noted as u16;
            self.repeats = true;
        }
        chain.last = self.noted as u16;
        self.facing[self.noted] = Facing { variable: variable as u16, start: start as u16, next: NONE, first };
        self.noted += 1;
    }

    /// The first note of each variable that is faced by anything.
    pub fn firsts(&self) -> impl Iterator<Item = &Facing> {
        self.facing[..self.noted].iter().filter(|facing| facing.first)
    }

    /// How many nodes the subterm has that faces the variable at its first place.
    pub fn nodes(&self, first: &Facing) -> usize {
        usize::from(self.chains[usize::from(first.variable)].nodes)
    }

    /// What stands at one position of the subterms that face a variable. Where one of them has another shape than the first and ends before,
    /// there is what comes behind it, if anything does: the first arities that differ leave the variable without a form, inside both.
    #[inline(always)]
    pub fn for_symbols(&self, first: &Facing, position: usize, mut hand_on: impl FnMut(u16)) {
        let mut facing = first;
        loop {
            if let Some(&symbol) = self.question.heading.get(usize::from(facing.start) + position) {
                hand_on(symbol);
            }
            match facing.next {
                NONE => break,
                next => facing = &self.facing[usize::from(next)],
            }
        }
    }
}
