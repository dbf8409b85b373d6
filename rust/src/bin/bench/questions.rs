//! What a match is asked in the workloads.

use crate::build::{Draw, Table};
use shuuxideg::{MAX_NODES, VARIABLE};

pub const CUT: u16 = 500;

/// What a match is asked, and by which number it is expected to be refused.
pub struct Question {
    pub table: Table,
    pub pattern: Vec<u16>,
    pub heading: Vec<u16>,
    pub cut: u16,
    pub refused: Option<u16>,
}

/// Two headings of so many nodes, an even number: a symbol of one argument above a tree, and the same strayed.
pub fn headings(table: &Table, nodes: usize) -> (Vec<u16>, Vec<u16>) {
    let mut draw = Draw::new(5);
    let mut first = vec![table.symbol(&mut draw, 1)];
    first.extend(table.form(&mut draw, nodes / 2));
    assert_eq!(first.len(), nodes);
    let second = table.stray(&mut draw, &first, CUT);
    (first, second)
}

/// The heading that a pattern is filled to, with each variable's form strayed anew at each place.
fn filled(table: &Table, draw: &mut Draw, pattern: &[u16], forms: &[Vec<u16>]) -> Vec<u16> {
    let mut heading = Vec::new();
    for &node in pattern {
        match node.checked_sub(VARIABLE) {
            Some(variable) => heading.extend(table.stray(draw, &forms[usize::from(variable)], CUT)),
            None => heading.extend(table.stray(draw, &[node], CUT)),
        }
    }
    heading
}

/// The listing's question, over its table among further constants, so many symbols in all.
pub fn listing(symbols: u16) -> Question {
    let (pattern, heading) = (vec![0, VARIABLE, VARIABLE], vec![0, 1, 5, 2, 6]);
    Question { table: Table::listing_among(symbols), pattern, heading, cut: 600, refused: None }
}

/// Chains of symbols of one argument, so many nodes deep, with a variable at the end that a constant faces.
pub fn chains(depth: usize) -> Question {
    let table = Table::listing();
    let mut draw = Draw::new(60);
    let mut pattern: Vec<u16> = (1..depth).map(|_| table.symbol(&mut draw, 1)).collect();
    pattern.push(VARIABLE);
    let constant = vec![table.symbol(&mut draw, 0)];
    let heading = filled(&table, &mut draw, &pattern, &[constant]);
    assert_eq!(heading.len(), depth);
    Question { table, pattern, heading, cut: CUT, refused: None }
}

/// 32 nodes, of which three variables are faced by 9, 5 (twice) and 7.
pub fn middling() -> Question {
    let table = Table::of_256_symbols(2000);
    let mut draw = Draw::new(32);
    let forms = [5, 3, 4].map(|leaves| table.form(&mut draw, leaves));
    let mut symbol = |arity| table.symbol(&mut draw, arity);
    let (x, y, z) = (VARIABLE, VARIABLE + 1, VARIABLE + 2);
    let pattern = vec![symbol(2), symbol(1), x, symbol(2), symbol(1), y, symbol(2), y, symbol(1), z];
    let heading = filled(&table, &mut draw, &pattern, &forms);
    assert_eq!(heading.len(), 32);
    Question { table, pattern, heading, cut: CUT, refused: None }
}

/// Four variables, each four times, each faced by subterms of one node less than a sixteenth of the heading's.
pub fn repeated(pairs: usize, nodes: usize) -> Question {
    let table = Table::of_256_symbols(pairs);
    let mut draw = Draw::new(1024);
    let forms = [nodes / 32; 4].map(|leaves| table.form(&mut draw, leaves));
    let leaves: Vec<u16> = (0..16).map(|i| VARIABLE + i % 4).collect();
    let mut pattern = vec![table.symbol(&mut draw, 1)];
    table.tree(&mut draw, &mut pattern, &leaves);
    let heading = filled(&table, &mut draw, &pattern, &forms);
    assert_eq!(heading.len(), nodes);
    Question { table, pattern, heading, cut: CUT, refused: None }
}

/// A pattern without variables, of 1,024 nodes.
pub fn ground() -> Question {
    let table = Table::of_256_symbols(8192);
    let (pattern, heading) = headings(&table, MAX_NODES);
    Question { table, pattern, heading, cut: CUT, refused: None }
}

/// A pattern of 1,024 nodes, one of sixteen of its leaves a variable, with a clash at its second node or at its last.
pub fn clash(late: bool) -> Question {
    let mut draw = Draw::new(9);
    let Question { table, mut pattern, mut heading, .. } = ground();
    for (index, node) in pattern.iter_mut().enumerate() {
        if table.arities[usize::from(*node)] == 0 && index % 16 == 3 {
            *node = VARIABLE + (index / 16 % 8) as u16;
        }
    }
    let at = if late { MAX_NODES - 1 } else { 1 };
    assert!(pattern[at] < VARIABLE);
    heading[at] = table.far(&mut draw, pattern[at], CUT);
    Question { table, pattern, heading, cut: CUT, refused: Some(9) }
}
