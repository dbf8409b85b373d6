//! One call each, with all that it is lent. Every call checks its table first.

use crate::build::Table;
use crate::questions::Question;
use crate::records::{List, ABSENT, HEADING};
use crate::Calls;
use shuuxideg::{MAX_NODES, RECORD_NODES, SAVED_WORDS, SPANS, WORDS};

/// Makes one call; what it found, so that no call is idle.
pub type Once = Box<dyn FnMut(&Calls) -> u64>;

pub fn check(table: Table) -> Once {
    Box::new(move |calls| u64::from((calls.check_table)(&table.file).is_ok()))
}

/// The degrees of a listed pair and of one that is not, in turn.
pub fn symbols(table: Table) -> Once {
    let listed = table.pairs[table.pairs.len() / 3];
    let mut asked = [(listed.higher, listed.lower), (0, 3)];
    Box::new(move |calls| {
        asked.swap(0, 1);
        u64::from((calls.symbol_degree)(&table.file, asked[0].0, asked[0].1).unwrap())
    })
}

/// The arity of the middle symbol.
pub fn arity(table: Table) -> Once {
    let symbol = table.arities.len() as u16 / 2;
    Box::new(move |calls| u64::from((calls.arity)(&table.file, symbol).unwrap()))
}

/// The pair in the middle.
pub fn pair(table: Table) -> Once {
    let index = table.pairs.len() / 2;
    Box::new(move |calls| u64::from((calls.pair)(&table.file, index).unwrap().degree))
}

pub fn degree(table: Table, (first, second): (Vec<u16>, Vec<u16>)) -> Once {
    Box::new(move |calls| {
        let degree = (calls.heading_degree)(&table.file, &first, &second).unwrap();
        assert!(degree > 0);
        u64::from(degree)
    })
}

/// The subterm in the middle.
pub fn subterm(table: Table, term: Vec<u16>) -> Once {
    let index = term.len() / 2;
    Box::new(move |calls| {
        let part = (calls.subterm)(&table.file, &term, index);
        assert!(!part.is_empty());
        part.len() as u64
    })
}

pub fn nearer(table: Table, heading: Vec<u16>, first: Vec<u16>, second: Vec<u16>) -> Once {
    Box::new(move |calls| {
        let nearer = (calls.nearer)(&table.file, &heading, &first, &second);
        assert_eq!(nearer.len(), heading.len());
        u64::from(std::ptr::eq(nearer, &second[..]))
    })
}

pub fn answer(question: Question) -> Once {
    let Question { table, pattern, heading, cut, refused } = question;
    let (mut spans, mut sets) = (vec![0; SPANS], vec![0; WORDS * heading.len()]);
    Box::new(move |calls| {
        let found = (calls.match_heading)(&table.file, &pattern, &heading, cut, &mut spans, &mut sets);
        assert_eq!(found.err().map(|refusal| refusal.number), refused);
        found.map_or_else(|refusal| u64::from(refusal.place), |degrees| u64::from(degrees.highest)) ^ sets[0]
    })
}

pub fn write(table: Table) -> Once {
    let mut out = vec![0; table.file.len()];
    Box::new(move |calls| {
        let total = (calls.write_table)(&table.arities, &table.pairs, &mut out).unwrap();
        total as u64 ^ u64::from(out[total - 1])
    })
}

/// The sets of a saved answer of 1,024 positions.
pub fn widen() -> Once {
    let words: Vec<u64> = (0..SAVED_WORDS * MAX_NODES).map(|i| i as u64).collect();
    let mut out = vec![0; WORDS * MAX_NODES];
    Box::new(move |calls| {
        let written = (calls.widen)(&words, &mut out).unwrap();
        written as u64 ^ out[WORDS + 1]
    })
}

/// A record is read by these strings, or refused by that number.
pub fn record(record: Vec<u8>, strings: &[String], refused: Option<u16>) -> Once {
    let (list, mut nodes) = (List::new(strings), [0; RECORD_NODES]);
    Box::new(move |calls| {
        let read = (calls.marc_heading)(&record, list.lent(), HEADING, ABSENT, &mut nodes);
        assert_eq!(read.err().map(|refusal| refusal.number), refused);
        read.map_or_else(|refusal| refusal.place, |_| u64::from(nodes[1]) ^ u64::from(nodes[2]))
    })
}
