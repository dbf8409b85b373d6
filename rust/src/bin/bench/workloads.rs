//! What is measured, and compared with the plain implementation. Every call checks its table first; where that is most of the cost the title
//! says so.

use crate::build::{Draw, Table};
use crate::calls::{answer, arity, check, degree, nearer, pair, record, subterm, symbols, widen, write, Once};
use crate::questions::{chains, clash, ground, headings, listing, middling, repeated, CUT};
use crate::records::{long_record, rising_strings, short_record, shuffled};
use crate::wide::Wide;
use crate::Workload;
use shuuxideg::MAX_NODES;

const SMALL: usize = 1000;
const MIDDLING: usize = 50;
const LARGE: usize = 5;

fn large() -> Table {
    Table::of_256_symbols(8192)
}

/// Two candidates that are both near to the heading at every position.
fn nearer_of_two() -> Once {
    let table = large();
    let (heading, first) = headings(&table, MAX_NODES);
    let second = table.stray(&mut Draw::new(6), &heading, CUT);
    nearer(table, heading, first, second)
}

fn tables() -> Vec<Workload> {
    vec![
        Workload::new("table-small", "table check, table T", SMALL, || check(Table::listing())),
        Workload::new("table-large", "table check, 256 symbols, 8,192 pairs", LARGE, || check(large())),
        Workload::new(
            "symbols-small",
            "symbol degree, table T (mostly its check)",
            SMALL,
            || symbols(Table::listing()),
        ),
        Workload::new("symbols-large", "symbol degree, 8,192 pairs (nearly all its check)", LARGE + 1, || {
            symbols(large())
        }),
        Workload::new("arity", "arity read back, table T (nearly all its check)", SMALL, || arity(Table::listing())),
        Workload::new("pair", "pair read back, table T (nearly all its check)", SMALL, || pair(Table::listing())),
        Workload::new("writer", "table writer, 8,192 pairs", LARGE, || write(large())),
    ]
}

fn terms() -> Vec<Workload> {
    let five = || (vec![0, 1, 5, 2, 6], vec![0, 4, 7, 3, 7]);
    vec![
        Workload::new("degree-5", "degree of headings, 5 nodes, table T", SMALL, move || {
            degree(Table::listing(), five())
        }),
        Workload::new("degree-1024", "degree of headings, 1,024 nodes, 8,192 pairs", LARGE, || {
            let headings = headings(&large(), MAX_NODES);
            degree(large(), headings)
        }),
        Workload::new("nearer", "nearer of two, 1,024 nodes each, 8,192 pairs", LARGE, nearer_of_two),
        Workload::new("subterm", "subterm in the middle of 1,024 nodes, table T", MIDDLING, || {
            let table = Table::listing();
            let (term, _) = headings(&table, MAX_NODES);
            subterm(table, term)
        }),
    ]
}

fn matches() -> Vec<Workload> {
    let (of_256, of_512) = (Wide::OF_256, Wide::OF_512);
    vec![
        Workload::new("match-listing", "match, the listing's", SMALL, || answer(listing(8))),
        Workload::new("match-modest", "match, the listing's, among 40 symbols", SMALL, || answer(listing(40))),
        Workload::new("match-chains", "match, chains of depth 60, table T", SMALL, || answer(chains(60))),
        Workload::new("match-32", "match, 32 nodes, 3 variables, 2,000 pairs", MIDDLING, || answer(middling())),
        Workload::new("match-1024", "match, 1,024 nodes, repeated variables, 8,192 pairs", LARGE, || {
            answer(repeated(8192, MAX_NODES))
        }),
        Workload::new("match-ground", "match, 1,024 nodes, no variable", LARGE, || answer(ground())),
        Workload::new("clash-early", "match, 1,024 nodes, clash at the second", LARGE, || answer(clash(false))),
        Workload::new("clash-late", "match, 1,024 nodes, clash at the last", LARGE, || answer(clash(true))),
        Workload::new("wide-twice", "match, wide sets, x twice, 505 positions", LARGE, move || {
            answer(of_256.few_times(2, 63))
        }),
        Workload::new("wide-890", "match, wide sets, x 890 times", LARGE, move || answer(of_256.many_times())),
        Workload::new("wide-32x28", "match, wide sets, 32 variables 28 times each", LARGE, move || {
            answer(of_256.by_turns(32))
        }),
        Workload::new("wide-512", "match, 512 symbols, wide sets, x twice, 505 positions", LARGE, move || {
            answer(of_512.few_times(2, 63))
        }),
    ]
}

fn records() -> Vec<Workload> {
    let few =
        || ["1804-1849", "1825-1899", "Strauss, Eduard,", "Strauss, Johann,", "Strauss, Josef,"].map(String::from);
    let rising = || record(short_record(), &rising_strings(), None);
    let any = || record(short_record(), &shuffled(&rising_strings()), None);
    let refused = move || {
        let mut damaged = short_record();
        *damaged.last_mut().unwrap() = b'\n';
        record(damaged, &few(), Some(17))
    };
    vec![
        Workload::new("converter", "converter, 1,024 positions", MIDDLING, widen),
        Workload::new("marc-rising", "record, 150 bytes, 500 strings that rise", MIDDLING, rising),
        Workload::new("marc-any", "record, 150 bytes, 500 in any order", LARGE, any),
        Workload::new("marc-long", "record, 99,999 bytes, 5 strings", LARGE, move || {
            record(long_record(), &few(), None)
        }),
        Workload::new("marc-refused", "record, 150 bytes, 5 strings, refused at its end", SMALL, refused),
    ]
}

pub fn workloads() -> Vec<Workload> {
    [tables(), terms(), matches(), records()].into_iter().flatten().collect()
}
