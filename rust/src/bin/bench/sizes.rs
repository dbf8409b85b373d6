//! How cost grows: series of workloads, each about twice as large as the one before it. All of a series have one name, up to its last hyphen.

use crate::build::Table;
use crate::calls::{answer, check, degree, record, write, Once};
use crate::questions::{headings, repeated};
use crate::records::{many_strings, short_record};
use crate::wide::{Degrees, Wide};
use crate::Workload;

const TIMES: usize = 5;

/// The number with a comma before its last three digits.
fn written(size: usize) -> String {
    match (size / 1000, size % 1000) {
        (0, below) => below.to_string(),
        (thousands, below) => format!("{},{:03}", thousands, below),
    }
}

fn series(name: &str, title: &str, sizes: &[usize], make: impl Fn(usize) -> Once + Copy + 'static) -> Vec<Workload> {
    let workload = |&size: &usize| {
        let (name, title) = (format!("{}-{}", name, size), title.replace('#', &written(size)));
        Workload::new(&name, &title, TIMES, move || make(size))
    };
    sizes.iter().map(workload).collect()
}

pub fn workloads() -> Vec<Workload> {
    let pairs = [1024, 2048, 4096, 8192];
    let nodes = [128, 256, 512, 1024];
    let strings = [1024, 2048, 4096, 8192, 16384, 32768];
    let inner = |positions: usize| positions / 8;
    // With no early end every member of a set of up to 16 is looked up at every position, in a table of 64 symbols of up to 4.
    let looked_up = Wide { faced: 12, degrees: Degrees::Falling, ..Wide::OF_256 };
    let of_64 = Wide { symbols: 64, ..looked_up };
    [
        series("size-check", "table check, # pairs", &pairs, |pairs| check(Table::of_256_symbols(pairs))),
        series("size-write", "table writer, # pairs", &pairs, |pairs| write(Table::of_256_symbols(pairs))),
        series("size-degree", "degree of headings, # nodes, table T", &nodes, |nodes| {
            let table = Table::listing();
            let headings = headings(&table, nodes);
            degree(table, headings)
        }),
        series("size-nodes", "match, # nodes, repeated variables", &nodes, |nodes| answer(repeated(8192, nodes))),
        series("size-pairs", "match, 1,024 nodes, # pairs", &pairs, |pairs| answer(repeated(pairs, 1024))),
        series("size-variables", "match, wide sets, variables 28 times each: #", &[1, 2, 4, 8, 16, 32], |variables| {
            answer(Wide::OF_256.by_turns(variables))
        }),
        series("size-positions", "match, wide sets, x twice, # positions", &[65, 129, 257, 505], move |positions| {
            answer(Wide::OF_256.few_times(2, inner(positions)))
        }),
        series("size-shared", "match, wide sets, x twice, # shared", &[28, 56, 112, 224], |shared| {
            answer(Wide { shared, ..Wide::OF_256 }.few_times(2, 63))
        }),
        series("size-few", "match, x twice, # shared", &[4, 8, 16], move |shared| {
            answer(Wide { shared, ..looked_up }.few_times(2, 63))
        }),
        series("size-few-eight", "match, x eight times, # shared", &[4, 8, 16], move |shared| {
            answer(Wide { shared, ..looked_up }.few_times(8, 15))
        }),
        series("size-64", "match, 64 symbols, x eight times, # shared", &[2, 4, 8, 16, 32], move |shared| {
            answer(Wide { shared, ..of_64 }.few_times(8, 15))
        }),
        series("size-strings", "record, # strings in any order", &strings, |count| {
            record(short_record(), &many_strings(count), None)
        }),
    ]
    .into_iter()
    .flatten()
    .collect()
}
