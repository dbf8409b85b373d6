//! The hardest questions that are known for a match: wide sets in which every member has to be looked at, at every position. And lists of known
//! strings that are chosen for it.

use crate::calls::{answer, record};
use crate::records::{short_record, strings_of_one_digest};
use crate::wide::{Degrees, Stand, Wide};
use crate::Workload;

const TIMES: usize = 3;

/// As many shared constants as there can be beside enough that face variables, and as many as can stand sparsely; then 16 and 17, between which
/// the proved match changes from looking each up to rows of degrees, and a table of 64 symbols, in which it does so between 4 and 5.
const OF_256: Wide =
    Wide { symbols: 256, faced: 28, shared: 224, degrees: Degrees::Falling, stand: Stand::SideBySide };
const OF_512: Wide =
    Wide { symbols: 512, faced: 16, shared: 492, degrees: Degrees::Falling, stand: Stand::SideBySide };
const TABLES: [Wide; 11] = [
    OF_256,
    Wide { stand: Stand::Apart, ..OF_256 },
    Wide { stand: Stand::Sparse, shared: 28, ..OF_256 },
    OF_512,
    Wide { stand: Stand::Apart, ..OF_512 },
    Wide { stand: Stand::Sparse, shared: 62, ..OF_512 },
    Wide { shared: 16, ..OF_256 },
    Wide { shared: 17, ..OF_256 },
    Wide { shared: 16, ..OF_512 },
    Wide { shared: 17, ..OF_512 },
    Wide { symbols: 64, faced: 28, shared: 32, ..OF_256 },
];

pub fn workloads() -> Vec<Workload> {
    let of_each = |table: Wide| {
        let (stand, word) = match table.stand {
            Stand::SideBySide => ("", ""),
            Stand::Apart => ("-apart", ", 32 apart"),
            Stand::Sparse => ("-sparse", ", sparse"),
        };
        let about = format!("{} symbols, {} shared{}", table.symbols, table.shared, word);
        let workload = |name: &str, title: &str, make: fn(&Wide) -> crate::questions::Question| {
            let (name, title) = (format!("dear-{}-{}{}-{}", table.symbols, table.shared, stand, name), format!("{}, {}", about, title));
            Workload::new(&name, &title, TIMES, move || answer(make(&table)))
        };
        [
            workload("2", "x twice, 505 positions", |table| table.few_times(2, 63)),
            workload("4", "x four times, 249 positions", |table| table.few_times(4, 31)),
            workload("8", "x eight times, 121 positions", |table| table.few_times(8, 15)),
            workload("890", "x 890 times", Wide::many_times),
            workload("28", "32 variables 28 times each", |table| table.by_turns(32)),
        ]
    };
    let of_one_digest = |count: usize| {
        let (name, title) = (format!("dear-digest-{}", count), format!("record, {} strings of one digest", count));
        Workload::new(&name, &title, TIMES, move || record(short_record(), &strings_of_one_digest(count), None))
    };
    TABLES.into_iter().flat_map(of_each).chain([512, 1024].map(of_one_digest)).collect()
}
