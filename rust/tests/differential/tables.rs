//! Is it a table, what does it say of two symbols, and what is read back from it.

use crate::asks::{told, Asker};
use crate::draw::{damaged_file, damaged_pairs, each_changed, file_of, Draw, Drawn};
use shuuxideg::{proved, Refusal};

/// All that can be asked of a table alone, for numbers in it and beside it.
fn ask_all(draw: &mut Draw, file: &[u8], symbols: usize, pairs: usize) -> usize {
    let mut asker = Asker::new(file);
    asker.check_table();
    for _ in 0..3 {
        let (a, b) = (draw.below(symbols + 1) as u16, draw.below(symbols + 1) as u16);
        asker.symbol_degree(a, b);
        asker.symbol_degree(b, a);
        asker.symbol_degree(a, draw.node());
        asker.arity(a);
        asker.pair(draw.below(pairs + 2));
    }
    let node = draw.node();
    asker.symbol_degree(node, node);
    asker.arity(node);
    asker.pair(usize::from(node));
    asker.asked
}

#[test]
fn each_byte_and_each_length() {
    let file = Drawn::t().file();
    let mut asked = 0;
    for at in 0..file.len() {
        for byte in 0..=255 {
            let mut changed = file.clone();
            changed[at] = byte;
            let mut asker = Asker::new(&changed);
            asker.check_table();
            asker.symbol_degree(5, 7);
            asked += asker.asked;
        }
    }
    let more = [&file[..], &[0; 40]].concat();
    for len in 0..more.len() {
        let mut asker = Asker::new(&more[..len]);
        asker.check_table();
        asker.arity(0);
        asker.pair(7);
        asked += asker.asked;
    }
    told("tables, each byte and each length", asked, 34_000);
}

#[test]
fn every_pair_of_symbols() {
    let mut asked = 0;
    let mut draw = Draw::new(1);
    for table in [Drawn::t(), Drawn::small(&mut draw), Drawn::small(&mut draw), Drawn::table(&mut draw, 20, 50)] {
        let mut asker = Asker::new(&table.file());
        let symbols = table.arities.len() as u16;
        for a in 0..symbols + 2 {
            asker.arity(a);
            for b in 0..symbols + 2 {
                asker.symbol_degree(a, b);
            }
        }
        for index in 0..table.pairs.len() + 2 {
            asker.pair(index);
        }
        asked += asker.asked;
    }
    told("tables, every pair of symbols", asked, 700);
}

/// An index is as wide as a length: also where its low 16 bits are those of a pair's, there is no such pair.
#[test]
fn indices_above_16_bits() {
    let file = Drawn::t().file();
    let mut asker = Asker::new(&file);
    for high in [1 << 16, 2 << 16, 1 << 32, usize::MAX << 16] {
        for low in 0..8 {
            asker.pair(high + low);
            assert_eq!(proved::pair(&file, high + low), Err(Refusal { number: 14, place: 0 }));
        }
    }
    asker.pair(usize::MAX);
    told("tables, indices above 16 bits", asker.asked, 33);
}

#[test]
fn small_tables() {
    let mut draw = Draw::new(2);
    let mut asked = 0;
    for _ in 0..1500 {
        let table = Drawn::small(&mut draw);
        let (symbols, pairs) = (table.arities.len(), table.pairs.len());
        asked += ask_all(&mut draw, &table.file(), symbols, pairs);
        let changed = damaged_file(&mut draw, &table.file());
        asked += ask_all(&mut draw, &changed, symbols, pairs);
        let changed = damaged_pairs(&mut draw, symbols, &table.pairs);
        asked += ask_all(&mut draw, &file_of(&table.arities, &changed), symbols, pairs);
    }
    told("tables, small", asked, 80_000);
}

#[test]
fn large_tables() {
    let mut draw = Draw::new(3);
    let mut asked = 0;
    for _ in 0..150 {
        let table = Drawn::large(&mut draw);
        let (symbols, pairs) = (table.arities.len(), table.pairs.len());
        asked += ask_all(&mut draw, &table.file(), symbols, pairs);
        let changed = damaged_file(&mut draw, &table.file());
        asked += ask_all(&mut draw, &changed, symbols, pairs);
        let changed = damaged_pairs(&mut draw, symbols, &table.pairs);
        asked += ask_all(&mut draw, &file_of(&table.arities, &changed), symbols, pairs);
    }
    told("tables, large", asked, 8_000);
}

/// Tables are tested many pairs at a time: a fault at every place, with as many pairs as make one time more or not yet.
#[test]
fn each_number_of_many_pairs() {
    let mut draw = Draw::new(4);
    let mut asked = 0;
    for count in [17, 18, 19, 32, 33, 34, 35, 65, 66, 67, 100] {
        for symbols in [60, 300] {
            let table = Drawn::table(&mut draw, symbols, 90);
            each_changed(symbols, &table.pairs[..count], |pairs| {
                let mut asker = Asker::new(&file_of(&table.arities, pairs));
                asker.check_table();
                asked += asker.asked;
            });
        }
    }
    told("tables, each number of many pairs", asked, 26_000);
}

/// Counts at and beyond their limits, with a file that is as long as they ask for.
#[test]
fn counts_at_the_limits() {
    let mut asked = 0;
    let full: Vec<shuuxideg::Pair> = (0..256)
        .flat_map(|lower| (lower + 1..256).map(move |higher| shuuxideg::Pair { lower, higher, degree: 1 + lower }))
        .collect();
    for symbols in [0, 1, 2, 255, 256, 257, 511, 512, 513, 600] {
        for count in [0, 1, 2, 8191, 8192, 8193, 10922] {
            let file = file_of(&vec![0; symbols], &full[..count]);
            let mut asker = Asker::new(&file);
            asker.check_table();
            asker.symbol_degree(0, 1);
            asker.symbol_degree(255, 256);
            asker.symbol_degree(511, 512);
            asker.arity(255);
            asker.arity(256);
            asker.arity(511);
            asker.arity(512);
            asker.pair(8191);
            asker.pair(8192);
            asked += asker.asked;
        }
    }
    told("tables, counts at the limits", asked, 300);
}
