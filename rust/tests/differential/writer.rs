//! The table writer: the whole output compared, and what was written read back.

use crate::asks::{told, write_table, Asker};
use crate::draw::{damaged_pairs, each_changed, file_of, Draw, Drawn};
use shuuxideg::Pair;

/// Writes into each of these rooms; a file that was written is the right one, and a table.
fn write_in(arities: &[u8], pairs: &[Pair], rooms: &[usize]) -> usize {
    let mut asked = 0;
    for &room in rooms {
        if let Some(file) = write_table(arities, pairs, room) {
            assert!(file == file_of(arities, pairs));
            let mut asker = Asker::new(&file);
            assert!(asker.check_table());
            asked += 1;
        }
        asked += 1;
    }
    asked
}

fn rooms_about(draw: &mut Draw, arities: &[u8], pairs: &[Pair]) -> [usize; 5] {
    let total = 10 + arities.len() + 6 * pairs.len();
    [total, total - 1, total + 1 + draw.below(20), draw.below(total), 0]
}

#[test]
fn small_tables() {
    let mut draw = Draw::new(30);
    let mut asked = 0;
    for _ in 0..2500 {
        let mut table = Drawn::small(&mut draw);
        let rooms = rooms_about(&mut draw, &table.arities, &table.pairs);
        asked += write_in(&table.arities, &table.pairs, &rooms);
        let pairs = damaged_pairs(&mut draw, table.arities.len(), &table.pairs);
        asked += write_in(&table.arities, &pairs, &rooms);
        let at = draw.below(table.arities.len());
        table.arities[at] = draw.one(&[0, 7, 8, 9, 255]);
        asked += write_in(&table.arities, &pairs, &rooms);
    }
    told("writer, small", asked, 40_000);
}

#[test]
fn large_tables() {
    let mut draw = Draw::new(31);
    let mut asked = 0;
    for _ in 0..80 {
        let mut table = Drawn::large(&mut draw);
        let rooms = rooms_about(&mut draw, &table.arities, &table.pairs);
        asked += write_in(&table.arities, &table.pairs, &rooms);
        let pairs = damaged_pairs(&mut draw, table.arities.len(), &table.pairs);
        asked += write_in(&table.arities, &pairs, &rooms);
        let at = draw.below(table.arities.len());
        table.arities[at] = draw.one(&[0, 8, 9]);
        asked += write_in(&table.arities, &table.pairs, &rooms);
    }
    told("writer, large", asked, 1_200);
}

#[test]
fn each_number_of_many_pairs() {
    let mut draw = Draw::new(32);
    let mut asked = 0;
    for count in [33, 34, 66, 100] {
        for symbols in [60, 300] {
            let table = Drawn::table(&mut draw, symbols, 90);
            let room = 10 + symbols + 6 * count;
            each_changed(symbols, &table.pairs[..count], |pairs| asked += write_in(&table.arities, pairs, &[room]));
        }
    }
    told("writer, each number of many pairs", asked, 12_000);
}

#[test]
fn counts_at_the_limits() {
    let full: Vec<Pair> = (0..256)
        .flat_map(|lower| (lower + 1..256).map(move |higher| Pair { lower, higher, degree: 999 - lower }))
        .collect();
    let mut asked = 0;
    for symbols in [0, 1, 2, 255, 256, 257, 511, 512, 513, 65536, 65536 + 8] {
        for count in [0, 1, 8191, 8192, 8193, 32640] {
            let rooms = [10 + symbols + 6 * count, 9 + symbols + 6 * count, 0];
            asked += write_in(&vec![0; symbols], &full[..count], &rooms);
        }
    }
    told("writer, counts at the limits", asked, 198);
}
