//! The match, with both buffers compared whole.

use crate::asks::{told, Asker};
use crate::draw::{damaged, damaged_file, Draw, Drawn};
use crate::X;
use shuuxideg::WORDS;

/// How often each refusal was given; 0 is a match.
type Given = [usize; 12];

/// About how many nodes a pattern has, and at most a variable's form: small and large on both sides, and too large.
const SIZES: [(usize, usize); 11] =
    [(1, 1024), (3, 400), (10, 80), (31, 30), (32, 30), (33, 30), (90, 60), (100, 8), (1000, 1), (1024, 1), (1030, 1)];

const CUTS: [u16; 9] = [1, 400, 500, 501, 600, 700, 701, 999, 1000];

#[test]
fn every_short_pattern() {
    let mut asker = Asker::new(&Drawn::t().file());
    let headings: [&[u16]; 9] =
        [&[5], &[1, 5], &[2, 7], &[0, 5, 6], &[0, 5, 5], &[0, 1, 5, 7], &[0, 1, 5, 2, 6], &[0, 0, 5, 6, 7], &[1, 4, 7]];
    let nodes = [0, 1, 4, 5, 7, X, X + 1];
    let mut given: Given = [0; 12];
    for size in 1..=5u32 {
        for number in 0..7usize.pow(size) {
            let pattern: Vec<u16> = (0..size).map(|i| nodes[number / 7usize.pow(i) % 7]).collect();
            // Longer lists that are no term or have no variable are many and alike: a few of them do.
            let told_apart = pattern.iter().any(|&node| node >= X) && pattern[0] < 5;
            if size > 3 && (!told_apart || number % 13 != 0) {
                continue;
            }
            for heading in headings {
                for cut in [500, 600, 601, 701] {
                    given[asker.match_in_room(&pattern, heading, cut)] += 1;
                }
            }
        }
    }
    assert!(given[0] > 300 && given[6] > 0 && given[9] > 0 && given[10] > 0, "{:?}", given);
    told("matches, every short pattern", asker.asked, 30_000);
}

#[test]
fn small_matches() {
    let mut draw = Draw::new(20);
    let mut asked = 0;
    let mut given: Given = [0; 12];
    for _ in 0..1500 {
        let table = Drawn::small(&mut draw);
        let mut asker = Asker::new(&table.file());
        for _ in 0..16 {
            let pattern_nodes = 1 + draw.below(14);
            let (pattern, heading) = table.question(&mut draw, pattern_nodes, 7);
            let cut = draw.one(&CUTS);
            given[asker.match_in_room(&pattern, &heading, cut)] += 1;
            given[asker.match_in_room(&pattern, &heading, 1)] += 1;
        }
        asked += asker.asked;
    }
    assert!(given[0] > 10_000 && given[9] > 1000 && given[10] > 1000, "{:?}", given);
    told("matches, small", asked, 48_000);
}

#[test]
fn large_matches() {
    let mut draw = Draw::new(21);
    let mut asked = 0;
    let mut given: Given = [0; 12];
    for _ in 0..250 {
        let table = Drawn::large(&mut draw);
        let mut asker = Asker::new(&table.file());
        for _ in 0..4 {
            let (pattern_nodes, form_nodes) = draw.one(&SIZES);
            let (pattern, heading) = table.question(&mut draw, pattern_nodes, form_nodes);
            let cut = draw.one(&CUTS);
            given[asker.match_in_room(&pattern, &heading, cut)] += 1;
            let (more_spans, more_sets) = (draw.below(20), draw.below(50));
            given[asker.match_heading(&pattern, &heading, 1, 128 + more_spans, WORDS * heading.len() + more_sets)] += 1;
        }
        asked += asker.asked;
    }
    assert!(given[0] > 500 && given[6] + given[7] > 50 && given[9] > 100 && given[10] > 50, "{:?}", given);
    told("matches, large", asked, 2_000);
}

/// Wide sets and variables that stand often: nearly all symbols are constants, and near to many others.
#[test]
fn wide_matches() {
    let mut draw = Draw::new(23);
    let mut asked = 0;
    let mut given: Given = [0; 12];
    for _ in 0..12 {
        for symbols in [12, 16, 17, 63, 64, 65, 120, 128, 200, 256, 257, 320, 512] {
            let table = Drawn::wide(&mut draw, symbols);
            let mut asker = Asker::new(&table.file());
            for _ in 0..4 {
                let (pattern_nodes, form_nodes) = draw.one(&[(9, 100), (17, 40), (60, 9), (200, 1), (900, 1)]);
                let (pattern, heading) = table.question(&mut draw, pattern_nodes, form_nodes);
                let cut = draw.one(&CUTS);
                given[asker.match_in_room(&pattern, &heading, cut)] += 1;
                given[asker.match_in_room(&pattern, &heading, 1)] += 1;
            }
            asked += asker.asked;
        }
    }
    assert!(given[0] > 400 && given[9] > 20 && given[10] > 20, "{:?}", given);
    told("matches, wide", asked, 1_200);
}

/// Something is wrong with one or two of what was lent, so that the order of the tests shows.
#[test]
fn damaged_questions() {
    let mut draw = Draw::new(22);
    let mut asked = 0;
    let mut given: Given = [0; 12];
    for _ in 0..6000 {
        let table = if draw.chance(95) { Drawn::small(&mut draw) } else { Drawn::large(&mut draw) };
        let (mut pattern, mut heading) = table.question(&mut draw, 10, 6);
        let (mut file, mut cut) = (table.file(), draw.one(&CUTS));
        let (mut spans, mut sets) = (128 + draw.below(3), WORDS * heading.len() + draw.below(5));
        for _ in 0..1 + draw.below(2) {
            match draw.below(6) {
                0 => file = damaged_file(&mut draw, &file),
                1 => cut = draw.one(&[0, 1001, 65535]),
                2 => pattern = damaged(&mut draw, &pattern),
                3 => heading = damaged(&mut draw, &heading),
                4 => spans = draw.below(128),
                _ => sets = draw.below(WORDS * heading.len() + 1),
            }
        }
        let mut asker = Asker::new(&file);
        given[asker.match_heading(&pattern, &heading, cut, spans, sets)] += 1;
        asker.match_heading(&pattern, &heading, cut, 128, WORDS * heading.len());
        asked += asker.asked;
    }
    assert!(given[1..9].iter().all(|&times| times > 10), "{:?}", given);
    told("matches, damaged", asked, 12_000);
}

/// 1,024 nodes, all 32 variables, depth 64, and every room about the least.
#[test]
fn sizes_at_the_limits() {
    let mut draw = Draw::new(23);
    let table = Drawn::t();
    let mut asker = Asker::new(&table.file());
    for links in 60..66 {
        let chain = |last: u16| [&vec![1; links][..], &[last]].concat();
        for cut in CUTS {
            asker.match_in_room(&chain(X), &chain(5), cut);
            asker.match_in_room(&[X + 31], &chain(5), cut);
            asker.match_in_room(&chain(7), &chain(5), cut);
            let (pattern, heading) = ([&[0, X][..], &chain(X)].concat(), [&[0, 5][..], &chain(6)].concat());
            asker.match_in_room(&pattern, &heading, cut);
        }
    }
    for spans in 126..134 {
        for sets in 37..44 {
            asker.match_heading(&[0, X, X], &[0, 1, 5, 2, 6], 600, spans, sets);
            asker.match_heading(&[0, X, X], &[0, 1, 5, 2, 6], 701, spans, sets);
            asker.match_heading(&[0, 5, X], &[0, 1, 5, 2, 6], 600, spans, sets);
        }
    }
    for nodes in [1019, 1021, 1023, 1025, 1027] {
        // a comb: 0 5 0 5 .. 5, as a heading and with all the variables for its teeth
        let comb = |tooth: &mut dyn FnMut(usize) -> u16| {
            let mut list = Vec::new();
            let mut open = vec![(nodes + 1) / 2];
            while let Some(leaves) = open.pop() {
                if leaves == 1 {
                    list.push(tooth(list.len()));
                } else {
                    list.push(0);
                    open.push(leaves - leaves / 2);
                    open.push(leaves / 2);
                }
            }
            list
        };
        let heading = comb(&mut |_| draw.one(&[5, 6, 7]));
        let pattern = comb(&mut |at| X + (at % 32) as u16);
        for cut in CUTS {
            asker.match_in_room(&pattern, &heading, cut);
            asker.match_in_room(&heading, &heading, cut);
            asker.match_in_room(&[X], &heading, cut);
        }
    }
    told("matches, sizes at the limits", asker.asked, 500);
}
