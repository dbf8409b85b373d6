//! The degree of two headings, the subterm at an index, and the nearer of two candidates.

use crate::asks::{told, Asker};
use crate::draw::{damaged, damaged_file, Draw, Drawn};
use crate::X;

/// All lists of up to so many of these nodes.
fn lists(nodes: &[u16], longest: usize) -> Vec<Vec<u16>> {
    let mut all = vec![Vec::new()];
    let mut from = 0;
    for _ in 0..longest {
        let to = all.len();
        for i in from..to {
            for &node in nodes {
                let longer = [&all[i][..], &[node]].concat();
                all.push(longer);
            }
        }
        from = to;
    }
    all
}

/// Everything that is asked of terms, with one list in every place that a call has for it.
fn ask_all(asker: &mut Asker, draw: &mut Draw, first: &[u16], second: &[u16], third: &[u16]) {
    asker.heading_degree(first, second);
    asker.heading_degree(second, first);
    asker.nearer(first, second, third);
    asker.nearer(second, third, first);
    asker.nearer(third, first, second);
    for list in [first, second] {
        asker.subterm(list, draw.below(list.len() + 2));
    }
    asker.subterm(first, 0);
}

#[test]
fn every_short_list() {
    let mut asker = Asker::new(&Drawn::t().file());
    for list in lists(&[0, 1, 5, 7, 8, X, X + 31, X + 32], 4) {
        asker.heading_degree(&list, &[0, 5, 6]);
        asker.heading_degree(&[1, 5], &list);
        for index in 0..list.len() + 1 {
            asker.subterm(&list, index);
        }
    }
    let headings = lists(&[0, 1, 4, 5, 7, X], 3);
    for (i, list) in headings.iter().enumerate() {
        for other in headings.iter().skip(i % 5).step_by(5) {
            asker.heading_degree(list, other);
            asker.nearer(other, list, &[0, 5, 5]);
            asker.nearer(list, &[1, 6], other);
        }
    }
    told("terms, every short list", asker.asked, 60_000);
}

#[test]
fn small_terms() {
    let mut draw = Draw::new(10);
    let mut asked = 0;
    for _ in 0..600 {
        let table = Drawn::small(&mut draw);
        let mut asker = Asker::new(&table.file());
        for _ in 0..8 {
            let nodes = 1 + draw.below(20);
            let first = table.heading(&mut draw, nodes);
            let (second, third) = (table.stray(&mut draw, &first, 50, 10), table.stray(&mut draw, &first, 90, 0));
            ask_all(&mut asker, &mut draw, &first, &second, &third);
            let bad = damaged(&mut draw, &second);
            ask_all(&mut asker, &mut draw, &first, &bad, &third);
            let (pattern, heading) = table.question(&mut draw, 12, 6);
            asker.subterm(&pattern, draw.below(pattern.len() + 1));
            asker.heading_degree(&heading, &pattern);
        }
        asked += asker.asked;
        let mut asker = Asker::new(&damaged_file(&mut draw, &table.file()));
        ask_all(&mut asker, &mut draw, &[0], &[0], &[0]);
        asked += asker.asked;
    }
    told("terms, small", asked, 80_000);
}

#[test]
fn large_terms() {
    let mut draw = Draw::new(11);
    let mut asked = 0;
    for _ in 0..120 {
        let table = Drawn::large(&mut draw);
        let mut asker = Asker::new(&table.file());
        for _ in 0..4 {
            let nodes = draw.one(&[31, 32, 33, 63, 64, 65, 200, 900, 1023, 1024, 1025, 1100, 1500]);
            let first = table.heading(&mut draw, nodes);
            let (second, third) = (table.stray(&mut draw, &first, 50, 1), table.stray(&mut draw, &first, 20, 0));
            ask_all(&mut asker, &mut draw, &first, &second, &third);
            let bad = damaged(&mut draw, &third);
            ask_all(&mut asker, &mut draw, &first, &second, &bad);
        }
        asked += asker.asked;
    }
    told("terms, large", asked, 7_000);
}

/// Chains of 62 to 67 nodes, ended by a constant or a variable, alone and as an argument beside others; lists of 1,023 to 1,026 nodes.
#[test]
fn depth_and_length_at_the_limits() {
    let mut asker = Asker::new(&Drawn::t().file());
    for last in [5, X, 65535] {
        for links in 60..68 {
            let chain = [&vec![1; links][..], &[last]].concat();
            for term in [chain.clone(), [&[0, 5], &chain[..]].concat(), [&[0], &chain[..], &[6]].concat()] {
                for other in [&term[..], &[5], &[1, 5]] {
                    asker.heading_degree(&term, other);
                    asker.heading_degree(other, &term);
                    asker.nearer(other, &term, &[5]);
                }
                for index in [0, 1, links - 1, links, links + 1, links + 2, 65536, usize::MAX] {
                    asker.subterm(&term, index);
                }
            }
        }
    }
    for nodes in [1, 2, 1023, 1024, 1025, 1026, 2000, 40_000] {
        for node in [5, 8, X, 65535, 1] {
            let list = vec![node; nodes];
            asker.heading_degree(&list, &[5]);
            asker.heading_degree(&[5], &list);
            asker.nearer(&[5], &list, &[5]);
            asker.nearer(&[5], &[6], &list);
            asker.nearer(&list, &[6], &[5]);
            asker.subterm(&list, 0);
            asker.subterm(&list, nodes - 1);
        }
    }
    told("terms, depth and length at the limits", asker.asked, 1_500);
}
