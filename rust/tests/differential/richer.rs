//! One question of two tables, the second with pairs added and degrees raised: nothing that was found is lost.

use crate::asks::told;
use crate::draw::{Draw, Drawn};
use crate::X;
use shuuxideg::{plain, proved, Answer, Degrees, MatchHeading, Pair, SPAN, SPANS, VARIABLES, WORDS};

/// What a match answers, and what it leaves in the two buffers.
struct Left {
    answer: Answer<Degrees>,
    spans: Vec<u16>,
    sets: Vec<u64>,
}

fn ask(call: MatchHeading, table: &Drawn, pattern: &[u16], heading: &[u16], cut: u16) -> Left {
    let (mut spans, mut sets) = (vec![9999; SPANS], vec![9999; WORDS * heading.len()]);
    let answer = call(&table.file(), pattern, heading, cut, &mut spans, &mut sets);
    Left { answer, spans, sets }
}

/// What became of the first answer: 0 nothing was found, 1 nothing was lost, 2 the lowest degree fell besides.
fn held(first: &Left, then: &Left, asked: &dyn std::fmt::Debug) -> usize {
    let (before, after) = match (first.answer, then.answer) {
        (Err(_), _) => return 0,
        (Ok(_), Err(refusal)) => panic!("{:?} for {:?}", refusal, asked),
        (Ok(before), Ok(after)) => (before, after),
    };
    assert!(before.highest <= after.highest, "{:?}", asked);
    for v in 0..VARIABLES {
        let (one, two) = (&first.spans[SPAN * v..][..SPAN], &then.spans[SPAN * v..][..SPAN]);
        assert!(one[..2] == two[..2] && one[3] <= two[3], "x{} of {:?}", v, asked);
    }
    assert!(first.sets.iter().zip(&then.sets).all(|(one, two)| one & !two == 0), "{:?}", asked);
    1 + usize::from(after.lowest < before.lowest)
}

#[test]
fn the_lowest_falls_and_the_highest_rises() {
    let table = |pairs: &[(u16, u16, u16)]| {
        let pairs = pairs.iter().map(|&(lower, higher, degree)| Pair { lower, higher, degree }).collect();
        Drawn::new(vec![0, 0], pairs)
    };
    let (apart, near, nearer) = (table(&[]), table(&[(0, 1, 5)]), table(&[(0, 1, 7)]));
    let calls: [MatchHeading; 2] = [proved::match_heading, plain::match_heading];
    for call in calls {
        let degrees = |table, pattern: &[u16], cut| ask(call, table, pattern, &[0], cut).answer;
        assert_eq!(degrees(&apart, &[X], 1), Ok(Degrees { lowest: 1000, highest: 1000 }));
        assert_eq!(degrees(&near, &[X], 1), Ok(Degrees { lowest: 5, highest: 1000 }));
        assert_eq!(degrees(&near, &[1], 5), Ok(Degrees { lowest: 5, highest: 5 }));
        assert_eq!(degrees(&nearer, &[1], 5), Ok(Degrees { lowest: 7, highest: 7 }));
    }
}

#[test]
fn nothing_is_lost() {
    let mut draw = Draw::new(30);
    let mut became = [0; 3];
    for round in 0..3000 {
        let table = if round % 20 == 0 { Drawn::large(&mut draw) } else { Drawn::small(&mut draw) };
        let richer = table.richer(&mut draw);
        let pattern_nodes = 1 + draw.below(12);
        let (pattern, heading) = table.question(&mut draw, pattern_nodes, 7);
        let cut = draw.one(&[1, 400, 500, 600, 700, 999]);
        let call = proved::match_heading;
        let (first, then) = (ask(call, &table, &pattern, &heading, cut), ask(call, &richer, &pattern, &heading, cut));
        became[held(&first, &then, &(&table.pairs, &richer.pairs, &pattern, &heading, cut))] += 1;
    }
    assert!(became.iter().all(|&times| times > 200), "{:?}", became);
    told("richer tables, nothing lost", became[1] + became[2], 2_500);
}
