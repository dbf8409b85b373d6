//! Saved answers: the converter's whole output compared, and that what it makes of an answer as it was saved is what the match leaves today.

use crate::asks::{told, widen};
use crate::draw::{Draw, Drawn};
use shuuxideg::{proved, SAVED_WORDS, SPANS, WORDS};

#[test]
fn any_words() {
    let mut draw = Draw::new(60);
    let mut asked = 0;
    let mut taken = 0;
    for _ in 0..20_000 {
        let words: Vec<u64> = (0..draw.below(50)).map(|_| draw.below(1 << 30) as u64 * 0x4_0000_0003).collect();
        let room = draw.one(&[2 * words.len(), 2 * words.len() + 7, words.len(), 2 * words.len() + 1, 99]);
        taken += usize::from(widen(&words, room).is_some());
        asked += 1;
    }
    assert!(taken > 1000 && taken < 15_000, "{}", taken);
    told("saved, any words", asked, 20_000);
}

#[test]
fn counts_and_rooms_at_the_limits() {
    let mut asked = 0;
    for count in (0..14usize).chain([19, 20, 21, 4095, 4096, 4097, 4100]) {
        let words: Vec<u64> = (0..count).map(|i| u64::MAX - i as u64).collect();
        for room in [0, count, (2 * count).saturating_sub(1), 2 * count, 2 * count + 1, 2 * count + 100] {
            let fits = count % SAVED_WORDS == 0 && room >= 2 * count;
            assert_eq!(widen(&words, room).is_some(), fits, "{} words in {}", count, room);
            asked += 1;
        }
    }
    told("saved, counts and rooms at the limits", asked, 126);
}

#[test]
fn as_answered_today() {
    let mut draw = Draw::new(61);
    let mut asked = 0;
    while asked < 500 {
        let table = if draw.chance(80) { Drawn::small(&mut draw) } else { Drawn::large(&mut draw) };
        if table.arities.len() > 64 * SAVED_WORDS {
            continue;
        }
        let (pattern, heading) = table.question(&mut draw, 10, 6);
        let (mut spans, mut sets) = (vec![0; SPANS], vec![0; WORDS * heading.len()]);
        if proved::match_heading(&table.file(), &pattern, &heading, 1, &mut spans, &mut sets).is_ok() {
            let saved: Vec<u64> = sets.chunks(WORDS).flat_map(|set| set[..SAVED_WORDS].to_vec()).collect();
            assert!(sets.chunks(WORDS).all(|set| set[SAVED_WORDS..].iter().all(|&word| word == 0)));
            assert_eq!(widen(&saved, sets.len()), Some(sets));
            asked += 1;
        }
    }
    told("saved, as answered today", asked, 500);
}
