//! Writes table T, matches the pattern 0 x0 x0 with the heading 0 1 5 2 6 at cut 600, and prints what may stand for x0.

use shuuxideg::{proved, Pair, Refusal, SPANS, VARIABLE, WORDS};

fn main() -> Result<(), Refusal> {
    let near = |lower, higher, degree| Pair { lower, higher, degree };
    let pairs = [
        near(1, 2, 500),
        near(1, 3, 600),
        near(1, 4, 700),
        near(2, 3, 600),
        near(2, 4, 800),
        near(5, 6, 500),
        near(5, 7, 700),
        near(6, 7, 800),
    ];
    let mut table = [0; 66];
    proved::write_table(&[2, 1, 1, 1, 1, 0, 0, 0], &pairs, &mut table)?;

    let heading = [0, 1, 5, 2, 6];
    let (mut spans, mut sets) = ([0; SPANS], [0; WORDS * 5]);
    let found = proved::match_heading(&table, &[0, VARIABLE, VARIABLE], &heading, 600, &mut spans, &mut sets)?;

    println!("match {} {}", found.lowest, found.highest);
    println!("x0 {} {} {}", spans[1], spans[2], spans[3]);
    for set in sets.chunks(WORDS).take(spans[1].into()) {
        let stands = |k: &usize| set[k / 64] >> (k % 64) & 1 == 1;
        let symbols: Vec<_> = (0..64 * WORDS).filter(stands).map(|k| k.to_string()).collect();
        println!("{}", symbols.join(" "));
    }
    Ok(())
}
