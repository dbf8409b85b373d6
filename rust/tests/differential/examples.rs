//! Worked examples with their answers, asked of both implementations.

use crate::asks::marc_heading;
use crate::draw::Drawn;
use crate::records::{record_of, Field, List};
use crate::X;
use shuuxideg::{plain, proved, MatchHeading, Refusal, WORDS};

/// Lowest, highest and the members of each set; or number and place.
type Matched = Result<(u16, u16, Members), (u16, u16)>;
type Members = Vec<Vec<u16>>;

fn match_by(call: MatchHeading, cut: u16, pattern: &[u16], heading: &[u16]) -> Matched {
    let (mut spans, mut sets) = ([0; 128], vec![0; WORDS * heading.len()]);
    match call(&Drawn::t().file(), pattern, heading, cut, &mut spans, &mut sets) {
        Err(refusal) => Err((refusal.number, refusal.place)),
        Ok(degrees) => {
            let packed: u16 = spans.iter().skip(1).step_by(4).sum();
            let members =
                |set: &[u64]| (0..64 * WORDS).filter(|k| set[k / 64] >> (k % 64) & 1 == 1).map(|k| k as u16).collect();
            let sets = sets.chunks(WORDS).take(usize::from(packed)).map(members).collect();
            Ok((degrees.lowest, degrees.highest, sets))
        }
    }
}

fn matched(cut: u16, pattern: &[u16], heading: &[u16]) -> Matched {
    let ours = match_by(proved::match_heading, cut, pattern, heading);
    assert_eq!(ours, match_by(plain::match_heading, cut, pattern, heading));
    ours
}

#[test]
fn of_symbols_and_headings() {
    let t = Drawn::t().file();
    for symbol_degree in [proved::symbol_degree, plain::symbol_degree] {
        assert_eq!(symbol_degree(&t, 5, 7), Ok(700));
        assert_eq!(symbol_degree(&t, 6, 5), Ok(500));
        assert_eq!(symbol_degree(&t, 5, 5), Ok(1000));
        assert_eq!(symbol_degree(&t, 0, 1), Ok(0));
        assert_eq!(symbol_degree(&t, 8, 8), Err(Refusal { number: 13, place: 0 }));
        assert_eq!(symbol_degree(&t, 8, 7), Err(Refusal { number: 13, place: 0 }));
        assert_eq!(symbol_degree(&t, 7, 8), Err(Refusal { number: 13, place: 1 }));
        assert_eq!(symbol_degree(&t[..65], 8, 8), Err(Refusal { number: 1, place: 0 }));
        assert_eq!(symbol_degree(&[0; 9], 0, 0), Err(Refusal { number: 1, place: 0 }));
        assert_eq!(symbol_degree(&[0; 10], 0, 0), Err(Refusal { number: 2, place: 0 }));
    }
    for heading_degree in [proved::heading_degree, plain::heading_degree] {
        assert_eq!(heading_degree(&t, &[1, 5], &[4, 7]), Ok(700));
        assert_eq!(heading_degree(&t, &[1, 5], &[5]), Ok(0));
        assert_eq!(heading_degree(&t, &[X], &[5]), Err(Refusal { number: 6, place: 0 }));
        assert_eq!(heading_degree(&t, &[5], &[0, 5]), Err(Refusal { number: 7, place: 2 }));
    }
}

#[test]
fn of_parts() {
    let t = Drawn::t().file();
    let term = [0, 1, X, 0, 5, 6];
    for subterm in [proved::subterm, plain::subterm] {
        assert_eq!(subterm(&t, &term, 1), &[1, X]);
        assert_eq!(subterm(&t, &term, 3), &[0, 5, 6]);
        assert_eq!(subterm(&t, &term, 6), &[]);
        assert_eq!(subterm(&t, &term[..5], 1), &[]);
    }
    for nearer in [proved::nearer, plain::nearer] {
        assert_eq!(nearer(&t, &[1, 5], &[2, 5], &[3, 5]), &[3, 5]);
        assert_eq!(nearer(&t, &[1, 5], &[5], &[0, 5, 5]), &[5]);
        assert_eq!(nearer(&t, &[1, 5], &[5], &[X]), &[]);
    }
}

#[test]
fn of_matches() {
    let (pattern, heading) = ([0, X, X], [0, 1, 5, 2, 6]);
    assert_eq!(matched(500, &pattern, &heading), Ok((500, 700, vec![vec![1, 2, 3, 4], vec![5, 6, 7]])));
    assert_eq!(matched(600, &pattern, &heading), Ok((600, 700, vec![vec![3, 4], vec![7]])));
    assert_eq!(matched(601, &pattern, &heading), Ok((700, 700, vec![vec![4], vec![7]])));
    assert_eq!(matched(700, &pattern, &heading), Ok((700, 700, vec![vec![4], vec![7]])));
    assert_eq!(matched(701, &pattern, &heading), Err((10, 0)));
    assert_eq!(matched(500, &[1, X], &[2, 6]), Ok((500, 500, vec![vec![5, 6, 7]])));
    assert_eq!(matched(501, &[1, X], &[2, 6]), Err((9, 0)));
    assert_eq!(matched(700, &[X + 2], &[5]), Ok((700, 1000, vec![vec![5, 7]])));
    assert_eq!(matched(700, &[5], &[7]), Ok((700, 700, vec![])));
    assert_eq!(matched(701, &[0, 0, X, X, 5], &[0, 0, 5, 6, 6]), Err((9, 4)));
    assert_eq!(matched(701, &[0, 0, X + 4, X + 4, 0, X + 2, X + 2], &[0, 0, 5, 6, 0, 5, 6]), Err((10, 2)));
    assert_eq!(matched(600, &[], &heading), Err((6, 0)));
    assert_eq!(matched(600, &[0, X], &heading), Err((6, 2)));
    assert_eq!(matched(600, &[5, 5], &heading), Err((6, 1)));
    assert_eq!(matched(600, &pattern, &[X]), Err((7, 0)));
    assert_eq!(matched(0, &pattern, &heading), Err((5, 0)));
    assert_eq!(matched(1001, &pattern, &heading), Err((5, 0)));
}

#[test]
fn of_own_degrees() {
    let t = Drawn::t().file();
    let calls: [MatchHeading; 2] = [proved::match_heading, plain::match_heading];
    for match_heading in calls {
        let spans_of = |cut, pattern: &[u16], heading: &[u16]| {
            let (mut spans, mut sets) = ([9999; 128], vec![9999; WORDS * heading.len()]);
            assert!(match_heading(&t, pattern, heading, cut, &mut spans, &mut sets).is_ok());
            spans
        };
        assert_eq!(spans_of(600, &[0, X, X], &[0, 1, 5, 2, 6])[..8], [0, 2, 600, 700, 0, 0, 0, 0]);
        assert_eq!(spans_of(500, &[1, X], &[2, 6])[..4], [0, 1, 500, 1000]);
        assert_eq!(spans_of(600, &[0, 1, X, X + 1], &[0, 3, 6, 5])[..8], [0, 1, 800, 1000, 1, 1, 700, 1000]);
        let spans = spans_of(500, &[0, X, 0, X, X + 31], &[0, 5, 0, 6, 7]);
        assert_eq!((&spans[..4], &spans[124..]), (&[0, 1, 500, 700][..], &[1, 1, 700, 1000][..]));
    }
}

/// The nodes of the name and the dates, or number and place.
fn read(record: &[u8], strings: &[(&str, u16)]) -> Result<(u16, u16), (u16, u64)> {
    let (strings, numbers): (Vec<_>, Vec<_>) =
        strings.iter().map(|(string, number)| (string.as_bytes().to_vec(), *number)).unzip();
    match marc_heading(record, &List::new(&strings, numbers), 8, 4) {
        Ok([_, name, dates]) => Ok((name, dates)),
        Err(refusal) => Err((refusal.number, refusal.place)),
    }
}

const STRINGS: [(&str, u16); 3] = [("Goethe", 3), ("1749-1832", 5), ("A\x1eB", 6)];

fn record(fields: &[(&str, &str)]) -> Vec<u8> {
    let field = |(tag, bytes): &(&str, &str)| {
        let tag = tag.as_bytes();
        Field { tag: [tag[0], tag[1], tag[2]], bytes: bytes.as_bytes().to_vec() }
    };
    record_of(&fields.iter().map(field).collect::<Vec<_>>())
}

#[test]
fn of_fields() {
    let of = |bytes: &str| read(&record(&[("1X0", "7"), ("100", bytes)]), &STRINGS);
    assert_eq!(of("1 \x1faGoethe\x1fd1749-1832"), Ok((3, 5)));
    assert_eq!(of("1 \x1fd1749-1832\x1faGoethe\x1faGoethe,"), Ok((3, 5)));
    assert_eq!(of("1 \x1faGoethe"), Ok((3, 8)));
    assert_eq!(of("1 junk\x1faGoethe"), Ok((3, 8)));
    assert_eq!(of("1 \x1f\x1faGoethe\x1f"), Ok((3, 8)));
    assert_eq!(of("\x1f\x1f\x1faGoethe"), Ok((3, 8)));
    assert_eq!(of("1 \x1faA\x1eB"), Ok((6, 8)));
    assert_eq!(of("1 \x1faGoethe,"), Err((22, 0)));
    assert_eq!(of("1 \x1faGoeth\x1fdborn"), Err((22, 0)));
    assert_eq!(of("1 \x1faGoethe\x1fd"), Err((22, 1)));
    assert_eq!(of("1 \x1fa"), Err((22, 0)));
    assert_eq!(of("1 \x1fAGoethe"), Err((21, 0)));
    assert_eq!(of("\x1faGoethe"), Err((21, 0)));
    assert_eq!(of("1"), Err((21, 0)));
    assert_eq!(of(""), Err((21, 0)));
    assert_eq!(read(&record(&[("110", "1 \x1faGoethe")]), &STRINGS), Err((20, 0)));
    assert_eq!(read(&record(&[]), &STRINGS), Err((20, 0)));
    let first_without = record(&[("100", "1 \x1fd1749-1832"), ("100", "1 \x1faGoethe")]);
    assert_eq!(read(&first_without, &STRINGS), Err((21, 0)));
}

#[test]
fn of_frames() {
    let whole = record(&[("100", "1 \x1faGoethe")]);
    assert_eq!((whole.len(), read(&whole, &STRINGS)), (49, Ok((3, 8))));
    let with = |at: usize, bytes: &str| {
        let mut changed = whole.clone();
        changed.splice(at..at + bytes.len(), bytes.bytes());
        read(&changed, &STRINGS)
    };
    assert_eq!(with(0, "00048"), Err((17, 0)));
    assert_eq!(read(&whole[..25], &STRINGS), Err((17, 0)));
    for base in ["00013", "00024", "00036", "00038", "00049", "0003x"] {
        assert_eq!(with(12, base), Err((17, 12)), "{}", base);
    }
    assert_eq!(with(27, "0000"), Err((17, 27)));
    assert_eq!(with(27, "001 "), Err((17, 27)));
    assert_eq!(with(27, "9999"), Err((17, 31)));
    assert_eq!(with(27, "0012"), Err((17, 31)));
    assert_eq!(with(31, "00001"), Err((17, 31)));
    assert_eq!(with(36, "x"), Err((17, 36)));
    assert_eq!(with(47, "x"), Err((17, 47)));
    assert_eq!(with(48, "x"), Err((17, 48)));
}

#[test]
fn of_lists() {
    let whole = record(&[("100", "1 \x1faB")]);
    assert_eq!(read(&whole, &[("A", 5), ("B", 5)]), Ok((5, 8)));
    assert_eq!(read(&whole, &[("A", 8), ("B", 1), ("B", 2)]), Err((19, 0)));
    assert_eq!(read(&whole, &[("A", 1), ("B", 2), ("A", 3), ("B", 8)]), Err((19, 2)));
    assert_eq!(read(&[], &[("", 1), ("", 2)]), Err((19, 1)));
    assert_eq!(read(&[], &[]), Err((17, 0)));
}
