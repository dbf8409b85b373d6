//! One question to both implementations: equal answers, equal buffers, guards and inputs as they were.

use crate::lent::Lent;
use crate::records::{List, DELIMITER};
use shuuxideg::{
    plain, proved, Known, MarcHeading, MatchHeading, Pair, WideRefusal, Widen, WriteTable, RECORD_NODES, WORDS,
};
use std::fmt::Debug;

const GUARD: u16 = 0xa55a;
const WIDE_GUARD: u64 = 0xa55a_a55a_a55a_a55a;

/// Asks and counts. The table is lent as the middle of a longer list, as every list is.
pub struct Asker {
    table: Lent<u8>,
    pub asked: usize,
}

pub fn nodes(values: &[u16]) -> Lent<u16> {
    Lent::new(values, GUARD)
}

/// Where a part lies in the list that it is a part of, and how long it is.
fn placed(part: &[u16], list: &[u16]) -> (usize, usize) {
    (part.as_ptr() as usize - list.as_ptr() as usize, part.len())
}

impl Asker {
    pub fn new(table: &[u8]) -> Self {
        Asker { table: Lent::new(table, 0xa5), asked: 0 }
    }

    fn same<T: PartialEq + Debug>(&mut self, ours: &T, plain: &T, asked: &dyn Debug) {
        assert_eq!(ours, plain, "asked: {:?}\ntable: {:?}", asked, self.table.part());
        assert!(self.table.guarded());
        self.asked += 1;
    }

    pub fn check_table(&mut self) -> bool {
        let (ours, plain) = (proved::check_table(self.table.part()), plain::check_table(self.table.part()));
        self.same(&ours, &plain, &"check");
        ours.is_ok()
    }

    pub fn symbol_degree(&mut self, a: u16, b: u16) {
        let table = self.table.part();
        let (ours, plain) = (proved::symbol_degree(table, a, b), plain::symbol_degree(table, a, b));
        self.same(&ours, &plain, &("symbols", a, b));
    }

    pub fn arity(&mut self, symbol: u16) {
        let (ours, plain) = (proved::arity(self.table.part(), symbol), plain::arity(self.table.part(), symbol));
        self.same(&ours, &plain, &("arity", symbol));
    }

    pub fn pair(&mut self, index: usize) {
        let (ours, plain) = (proved::pair(self.table.part(), index), plain::pair(self.table.part(), index));
        self.same(&ours, &plain, &("pair", index));
    }

    pub fn heading_degree(&mut self, first: &[u16], second: &[u16]) {
        let (first, second) = (nodes(first), nodes(second));
        let ours = proved::heading_degree(self.table.part(), first.part(), second.part());
        let plain = plain::heading_degree(self.table.part(), first.part(), second.part());
        self.same(&ours, &plain, &("degree", first.part(), second.part()));
        assert!(first.guarded() && second.guarded());
    }

    /// Compares where the part lies, too: in bytes from the list's start.
    pub fn subterm(&mut self, term: &[u16], index: usize) {
        let lent = nodes(term);
        let list = lent.part();
        let ours = placed(proved::subterm(self.table.part(), list, index), list);
        let plain = placed(plain::subterm(self.table.part(), list, index), list);
        self.same(&ours, &plain, &("subterm", list, index));
        assert!(lent.guarded() && list == term);
    }

    /// Both candidates stand in one list, so that a place tells which of them was handed back.
    pub fn nearer(&mut self, heading: &[u16], first: &[u16], second: &[u16]) {
        let (heading, both) = (nodes(heading), nodes(&[first, second].concat()));
        let (one, two) = both.part().split_at(first.len());
        let ours = placed(proved::nearer(self.table.part(), heading.part(), one, two), one);
        let plain = placed(plain::nearer(self.table.part(), heading.part(), one, two), one);
        self.same(&ours, &plain, &("nearer", heading.part(), first, second));
        assert!(heading.guarded() && both.guarded() && (one, two) == (first, second));
    }

    /// The number of the refusal, 0 for a match. Both buffers are compared whole.
    pub fn match_heading(
        &mut self,
        pattern: &[u16],
        heading: &[u16],
        cut: u16,
        spans_len: usize,
        sets_len: usize,
    ) -> usize {
        let spans = nodes(&(0..spans_len).map(|i| 0x1234 ^ i as u16).collect::<Vec<u16>>());
        let sets = Lent::new(&(0..sets_len).map(|i| !(i as u64)).collect::<Vec<u64>>(), WIDE_GUARD);
        let (lent_pattern, lent_heading) = (nodes(pattern), nodes(heading));
        let ask = |call: MatchHeading| {
            let (mut spans, mut sets) = (spans.clone(), sets.clone());
            let answer = call(
                self.table.part(),
                lent_pattern.part(),
                lent_heading.part(),
                cut,
                spans.part_mut(),
                sets.part_mut(),
            );
            assert!(spans.guarded() && sets.guarded());
            (answer, spans, sets)
        };
        let (ours, plain) = (ask(proved::match_heading), ask(plain::match_heading));
        let asked = ("match", pattern, heading, cut, spans_len, sets_len);
        self.same(&ours, &plain, &asked);
        let (answer, spans_after, sets_after) = ours;
        match answer {
            Err(refusal) if refusal.number <= 8 => assert!(spans_after == spans && sets_after == sets, "{:?}", asked),
            Err(_) => {
                let zeros = spans_after.part().iter().all(|&n| n == 0) && sets_after.part().iter().all(|&n| n == 0);
                assert!(zeros, "{:?}", asked);
            }
            Ok(degrees) => {
                assert!(cut <= degrees.lowest && degrees.lowest <= degrees.highest && degrees.highest <= 1000)
            }
        }
        assert!(lent_pattern.part() == pattern && lent_pattern.guarded());
        assert!(lent_heading.part() == heading && lent_heading.guarded());
        answer.map_or_else(|refusal| usize::from(refusal.number), |_| 0)
    }

    /// Room that is just enough.
    pub fn match_in_room(&mut self, pattern: &[u16], heading: &[u16], cut: u16) -> usize {
        self.match_heading(pattern, heading, cut, 128, WORDS * heading.len())
    }
}

/// Asks both to write a table into so many bytes; the file, if it was written.
pub fn write_table(arities: &[u8], pairs: &[Pair], room: usize) -> Option<Vec<u8>> {
    let (lent_arities, lent_pairs) =
        (Lent::new(arities, 0xa5), Lent::new(pairs, Pair { lower: 1, higher: 2, degree: 3 }));
    let out = Lent::new(&(0..room).map(|i| 0x5a ^ i as u8).collect::<Vec<u8>>(), 0xa5);
    let ask = |call: WriteTable| {
        let mut out = out.clone();
        let answer = call(lent_arities.part(), lent_pairs.part(), out.part_mut());
        assert!(out.guarded());
        (answer, out)
    };
    let (ours, plain) = (ask(proved::write_table), ask(plain::write_table));
    assert!(ours == plain, "{:?} and {:?} for {:?} {:?} in {}", ours.0, plain.0, arities, pairs, room);
    assert!(lent_arities.part() == arities && lent_arities.guarded());
    assert!(lent_pairs.part() == pairs && lent_pairs.guarded());
    match ours.0 {
        Ok(total) => Some(ours.1.part()[..total].to_vec()),
        Err(_) => {
            assert!(ours.1 == out);
            None
        }
    }
}

/// Asks both to convert a saved answer's words into so many; all of the output, if they were converted.
pub fn widen(words: &[u64], room: usize) -> Option<Vec<u64>> {
    let lent = Lent::new(words, WIDE_GUARD);
    let out = Lent::new(&(0..room).map(|i| !(i as u64)).collect::<Vec<u64>>(), WIDE_GUARD);
    let ask = |call: Widen| {
        let mut out = out.clone();
        let answer = call(lent.part(), out.part_mut());
        assert!(out.guarded());
        (answer, out)
    };
    let (ours, plain) = (ask(proved::widen), ask(plain::widen));
    assert!(ours == plain, "{:?} and {:?} for {:?} in {}", ours.0, plain.0, words, room);
    assert!(lent.part() == words && lent.guarded());
    match ours.0 {
        Ok(written) => {
            assert!(written == 2 * words.len() && ours.1.part()[written..] == out.part()[written..]);
            Some(ours.1.part().to_vec())
        }
        Err(_) => {
            assert!(ours.1 == out);
            None
        }
    }
}

/// Asks both for the heading of a record, with room for so many nodes; the three nodes, or the refusal.
pub fn marc_heading(record: &[u8], list: &List, absent: u16, room: usize) -> Result<[u16; RECORD_NODES], WideRefusal> {
    const HEADING: u16 = 4711;
    let (lent, text) = (Lent::new(record, DELIMITER), Lent::new(&list.text, b'a'));
    let (ends, numbers) = (Lent::new(&list.ends, 0), nodes(&list.numbers));
    let out = nodes(&(0..room).map(|i| 0x1234 ^ i as u16).collect::<Vec<u16>>());
    let ask = |call: MarcHeading| {
        let mut out = out.clone();
        let known = Known { text: text.part(), ends: ends.part(), numbers: numbers.part() };
        let answer = call(lent.part(), known, HEADING, absent, out.part_mut());
        assert!(out.guarded());
        (answer, out)
    };
    let (ours, plain) = (ask(proved::marc_heading), ask(plain::marc_heading));
    assert!(ours == plain, "{:?} and {:?} for {:?} by {:?} absent {}", ours, plain, record, list, absent);
    assert!(lent.part() == record && lent.guarded() && text.part() == list.text && text.guarded());
    assert!(ends.part() == list.ends && ends.guarded() && numbers.part() == list.numbers && numbers.guarded());
    let (answer, after) = ours;
    answer.map_err(|refusal| {
        assert!(after == out);
        refusal
    })?;
    let (written, rest) = after.part().split_at(RECORD_NODES);
    assert!(written[0] == HEADING && *rest == out.part()[RECORD_NODES..]);
    Ok([written[0], written[1], written[2]])
}

/// Tells how many questions were compared, and that they were as many as there should be.
pub fn told(what: &str, asked: usize, at_least: usize) {
    println!("{}: {} comparisons", what, asked);
    assert!(asked >= at_least, "{}: only {} comparisons", what, asked);
}
