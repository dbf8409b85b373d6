//! Exchange records and lists of known strings for the workloads, the same in every run.

use crate::build::Draw;
use shuuxideg::Known;

/// The heading symbol and the number for absent dates: no string has one of them.
pub const HEADING: u16 = 0;
pub const ABSENT: u16 = 1;

const SURNAMES: &str =
    "Bach Brahms Bruckner Fischer Fuchs Gruber Haydn Hofer Huber Mahler Mayer Mozart Müller Schmidt Schneider \
    Schubert Schumann Steiner Strauss Wagner Weber Winkler Wolf Zeller";
const FORENAMES: &str =
    "Anna Carl Clara Eduard Elisabeth Franz Georg Johann Josef Karl Leopold Maria Michael Otto Richard Robert";

/// A list of known strings that owns what it lends.
pub struct List {
    text: Vec<u8>,
    ends: Vec<u32>,
    numbers: Vec<u16>,
}

impl List {
    pub fn new(strings: &[String]) -> Self {
        let text = strings.concat().into_bytes();
        let ends = strings.iter().scan(0, |end, string| {
            *end += string.len() as u32;
            Some(*end)
        });
        List { text, ends: ends.collect(), numbers: (2..).take(strings.len()).collect() }
    }

    pub fn lent(&self) -> Known<'_> {
        Known { text: &self.text, ends: &self.ends, numbers: &self.numbers }
    }
}

/// Names, with the comma that stands before dates.
fn names() -> Vec<String> {
    let name = |surname| FORENAMES.split(' ').map(move |forename| format!("{}, {},", surname, forename));
    SURNAMES.split_whitespace().flat_map(name).collect()
}

/// Names and dates: 500 strings that rise.
pub fn rising_strings() -> Vec<String> {
    let mut strings = names();
    strings.extend((0..116).map(|k| format!("{}-{}", 1700 + 2 * k, 1745 + 2 * k + k % 52)));
    strings.sort();
    assert!(strings.len() == 500 && strings.windows(2).all(|two| two[0] < two[1]));
    strings
}

/// So many strings in some order: the name and the dates of the short record, and names with a second forename and an initial.
pub fn many_strings(count: usize) -> Vec<String> {
    let second = |forename: &'static str| FORENAMES.split(' ').map(move |second| (forename, second));
    let forenames: Vec<_> = FORENAMES.split(' ').flat_map(second).collect();
    let mut strings = vec!["Strauss, Johann,".into(), "1804-1849".into()];
    for initial in 'A'..='Z' {
        for surname in SURNAMES.split_whitespace() {
            strings.extend(forenames.iter().map(|(one, two)| format!("{}, {} {} {}.,", surname, one, two, initial)));
        }
    }
    strings.truncate(count);
    assert_eq!(strings.len(), count);
    shuffled(&strings)
}

/// So many strings that share one digest of the proved test, which takes a byte 31 times with the next one added; and those of the short record.
pub fn strings_of_one_digest(count: usize) -> Vec<String> {
    let string = |k: usize| (0..10).map(|bit| if k >> bit & 1 == 0 { "B[" } else { "Az" }).collect();
    let mut strings: Vec<String> = (0..count - 2).map(string).collect();
    strings.extend(["Strauss, Johann,".into(), "1804-1849".into()]);
    shuffled(&strings)
}

/// The same strings in some other order.
pub fn shuffled(strings: &[String]) -> Vec<String> {
    let (mut strings, mut draw) = (strings.to_vec(), Draw::new(2709));
    for end in (1..strings.len()).rev() {
        strings.swap(end, draw.below(end + 1));
    }
    strings
}

/// The record of these fields, each a tag and its bytes without the mark that ends it.
fn record_of(fields: &[(&str, String)]) -> Vec<u8> {
    let (mut directory, mut data) = (String::new(), String::new());
    for (tag, field) in fields {
        directory += &format!("{}{:04}{:05}", tag, field.len() + 1, data.len());
        data += field;
        data.push('\x1e');
    }
    let base = 24 + directory.len() + 1;
    let leader = format!("{:05}nz  a22{:05}n  4500", base + data.len() + 1, base);
    [leader, directory, "\x1e".into(), data, "\x1d".into()].concat().into_bytes()
}

/// What stands before the name of a record: its number and the codes of its making.
fn front() -> Vec<(&'static str, String)> {
    vec![("001", "n79021425".into()), ("005", "20240229120000.0".into())]
}

fn person(name: &str, dates: &str) -> String {
    format!("1 \x1fa{}\x1fd{}", name, dates)
}

/// A record of usual size: its name stands late in the list, its dates early.
pub fn short_record() -> Vec<u8> {
    let mut fields = front();
    fields.push(("100", person("Strauss, Johann,", "1804-1849")));
    fields.push(("400", "1 \x1faStraus, Jean".into()));
    record_of(&fields)
}

/// A record as long as one can be, with many other forms of the name.
pub fn long_record() -> Vec<u8> {
    let mut fields = front();
    fields.push(("100", person("Strauss, Johann,", "1804-1849")));
    let size = |fields: &[(&str, String)]| 26 + fields.iter().map(|(_, field)| 13 + field.len()).sum::<usize>();
    let mut names = names().into_iter().cycle();
    while size(&fields) < 99_900 {
        fields.push(("400", person(&names.next().unwrap(), "1804-1849")));
    }
    let rest = 99_999 - size(&fields) - 13;
    fields.push(("670", "x".repeat(rest)));
    record_of(&fields)
}
