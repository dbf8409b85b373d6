//! Exchange records and lists of known strings drawn from a seed, and damage to them.

use crate::draw::Draw;

pub const RECORD_END: u8 = 0x1d;
pub const FIELD_END: u8 = 0x1e;
pub const DELIMITER: u8 = 0x1f;
const LEADER: usize = 24;
const ENTRY: usize = 12;

/// A string over few bytes, so that drawn ones are often equal or begin alike.
fn string(draw: &mut Draw) -> Vec<u8> {
    let length = draw.one(&[0, 1, 1, 2, 3, 4, 8, 9, 17]);
    (0..length).map(|_| draw.one(b"aab,\x00\xff")).collect()
}

pub fn strings(draw: &mut Draw, count: usize) -> Vec<Vec<u8>> {
    let long = count > 60;
    (0..count)
        .map(|_| {
            let mut bytes = string(draw);
            // many strings would else hardly be drawn without a double
            if long {
                bytes.extend_from_slice(&(draw.below(1 << 30) as u32).to_be_bytes());
            }
            bytes
        })
        .collect()
}

/// A string near to one of these: most often itself.
fn near(draw: &mut Draw, strings: &[Vec<u8>]) -> Vec<u8> {
    if strings.is_empty() || draw.chance(3) {
        return string(draw);
    }
    let mut bytes = strings[draw.below(strings.len())].clone();
    match draw.below(20) {
        0 => bytes.push(draw.one(&[b'a', b',', 0, FIELD_END, RECORD_END])),
        1 => drop(bytes.pop()),
        2 => bytes.insert(0, b' '),
        _ => {}
    }
    bytes
}

/// What stands in a field behind its indicators.
fn subfields(draw: &mut Draw, strings: &[Vec<u8>]) -> Vec<u8> {
    let mut bytes = Vec::new();
    if draw.chance(5) {
        bytes.extend(string(draw));
    }
    for nth in 0..draw.one(&[0, 1, 2, 2, 2, 3, 5]) {
        if draw.chance(5) {
            bytes.push(DELIMITER);
        }
        let code = if nth == 0 && draw.chance(70) { b'a' } else { draw.one(b"aaddddbcADq\x00") };
        bytes.extend([DELIMITER, code]);
        bytes.extend(near(draw, strings));
    }
    if draw.chance(5) {
        bytes.push(DELIMITER);
    }
    bytes
}

pub struct Field {
    pub tag: [u8; 3],
    /// without the mark that ends it
    pub bytes: Vec<u8>,
}

impl Field {
    fn drawn(draw: &mut Draw, strings: &[Vec<u8>]) -> Self {
        let bytes = match draw.below(20) {
            0 => vec![draw.one(b"1 \x1f"); draw.below(2)],
            1 => [vec![DELIMITER; 1 + draw.below(2)], subfields(draw, strings)].concat(),
            _ => [b"1 ".to_vec(), subfields(draw, strings)].concat(),
        };
        let other = draw.one(&[b"001", b"400", b"110", b"101", b"10 ", b"1X0", b"000", b"\x1e00"]);
        Field { tag: if draw.chance(55) { *b"100" } else { *other }, bytes }
    }
}

fn digits(number: usize, count: usize) -> Vec<u8> {
    format!("{:0count$}", number, count = count).into_bytes()
}

/// The record that has these fields in its directory's order, and their bytes in this one.
fn record_in(fields: &[Field], order: &[usize]) -> Vec<u8> {
    let (mut data, mut starts) = (Vec::new(), vec![0; fields.len()]);
    for &index in order {
        starts[index] = data.len();
        data.extend_from_slice(&fields[index].bytes);
        data.push(FIELD_END);
    }
    let base = LEADER + ENTRY * fields.len() + 1;
    let mut record = [&digits(base + data.len() + 1, 5)[..], b"nz  a22", &digits(base, 5), b"n  4500"].concat();
    for (field, start) in fields.iter().zip(starts) {
        record.extend([&field.tag[..], &digits(field.bytes.len() + 1, 4), &digits(start, 5)].concat());
    }
    record.push(FIELD_END);
    record.extend(data);
    record.push(RECORD_END);
    record
}

pub fn record_of(fields: &[Field]) -> Vec<u8> {
    record_in(fields, &(0..fields.len()).collect::<Vec<_>>())
}

/// A whole record of a few fields, in which these strings stand; not always in the order of the directory.
pub fn record(draw: &mut Draw, strings: &[Vec<u8>]) -> Vec<u8> {
    let fields: Vec<Field> = (0..draw.one(&[0, 1, 1, 2, 3, 4, 7])).map(|_| Field::drawn(draw, strings)).collect();
    let mut order: Vec<usize> = (0..fields.len()).collect();
    if draw.chance(30) {
        order.reverse();
    }
    record_in(&fields, &order)
}

/// A record of just so many bytes (at least 26 and 13 for each 9,999): the name stands in front or at the end.
pub fn long_record(draw: &mut Draw, strings: &[Vec<u8>], bytes: usize) -> Vec<u8> {
    let mut fields = vec![Field { tag: *b"100", bytes: [b"1 ".to_vec(), subfields(draw, strings)].concat() }];
    let mut left = bytes - record_of(&fields).len();
    let most = draw.one(&[30, 300, 9998]);
    while left > 0 {
        let whole = left.saturating_sub(13).min(most);
        // what is left for the next field is nothing or enough for its entry and its mark
        let length = if (1..13).contains(&(left - 13 - whole)) { whole - 13 } else { whole };
        fields.push(Field { tag: *b"400", bytes: vec![b'x'; length] });
        left -= 13 + length;
    }
    if draw.chance(50) {
        fields.rotate_left(1);
    }
    record_of(&fields)
}

/// The place of a number in a record: the record's length, the base address, a length or a start of an entry.
fn number_at(draw: &mut Draw, record: &[u8]) -> (usize, usize) {
    let entries = record.len().saturating_sub(LEADER) / ENTRY;
    let entry = LEADER + ENTRY * draw.below(entries.clamp(1, 7));
    draw.one(&[(0, 5), (12, 5), (entry + 3, 4), (entry + 3, 4), (entry + 7, 5), (entry + 7, 5)])
}

/// One change to a record that may leave it whole, and may not.
pub fn damaged(draw: &mut Draw, record: &[u8]) -> Vec<u8> {
    let mut record = record.to_vec();
    let at = draw.below(record.len());
    let (number, length) = number_at(draw, &record);
    match draw.below(9) {
        0 => record.truncate(at),
        1 => record.extend(vec![draw.one(&[0, b'\n', RECORD_END]); 1 + draw.below(3)]),
        2 => record[at] ^= 1 << draw.below(8),
        3 if number + length <= record.len() => record[number + draw.below(length)] = draw.one(b"0123459/: -\x1e\xff"),
        4 if number + length <= record.len() => record[number..][..length].reverse(),
        5 | 6 => {
            let marks = [RECORD_END, FIELD_END, FIELD_END, FIELD_END, DELIMITER];
            let mark = draw.one(&marks);
            let places: Vec<usize> = (0..record.len()).filter(|&place| record[place] == mark).collect();
            if !places.is_empty() {
                record[draw.one(&places)] = draw.one(&[b' ', RECORD_END, FIELD_END, DELIMITER]);
            }
        }
        7 => {
            // a byte more or less, and the length as it is then
            if draw.chance(50) {
                record.insert(at, draw.one(&[b'a', FIELD_END, DELIMITER]));
            } else {
                record.remove(at);
            }
            let length = digits(record.len(), 5);
            record.splice(..5.min(record.len()), length);
        }
        _ if number + length <= record.len() => {
            let told = record[number..][..length].iter().fold(0, |n, byte| 10 * n + usize::from(byte & 15));
            let other = draw.one(&[told + 1, told.saturating_sub(1), told + 12, told.saturating_sub(12), 0, 25, 9999]);
            record.splice(number..number + length, digits(other.min(9999), length));
        }
        _ => record[at] = draw.below(256) as u8,
    }
    record
}

/// A list of known strings, as it is lent.
#[derive(Clone, Debug)]
pub struct List {
    pub text: Vec<u8>,
    pub ends: Vec<u32>,
    pub numbers: Vec<u16>,
}

impl List {
    pub fn new(strings: &[Vec<u8>], numbers: Vec<u16>) -> Self {
        let ends = strings.iter().scan(0, |end, string| {
            *end += string.len() as u32;
            Some(*end)
        });
        List { text: strings.concat(), ends: ends.collect(), numbers }
    }

    /// A list of most of these strings: rising, in any order, or with doubles.
    pub fn drawn(draw: &mut Draw, strings: &[Vec<u8>]) -> Self {
        let mut listed: Vec<Vec<u8>> = strings.to_vec();
        if draw.chance(80) {
            listed.sort();
            listed.dedup();
        }
        if draw.chance(50) && !listed.is_empty() {
            let (one, two) = (draw.below(listed.len()), draw.below(listed.len()));
            listed.swap(one, two);
            listed.rotate_left(one);
        }
        if draw.chance(10) {
            listed.pop();
        }
        let most = draw.one(&[3, 400, 65536]);
        let numbers = listed.iter().map(|_| draw.below(most) as u16).collect();
        List::new(&listed, numbers)
    }

    /// One change to what is lent, as no one means it.
    pub fn damaged(mut self, draw: &mut Draw, absent: u16) -> Self {
        let entries = self.ends.len().min(self.numbers.len());
        if entries == 0 {
            self.numbers.push(absent);
            return self;
        }
        let (at, other) = (draw.below(entries), draw.below(entries));
        match draw.below(9) {
            0 => self.numbers.truncate(at),
            1 => self.ends.truncate(at),
            2 => self.numbers.push(absent),
            3 => self.numbers[at] = absent,
            4 => self.ends[at] = draw.one(&[0, 1, u32::MAX, u32::MAX - 1, self.text.len() as u32, 1 << 31]),
            5 => self.ends.swap(at, other),
            6 => self.ends[at] = self.ends[other],
            7 => self.text.truncate(draw.below(self.text.len() + 1)),
            _ => self.ends.extend([self.ends[at], u32::MAX]),
        }
        self
    }
}
