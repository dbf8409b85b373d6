//! The list of known strings, tested and looked up.

use crate::Known;
use std::cmp::Ordering;
use std::collections::hash_map::{DefaultHasher, Entry, HashMap};
use std::hash::BuildHasherDefault;

/// Up to so many strings in any order are held against each other one by one, which then costs less than to allocate and fill a map.
const FEW: usize = 24;

/// With keys that do not change, so that a call takes the same steps in every run.
type Numbers<'a> = HashMap<&'a [u8], u16, BuildHasherDefault<DefaultHasher>>;

/// How a string is found.
enum Order<'a> {
    /// by halving, in a list that rises
    Rising,
    /// by going through them
    Few,
    /// by a map: the one thing here that is allocated, since a long list in any order would else take the square of its length
    Any(Numbers<'a>),
}

/// A list in which no string stands twice and none has the absent number.
pub struct Checked<'a> {
    known: Known<'a>,
    order: Order<'a>,
}

impl<'a> Known<'a> {
    /// From where one string ends to where the next does, as far as the text goes.
    fn part(&self, begin: u32, end: u32) -> &'a [u8] {
        let end = self.text.len().min(end as usize);
        self.text.get(begin as usize..end).unwrap_or(&[])
    }

    fn string(&self, j: usize) -> &'a [u8] {
        self.part(j.checked_sub(1).map_or(0, |before| self.ends[before]), self.ends[j])
    }

    fn strings(&self) -> impl Iterator<Item = &'a [u8]> + '_ {
        let mut begin = 0;
        self.ends.iter().map(move |&end| self.part(std::mem::replace(&mut begin, end), end))
    }

    fn rises(&self) -> bool {
        let mut strings = self.strings();
        let first = strings.next();
        first.map_or(true, |first| strings.try_fold(first, |one, next| (one < next).then_some(next)).is_some())
    }

    /// The first string that is listed before, where they are few: each against those before it.
    fn listed_twice(&self) -> Option<usize> {
        self.strings().enumerate().position(|(j, string)| self.strings().take(j).any(|before| before == string))
    }

    /// The numbers of the strings before the first that stands twice, which is told too.
    fn numbers_by_string(&self) -> (Numbers<'a>, Option<usize>) {
        let mut numbers = Numbers::with_capacity_and_hasher(self.ends.len(), Default::default());
        for (j, (string, &number)) in self.strings().zip(self.numbers).enumerate() {
            match numbers.entry(string) {
                Entry::Vacant(free) => free.insert(number),
                Entry::Occupied(_) => return (numbers, Some(j)),
            };
        }
        (numbers, None)
    }
}

impl<'a> Checked<'a> {
    /// Or the first entry that may not be listed.
    pub fn new(known: Known<'a>, absent: u16) -> Result<Self, usize> {
        let count = known.ends.len().min(known.numbers.len());
        let known = Known { ends: &known.ends[..count], numbers: &known.numbers[..count], ..known };
        let (order, listed_twice) = if known.rises() {
            (Order::Rising, None)
        } else if count <= FEW {
            (Order::Few, known.listed_twice())
        } else {
            let (numbers, twice) = known.numbers_by_string();
            (Order::Any(numbers), twice)
        };
        let absent_given = known.numbers.iter().position(|&number| number == absent);
        match listed_twice.into_iter().chain(absent_given).min() {
            Some(entry) => Err(entry),
            None => Ok(Checked { known, order }),
        }
    }

    pub fn number(&self, string: &[u8]) -> Option<u16> {
        let known = &self.known;
        let entry = match &self.order {
            Order::Any(numbers) => return numbers.get(string).copied(),
            Order::Few => known.strings().position(|listed| listed == string),
            Order::Rising => find(known.ends.len(), |j| known.string(j).cmp(string)),
        };
        entry.map(|entry| known.numbers[entry])
    }
}

/// The index of an equal one, by halving.
fn find(count: usize, compare: impl Fn(usize) -> Ordering) -> Option<usize> {
    let (mut low, mut high) = (0, count);
    while low < high {
        let middle = low + (high - low) / 2;
        match compare(middle) {
            Ordering::Less => low = middle + 1,
            Ordering::Equal => return Some(middle),
            Ordering::Greater => high = middle,
        }
    }
    None
}
