//! Lists that are lent as the middle of longer ones, so that a write beside the lent part is seen.

use std::fmt::Debug;

const BEFORE: usize = 5;
const AFTER: usize = 11;

#[derive(Clone, PartialEq, Debug)]
pub struct Lent<T> {
    whole: Vec<T>,
    len: usize,
    guard: T,
}

impl<T: Copy + PartialEq + Debug> Lent<T> {
    pub fn new(values: &[T], guard: T) -> Self {
        let mut whole = vec![guard; BEFORE];
        whole.extend_from_slice(values);
        whole.resize(BEFORE + values.len() + AFTER, guard);
        Lent { whole, len: values.len(), guard }
    }

    pub fn part(&self) -> &[T] {
        &self.whole[BEFORE..BEFORE + self.len]
    }

    pub fn part_mut(&mut self) -> &mut [T] {
        &mut self.whole[BEFORE..BEFORE + self.len]
    }

    /// What was not lent is as it was.
    pub fn guarded(&self) -> bool {
        let (before, rest) = self.whole.split_at(BEFORE);
        before.iter().chain(&rest[self.len..]).all(|value| *value == self.guard)
    }
}
