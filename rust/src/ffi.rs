//! The C interface of the proved library, as it stands in `include/`. The functions of [`crate::proved`] are the safe way to it.
//!
//! An answer of 32 bits holds the refusal's number in its low half, 0 where nothing is refused, and the place in its high half; one of 64
//! bits, for an exchange record, has 48 for the place. What is written through a pointer is left as it was by a refusal, but for the
//! degrees of a match, which are then 0.

use crate::Pair;

extern "C" {
    pub fn shx_table(table: *const u8, table_len: usize) -> u32;
    pub fn shx_symbol_degree(table: *const u8, table_len: usize, a: u16, b: u16, degree: *mut u16) -> u32;
    pub fn shx_arity(table: *const u8, table_len: usize, symbol: u16, arity: *mut u8) -> u32;
    pub fn shx_pair(
        table: *const u8,
        table_len: usize,
        index: usize,
        lower: *mut u16,
        higher: *mut u16,
        degree: *mut u16,
    ) -> u32;
    pub fn shx_heading_degree(
        table: *const u8,
        table_len: usize,
        first: *const u16,
        first_len: usize,
        second: *const u16,
        second_len: usize,
        degree: *mut u16,
    ) -> u32;
    /// How many nodes the subterm has that begins at the index; 0 where there is none.
    pub fn shx_subterm(table: *const u8, table_len: usize, term: *const u16, term_len: usize, index: usize) -> usize;
    /// 0 where something is refused, 1 for the first candidate, 2 for the second.
    pub fn shx_nearer(
        table: *const u8,
        table_len: usize,
        heading: *const u16,
        heading_len: usize,
        first: *const u16,
        first_len: usize,
        second: *const u16,
        second_len: usize,
    ) -> u8;
    pub fn shx_match(
        table: *const u8,
        table_len: usize,
        pattern: *const u16,
        pattern_len: usize,
        heading: *const u16,
        heading_len: usize,
        cut: u16,
        spans: *mut u16,
        spans_len: usize,
        sets: *mut u64,
        sets_len: usize,
        lowest: *mut u16,
        highest: *mut u16,
    ) -> u32;
    pub fn shx_write_table(
        arities: *const u8,
        symbols: usize,
        pairs: *const Pair,
        count: usize,
        out: *mut u8,
        out_len: usize,
        total: *mut usize,
    ) -> u32;
    pub fn shx_widen(
        words: *const u64,
        words_len: usize,
        out: *mut u64,
        out_len: usize,
        written: *mut usize,
    ) -> u32;
    pub fn shx_marc_heading(
        record: *const u8,
        record_len: usize,
        text: *const u8,
        text_len: usize,
        ends: *const u32,
        ends_len: usize,
        numbers: *const u16,
        numbers_len: usize,
        heading: u16,
        absent: u16,
        nodes: *mut u16,
        nodes_len: usize,
    ) -> u64;
}
