//! Matching of name headings modulo proximity, twice: [`proved`] calls the proved library through its C interface, [`plain`] is an
//! independent implementation in plain Rust, for comparison. Both modules have the same functions, with the same signatures.
//!
//! `docs/FORMATS.md` of the repository says what a table, a term and the buffers of a match are, and lists the refusals.

pub mod ffi;
pub mod plain;
pub mod proved;

/// Why a call was refused, and where.
#[derive(Clone, Copy, Debug, PartialEq, Eq)]
pub struct Refusal {
    pub number: u16,
    pub place: u16,
}

/// What a call that can be refused answers.
pub type Answer<T> = Result<T, Refusal>;

/// Why no heading was read from an exchange record: places in a record or in a list of strings go beyond 16 bits.
#[derive(Clone, Copy, Debug, PartialEq, Eq)]
pub struct WideRefusal {
    pub number: u16,
    pub place: u64,
}

/// The strings that are known, with their numbers: all of them one behind the other in the text, string j up to `ends[j]` from where the one
/// before it ends. As many as the shorter of the two lists has; what lies behind the text is not there, and an end below its string's
/// beginning gives the empty string.
#[derive(Clone, Copy, Debug)]
pub struct Known<'a> {
    pub text: &'a [u8],
    pub ends: &'a [u32],
    pub numbers: &'a [u16],
}

/// The type of `marc_heading` in both modules.
pub type MarcHeading = fn(&[u8], Known, u16, u16, &mut [u16]) -> Result<(), WideRefusal>;

/// The type of `match_heading` in both modules.
pub type MatchHeading = fn(&[u8], &[u16], &[u16], u16, &mut [u16], &mut [u64]) -> Answer<Degrees>;

/// The type of `widen` in both modules.
pub type Widen = fn(&[u64], &mut [u64]) -> Answer<usize>;

/// The type of `write_table` in both modules.
pub type WriteTable = fn(&[u8], &[Pair], &mut [u8]) -> Answer<usize>;

/// Two symbols that a table lists, and how near they are, in thousandths. The lower symbol number comes first.
#[repr(C)]
#[derive(Clone, Copy, Debug, PartialEq, Eq)]
pub struct Pair {
    pub lower: u16,
    pub higher: u16,
    pub degree: u16,
}

/// The lowest and the highest degree that a matcher reaches.
#[derive(Clone, Copy, Debug, PartialEq, Eq)]
pub struct Degrees {
    pub lowest: u16,
    pub highest: u16,
}

/// The node of variable 0; variable v is this and v.
pub const VARIABLE: u16 = 32768;
/// How many variables there are.
pub const VARIABLES: usize = 32;
/// The most nodes that a term may have.
pub const MAX_NODES: usize = 1024;
/// How many numbers a variable has in the spans: its first position, how many it has, its own lowest and highest degree.
pub const SPAN: usize = 4;
/// The length that the spans of a match must have at least.
pub const SPANS: usize = SPAN * VARIABLES;
/// How many words of a match's sets each node of the heading asks for.
pub const WORDS: usize = 8;
/// How many it asked for while a table had up to 256 symbols.
pub const SAVED_WORDS: usize = 4;
/// How many nodes the heading of an exchange record has: the heading symbol, the name, the dates.
pub const RECORD_NODES: usize = 3;
