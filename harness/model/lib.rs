//! The reference model: an independent model of what docs/REFERENCE.md says, written for comparison, and not from the port: the
//! dictionary, the closure, N-Triples and the eight calls, each call's result and every buffer after it. It is plain rather than
//! fast, and shares nothing with the port.

pub mod bytes;
pub mod calls;
pub mod closure;
pub mod dictionary;
pub mod lists;
pub mod misnumberings;
pub mod misreadings;
pub mod mistakes;
pub mod misturns;
pub mod miswritings;
pub mod names;
pub mod ntriples;
pub mod reading;
pub mod rounds;
pub mod rows;
pub mod turns;
pub mod writing;

#[cfg(test)]
mod read_tests;
#[cfg(test)]
mod tests;
#[cfg(test)]
mod turn_tests;
#[cfg(test)]
mod write_tests;

/// Subject, predicate, object.
pub type Triple = [u32; 3];

/// A check's number and its four numbers.
pub type Finding = [u32; 5];

pub const BROKEN_DICTIONARY: u32 = 1;
pub const RAGGED_LOAD: u32 = 2;
pub const LOAD_TOO_LONG: u32 = 3;
pub const ILL_SIZED_STORE: u32 = 4;
pub const BLANK_ID: u32 = 5;
pub const UNKNOWN_TERM: u32 = 6;
pub const DICTIONARY_FULL: u32 = 7;
pub const STORE_FULL: u32 = 8;
pub const FINDINGS_FULL: u32 = 9;
pub const UNKNOWN_KIND: u32 = 10;
pub const TERM_TOO_LONG: u32 = 11;
pub const NO_SUCH_ID: u32 = 12;
pub const BAD_LINE: u32 = 13;
pub const LONG_LINE: u32 = 14;
pub const PAGE_FULL: u32 = 15;

/// Numbers of a load's triple, of a store's row and of a finding.
pub const LOAD_WIDTH: usize = 3;
pub const STORE_WIDTH: usize = 5;
pub const FINDING_WIDTH: usize = 5;

pub const LOAD_LIMIT: usize = 16_384;
pub const STORE_LIMIT: usize = 65_535;
pub const FINDINGS_LIMIT: usize = 65_535;
pub const ENTRIES_LIMIT: usize = 65_535;
pub const ARENA_LIMIT: usize = 1_048_576;
pub const TERM_LIMIT: usize = 4_096;
pub const LINE_LIMIT: usize = 32_768;
