//! The numbers of refusals: document 01, "What each cause gives". No cause has number 7: document 02,
//! 2026-01.

/// The number of a cause and the offset where it was found.
#[derive(Clone, Copy, Debug, PartialEq, Eq)]
pub struct Refusal {
    pub number: usize,
    pub offset: usize,
}

impl Refusal {
    pub const fn new(number: usize, offset: usize) -> Refusal {
        Refusal { number, offset }
    }
}

pub const LENGTH: usize = 1;
pub const TRAILER: usize = 2;
pub const OFFSETS: usize = 3;
pub const FORM: usize = 4;
pub const VALUE: usize = 5;
pub const REPEATED_ID: usize = 6;
pub const TOO_MANY_LINES: usize = 8;
pub const SHORT_LIST: usize = 9;
pub const NO_PANE: usize = 10;
pub const NO_GLASS: usize = 11;

/// The numbers that a file can be refused with, by every call.
pub const OF_A_FILE: [usize; 7] = [
    LENGTH,
    TRAILER,
    OFFSETS,
    FORM,
    VALUE,
    REPEATED_ID,
    TOO_MANY_LINES,
];
