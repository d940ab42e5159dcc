//! The calls of bordavina.h for Rust, behind safe functions. The header says what each takes, gives back and leaves untouched. A
//! program takes this file in as a module, `#[path = ".../include/bordavina.rs"] mod bordavina;`, and links `libbordavina.a`.
#![allow(dead_code)]

use std::ptr::{null, null_mut};

/// At most this many panes does an accepted file have: lists of this length are never too short.
pub const MAX_PANES: usize = 256;

/// The bytes of a buffer that holds every text.
pub const TEXT_SIZE: usize = 4096;

/// The numbers of refusals. The header says what causes each, and at which offset.
pub mod refusal {
    pub const NOT_REFUSED: usize = 0;
    pub const FILE_LENGTH: usize = 1;
    pub const NO_TRAILER: usize = 2;
    pub const PART_OFFSETS: usize = 3;
    pub const LINE_FORM: usize = 4;
    pub const NUMBER_VALUE: usize = 5;
    pub const REPEATED_ID: usize = 6;
    /// Given by no call; the number stays free.
    pub const TOO_LONG: usize = 7;
    pub const TOO_MANY_LINES: usize = 8;
    pub const LIST_TOO_SHORT: usize = 9;
    pub const NO_PANE: usize = 10;
    pub const NO_GLASS: usize = 11;
}

/// The answer to a check.
#[repr(C)]
#[derive(Clone, Copy, Debug, Default, PartialEq, Eq)]
pub struct CheckResult {
    pub number: usize,
    pub offset: usize,
    pub glasses: usize,
    pub panes: usize,
}

/// The answer to a question.
#[repr(C)]
#[derive(Clone, Copy, Debug, Default, PartialEq, Eq)]
pub struct VerdictResult {
    pub number: usize,
    pub offset: usize,
    pub clause: usize,
}

/// The result of a placing.
#[repr(C)]
#[derive(Clone, Copy, Debug, Default, PartialEq, Eq)]
pub struct PlaceResult {
    pub number: usize,
    pub offset: usize,
    pub wanted: usize,
    pub placed: usize,
    pub group: usize,
}

unsafe extern "C" {
    fn bordavina_check(file: *const u8, file_length: usize) -> CheckResult;

    fn bordavina_verdict(
        file: *const u8,
        file_length: usize,
        pane: u32,
        glass: u32,
    ) -> VerdictResult;

    fn bordavina_place(
        file: *const u8,
        file_length: usize,
        answers: *mut u32,
        answers_length: usize,
        short_group: *mut u32,
        short_group_length: usize,
    ) -> PlaceResult;

    fn bordavina_report(file: *const u8, file_length: usize, text: *mut u8) -> usize;
}

// SAFETY, of every call: the interface asks for pointers to as many bytes or entries as it is told, or null for none, and for
// lists that overlap neither one another nor the file; it keeps none of them. Slices give that.

/// Whether a file is accepted.
pub fn check(file: &[u8]) -> CheckResult {
    unsafe { bordavina_check(start(file), file.len()) }
}

/// Whether the glass of that id may be used for the pane of that id.
pub fn verdict(file: &[u8], pane: u32, glass: u32) -> VerdictResult {
    unsafe { bordavina_verdict(start(file), file.len(), pane, glass) }
}

/// Gives the panes of a file sheets of its rack.
pub fn place(file: &[u8], answers: &mut [u32], short_group: &mut [u32]) -> PlaceResult {
    unsafe {
        bordavina_place(
            start(file),
            file.len(),
            start_mut(answers),
            answers.len(),
            start_mut(short_group),
            short_group.len(),
        )
    }
}

/// Writes what the program canopy prints of a file, and returns how many bytes that is.
pub fn report(file: &[u8], text: &mut [u8; TEXT_SIZE]) -> usize {
    unsafe { bordavina_report(start(file), file.len(), text.as_mut_ptr()) }
}

/// Where the bytes of a file start: null for none.
fn start(file: &[u8]) -> *const u8 {
    if file.is_empty() {
        null()
    } else {
        file.as_ptr()
    }
}

/// Where the entries of a list start: null for none.
fn start_mut(list: &mut [u32]) -> *mut u32 {
    if list.is_empty() {
        null_mut()
    } else {
        list.as_mut_ptr()
    }
}
