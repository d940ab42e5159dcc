//! The causes for which files are refused, and in which part they lie: document 01, "What each cause
//! gives".

use super::{named, Lines, Reading, Section};
use crate::reader::{pane_offset, TRAILER_BYTES};
use crate::refusal::{Refusal, FORM, LENGTH, OFFSETS, REPEATED_ID, TOO_MANY_LINES, TRAILER, VALUE};

pub const SECTION: Section = Section {
    title: "refused files",
    unit: None,
    names: || named(&NAMES),
    count,
};

const NAMES: [&str; 13] = [
    "1, too few bytes",
    "1, too many bytes",
    "2, no trailer",
    "3, offsets out of order",
    "4, form of a glass line",
    "4, form of a pane line",
    "5, value on a glass line",
    "5, value on a pane line",
    "6, id of an earlier glass line",
    "6, id of an earlier pane line",
    "8, a glass line too many",
    "8, a pane line too many",
    NO_CAUSE,
];

/// No file has a cause of this number any more: document 02, 2026-01.
pub const NO_CAUSE: &str = "7, which no cause has";

fn count(reading: &Reading, lines: &mut Lines) {
    if let Err(refusal) = reading.roof {
        lines.meet(line(reading.file, refusal));
    }
}

fn line(file: &[u8], Refusal { number, offset }: Refusal) -> usize {
    let in_pane_part = usize::from(pane_offset(file).is_some_and(|first| offset >= first));
    match number {
        LENGTH => usize::from(file.len() > TRAILER_BYTES),
        TRAILER => 2,
        OFFSETS => 3,
        FORM => 4 + in_pane_part,
        VALUE => 6 + in_pane_part,
        REPEATED_ID => 8 + in_pane_part,
        TOO_MANY_LINES => 10 + in_pane_part,
        _ => 12,
    }
}
