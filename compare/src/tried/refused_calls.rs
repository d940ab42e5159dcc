//! The causes for which calls on an accepted file are refused: document 01, "What each cause gives".

use super::{named, Lines, Reading, Section};
use crate::refusal::{NO_GLASS, NO_PANE, SHORT_LIST};

pub const SECTION: Section = Section {
    title: "refused calls on accepted files",
    unit: Some("calls"),
    names: || {
        named(&[
            "9, a list too short",
            "10, no such pane",
            "11, no such glass",
        ])
    },
    count,
};

/// The numbers of the lines.
const NUMBERS: [usize; 3] = [SHORT_LIST, NO_PANE, NO_GLASS];

fn count(reading: &Reading, lines: &mut Lines) {
    for number in reading.refused_calls {
        let mut numbers = NUMBERS.iter();
        if let Some(line) = numbers.position(|of_line| of_line == number) {
            lines.meet(line);
        }
    }
}
