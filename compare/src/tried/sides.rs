//! The sides of panes, and the columns of the span tables that they read: document 01, "The four clauses",
//! clause 3, and document 02, 2026-01.

use super::{named, Lines, Reading, Section};
use crate::clauses::Loads;
use crate::job::Pane;

pub const SECTION: Section = Section {
    title: "sides of panes",
    unit: Some("panes"),
    names: || [named(&COLUMNS), named(&BETWEEN)].concat(),
    count,
};

/// The columns of the span tables, of which the last two are one.
pub const COLUMNS: [&str; 5] = ["AR=1", "AR=2", "AR=3", "two edges", "ribbon"];

pub const RIBBON: usize = 4;

/// The sides next to where one column ends and the next begins, with four edges.
const BETWEEN: [&str; 7] = [
    "1 mm off equal",
    "exactly 2 times",
    "1 mm over 2 times",
    "exactly 3 times",
    "1 mm over 3 times",
    "5000 by 1",
    "5000 by 5000",
];

fn count(reading: &Reading, lines: &mut Lines) {
    for pane in reading.panes() {
        lines.meet(column(pane));
        if pane.edges == 4 {
            let (longer, shorter) = (pane.longer_side(), pane.shorter_side());
            let between = [
                longer == shorter + 1,
                longer == 2 * shorter,
                longer == 2 * shorter + 1,
                longer == 3 * shorter,
                longer == 3 * shorter + 1,
                (longer, shorter) == (5_000, 1),
                (longer, shorter) == (5_000, 5_000),
            ];
            lines.meet_each(COLUMNS.len(), between);
        }
    }
}

/// The place of a pane's column.
pub fn column(pane: &Pane) -> usize {
    if pane.is_ribbon() {
        RIBBON
    } else {
        Loads::of(pane).column
    }
}
