//! The first clause that fails, on every pair of a pane and a glass.

use super::{named, Lines, Reading, Section};

pub const SECTION: Section = Section {
    title: "first clause that fails",
    unit: Some("verdicts"),
    names: || {
        named(&[
            "none, passes",
            "clause 1",
            "clause 2",
            "clause 3",
            "clause 4",
        ])
    },
    count,
};

fn count(reading: &Reading, lines: &mut Lines) {
    for verdict in &reading.verdicts {
        lines.meet(verdict.clause);
    }
}
