//! Monolithic toughened glass about 3000 mm above the floor: document 01, "The four clauses", clause 1.

use super::reading::Verdict;
use super::{named, Lines, Reading, Section};
use crate::clauses::{Loads, PASSES};
use crate::job::Pane;

pub const SECTION: Section = Section {
    title: "clause 1 at its edge, kind 4",
    unit: Some("verdicts"),
    names: || {
        named(&[
            "top 2999, any verdict",
            "top 2999, passes",
            "top 3000, fails",
            "top 3000, fails by clause 1 alone",
        ])
    },
    count,
};

fn count(reading: &Reading, lines: &mut Lines) {
    for verdict in &reading.verdicts {
        let line = match (verdict.glass.kind, verdict.pane.top) {
            (4, 2_999) => 0,
            (4, 3_000) => 2,
            _ => continue,
        };
        lines.meet(line);
        lines.meet_if(line + 1, passes_lower(verdict));
    }
}

/// Whether a pane passes, or would a little lower.
fn passes_lower(verdict: &Verdict) -> bool {
    let lower = Pane {
        top: 2_999,
        ..*verdict.pane
    };
    Loads::of(&lower).judge(verdict.glass) == PASSES
}
