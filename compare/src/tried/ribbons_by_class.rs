//! Ribbons on `Q` lines at the edges of clauses 2 to 4: document 02, 2026-01, 2026-02 and 2026-03 together.

use super::clause_2::lacks;
use super::reading::Verdict;
use super::{named, Lines, Reading, Section};
use crate::clauses::{cut_size, lies_within, FAILS_SIZE, PASSES};
use crate::job::{Glass, Pane};

pub const SECTION: Section = Section {
    title: "ribbons by class",
    unit: Some("verdicts"),
    names: || named(&NAMES),
    count,
};

const NAMES: [&str; 8] = [
    "passes",
    "passes on a sheet of the cut size",
    "1 mm short, passes but for it",
    "sight size fits, passes but for the covers",
    "span at the entry",
    "span 1 mm above the entry",
    "least constant",
    "constant 1 less",
];

fn count(reading: &Reading, lines: &mut Lines) {
    for verdict in &reading.verdicts {
        if verdict.pane.is_ribbon_by_class() {
            lines.meet_each(0, met(verdict));
        }
    }
}

fn met(verdict: &Verdict) -> [bool; NAMES.len()] {
    let Verdict { pane, glass, .. } = *verdict;
    let passes = verdict.clause == PASSES;
    let fails_by_size = verdict.clause == FAILS_SIZE && verdict.passes_on_a_large_sheet();
    [
        passes,
        passes && is_cut_size(pane, glass),
        fails_by_size && lacks(pane, glass, (1, 1)),
        fails_by_size && lies_within((pane.w, pane.h), glass),
        verdict.span_edge() == Some(0),
        verdict.span_edge() == Some(1),
        verdict.constant_edge() == Some(0),
        verdict.constant_edge() == Some(1),
    ]
}

/// Whether the sheet has the cut size, either way round.
fn is_cut_size(pane: &Pane, glass: &Glass) -> bool {
    let (w, h) = cut_size(pane, glass.thick);
    (w, h) == (glass.w, glass.h) || (h, w) == (glass.w, glass.h)
}
