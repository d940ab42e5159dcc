//! Verdicts on kinds 2, 3 and 4 that would be others with another dead load: document 02, 2026-06, and
//! together with ribbons (2026-01) and wind classes (2026-03).

use super::reading::Verdict;
use super::{named, Lines, Reading, Section};
use crate::clauses::{minimum_row, ANNEALED, PASSES};

pub const SECTION: Section = Section {
    title: "kinds 2 to 4, passes but not with another dead load",
    unit: Some("verdicts"),
    names: || named(&NAMES),
    count,
};

const NAMES: [&str; 8] = [
    "maximum of kind 1, down governs",
    "maximum of kind 1, up governs",
    "maximum of kind 1, by class",
    "maximum of kind 1, ribbon",
    "maximum of kind 1, ribbon by class",
    "31/50 of the minimum, up governs",
    "31/50 of the minimum, by class",
    "31/50 of the minimum, ribbon",
];

fn count(reading: &Reading, lines: &mut Lines) {
    for verdict in &reading.verdicts {
        if verdict.glass.kind != ANNEALED && verdict.clause == PASSES {
            lines.meet_each(0, met(verdict));
        }
    }
}

fn met(verdict: &Verdict) -> [bool; NAMES.len()] {
    let (downward, upward) = verdict.pressures();
    let by_maximum = !verdict.bears(verdict.loads.pressure(ANNEALED, verdict.glass.thick));
    let by_minimum = !verdict.bears(with_lesser_minimum(verdict));
    let (by_class, ribbon) = (verdict.pane.is_by_class(), verdict.pane.is_ribbon());
    [
        by_maximum && downward > upward,
        by_maximum && upward > downward,
        by_maximum && by_class,
        by_maximum && ribbon,
        by_maximum && verdict.pane.is_ribbon_by_class(),
        by_minimum && upward > downward,
        by_minimum && by_class,
        by_minimum && ribbon,
    ]
}

/// The pressure P if the minimum were lessened as the maximum is.
fn with_lesser_minimum(verdict: &Verdict) -> u32 {
    let (downward, _) = verdict.pressures();
    let (_, up) = verdict.pane.wind.pressures();
    let row = minimum_row(verdict.pane.angle);
    let minimum = row * 31 * u32::from(verdict.glass.thick) / 300;
    downward.max(u32::from(up).saturating_sub(minimum))
}
