//! Full placings of ribbons and of panes by class: document 02, 2026-01 and 2026-03, with document 01, "The
//! placing".

use super::{named, Lines, Reading, Section};
use crate::job::Pane;
use crate::roof::Roof;
use crate::shortage::first_fit;

pub const SECTION: Section = Section {
    title: "full placings",
    unit: None,
    names: || named(&NAMES),
    count,
};

const NAMES: [&str; 7] = [
    "with a ribbon",
    "with a pane by class",
    "with a ribbon by class",
    "with panes by class alone",
    "only by moving panes, with a ribbon",
    "only by moving panes, with a pane by class",
    "only by moving panes, with a ribbon by class",
];

fn count(reading: &Reading, lines: &mut Lines) {
    if let Ok(roof) = reading.roof {
        if roof.shortage() == 0 && !roof.job.panes().is_empty() {
            lines.meet_each(0, met(roof));
        }
    }
}

fn met(roof: &Roof) -> [bool; NAMES.len()] {
    let panes = roof.job.panes();
    let ribbon = panes.iter().any(Pane::is_ribbon);
    let by_class = panes.iter().any(Pane::is_by_class);
    let both = panes.iter().any(Pane::is_ribbon_by_class);
    let by_moving = first_fit(roof) < panes.len();
    [
        ribbon,
        by_class,
        both,
        panes.iter().all(Pane::is_by_class),
        by_moving && ribbon,
        by_moving && by_class,
        by_moving && both,
    ]
}
