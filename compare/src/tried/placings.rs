//! What sort of placing a file asks for: document 01, "The placing", and document 02, 2026-05. How many panes
//! can be served is the max flow's.

use super::{named, Lines, Reading, Section};
use crate::job::{MOST_GLASSES, MOST_PANES};
use crate::roof::Roof;
use crate::shortage::{first_fit, places};

pub const SECTION: Section = Section {
    title: "placings",
    unit: None,
    names: || named(&NAMES),
    count,
};

/// A short file has panes that cannot be served.
const NAMES: [&str; 17] = [
    "no panes, no glasses",
    "no panes, some glasses",
    "some panes, no glasses",
    "full, some panes",
    "full only by moving panes",
    "short by 1",
    "short by 2 to 9",
    "short by 10 or more",
    "short, fewer still by first fit",
    "short, in separate places",
    "short, every pane left out",
    "a pane for which no glass passes",
    "every pane such that no glass passes",
    "a pane whose passing glasses all have stock 0",
    "64 glasses",
    "256 panes",
    "the 64th glass passes",
];

fn count(reading: &Reading, lines: &mut Lines) {
    if let Ok(roof) = reading.roof {
        lines.meet_each(0, met(roof));
    }
}

fn met(roof: &Roof) -> [bool; NAMES.len()] {
    let (panes, glasses) = (roof.job.panes().len(), roof.job.glasses().len());
    let shortage = roof.shortage();
    let full = panes > 0 && shortage == 0;
    let fewer_by_first_fit = first_fit(roof) < roof.flow.most_served;
    let bare = (0..panes).filter(|&pane| is_bare(roof, pane)).count();
    [
        panes == 0 && glasses == 0,
        panes == 0 && glasses > 0,
        panes > 0 && glasses == 0,
        full,
        full && fewer_by_first_fit,
        shortage == 1,
        (2..10).contains(&shortage),
        shortage >= 10,
        shortage > 0 && fewer_by_first_fit,
        shortage > 0 && places(roof) > 1,
        shortage > 0 && shortage == panes,
        glasses > 0 && bare > 0,
        glasses > 0 && panes > 0 && bare == panes,
        (0..panes).any(|pane| is_out_of_stock(roof, pane)),
        glasses == MOST_GLASSES,
        panes == MOST_PANES,
        glasses == MOST_GLASSES && (0..panes).any(|pane| passes_last(roof, pane)),
    ]
}

/// Whether no glass passes for a pane.
fn is_bare(roof: &Roof, pane: usize) -> bool {
    roof.passing(pane).next().is_none()
}

/// Whether some glasses pass for a pane, and none of them has a sheet.
fn is_out_of_stock(roof: &Roof, pane: usize) -> bool {
    let glasses = roof.job.glasses();
    !is_bare(roof, pane) && roof.passing(pane).all(|glass| glasses[glass].stock == 0)
}

/// Whether the last of all possible glasses passes for a pane.
fn passes_last(roof: &Roof, pane: usize) -> bool {
    roof.passing(pane).last() == Some(MOST_GLASSES - 1)
}
