//! The edges, the awnings and the live loads of panes: document 01, "The job file" and "The four clauses",
//! clause 3.

use super::{named, Lines, Reading, Section};
use crate::clauses::Loads;
use crate::job::Pane;

pub const SECTION: Section = Section {
    title: "panes",
    unit: Some("panes"),
    names: || named(&NAMES),
    count,
};

const NAMES: [&str; 10] = [
    "edges 2",
    "edges 4",
    "awning 0",
    "awning 1",
    "live load 0.5 kN",
    "live load 1.1 kN",
    "live load 1.8 kN",
    "29 degrees, awning 0",
    "30 degrees, awning 0",
    "30 degrees or more, awning 1",
];

fn count(reading: &Reading, lines: &mut Lines) {
    for pane in reading.panes() {
        lines.meet_each(0, met(pane));
    }
}

fn met(pane: &Pane) -> [bool; NAMES.len()] {
    let live_load = Loads::of(pane).live_load;
    [
        pane.edges == 2,
        pane.edges == 4,
        !pane.awning,
        pane.awning,
        live_load == 0,
        live_load == 1,
        live_load == 2,
        !pane.awning && pane.angle == 29,
        !pane.awning && pane.angle == 30,
        pane.awning && pane.angle >= 30,
    ]
}
