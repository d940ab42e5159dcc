//! The letters of pane lines, and each wind class with each zone: document 02, 2026-03.

use super::{crossed, Lines, Reading, Section};
use crate::job::Wind;

pub const SECTION: Section = Section {
    title: "winds",
    unit: Some("panes"),
    names: || {
        [
            vec!["letter P".into(), "letter Q".into()],
            classes_and_zones(),
        ]
        .concat()
    },
    count,
};

/// With a pressure 1 off, many of these would have another verdict.
pub const AT_THE_EDGE: Section = Section {
    title: "winds, clause 4 at its edge",
    unit: Some("verdicts"),
    names: classes_and_zones,
    count: count_edges,
};

const CLASSES: [&str; 10] = ["N1", "N2", "N3", "N4", "N5", "N6", "C1", "C2", "C3", "C4"];

const ZONES: [&str; 2] = ["zone 1", "zone 2"];

fn classes_and_zones() -> Vec<String> {
    crossed(&CLASSES, &ZONES)
}

fn count(reading: &Reading, lines: &mut Lines) {
    for pane in reading.panes() {
        lines.meet(usize::from(pane.is_by_class()));
        if let Some(line) = line(pane.wind) {
            lines.meet(2 + line);
        }
    }
}

fn count_edges(reading: &Reading, lines: &mut Lines) {
    for verdict in &reading.verdicts {
        if let Some(line) = line(verdict.pane.wind) {
            lines.meet_if(line, verdict.constant_edge().is_some());
        }
    }
}

/// The place of a class and a zone.
fn line(wind: Wind) -> Option<usize> {
    match wind {
        Wind::Pressures { .. } => None,
        Wind::Class { class, zone } => {
            Some(ZONES.len() * (usize::from(class) - 1) + usize::from(zone) - 1)
        }
    }
}
