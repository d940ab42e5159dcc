//! The kinds, the thicknesses and the stocks of glasses: document 01, "The job file".

use super::{named, Lines, Reading, Section};
use crate::clauses::thickness_index;

pub const SECTION: Section = Section {
    title: "glasses",
    unit: Some("glasses"),
    names: || named(&NAMES),
    count,
};

const NAMES: [&str; 11] = [
    "kind 1",
    "kind 2",
    "kind 3",
    "kind 4",
    "6 mm",
    "8 mm",
    "10 mm",
    "12 mm",
    "stock 0",
    "stock 1",
    "stock 999",
];

fn count(reading: &Reading, lines: &mut Lines) {
    for glass in reading.glasses() {
        lines.meet(usize::from(glass.kind) - 1);
        lines.meet(4 + thickness_index(glass.thick));
        let mut stocks = [0, 1, 999].iter();
        if let Some(at) = stocks.position(|&stock| stock == glass.stock) {
            lines.meet(8 + at);
        }
    }
}
