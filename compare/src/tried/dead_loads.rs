//! The rows of Table 6.1, where a constant shows which one is read: document 01, "The four clauses", clause
//! 4.

use super::{crossed, Lines, Reading, Section};
use crate::tables::DEGREES_A_ROW;

pub const SECTION: Section = Section {
    title: "dead loads by angle, clause 4 at its edge",
    unit: Some("verdicts"),
    names,
    count,
};

/// The maximum shows where down governs, and the minimum where up does.
const LOADS: [&str; 2] = ["maximum", "minimum"];

/// The rows that an angle can be at or just above, of 0 to 70 degrees.
const ROWS: u8 = 15;

/// The angles of a row that are tried: on it, just above it, and just below the next one.
const BESIDE: [u8; 3] = [0, 1, DEGREES_A_ROW - 1];

fn names() -> Vec<String> {
    let angles: Vec<String> = (0..ROWS)
        .flat_map(|row| BESIDE.map(|by| name(row, by)))
        .collect();
    crossed(&LOADS, &angles)
}

fn name(row: u8, by: u8) -> String {
    let degrees = DEGREES_A_ROW * row;
    let next = degrees + DEGREES_A_ROW;
    match by {
        0 => format!("{degrees} degrees, on the row"),
        1 => format!("{} degrees, just above {degrees}", degrees + by),
        _ => format!("{} degrees, just below {next}", degrees + by),
    }
}

fn count(reading: &Reading, lines: &mut Lines) {
    let angles = BESIDE.len() * usize::from(ROWS);
    for verdict in &reading.verdicts {
        let Some(angle) = line_of(verdict.pane.angle) else {
            continue;
        };
        if verdict.constant_edge().is_some() {
            let (downward, upward) = verdict.pressures();
            lines.meet_if(angle, downward > upward);
            lines.meet_if(angles + angle, upward > downward);
        }
    }
}

/// The place of an angle among those that are tried.
fn line_of(angle: u8) -> Option<usize> {
    let row = usize::from(angle / DEGREES_A_ROW);
    let mut beside = BESIDE.iter();
    let by = beside.position(|&by| by == angle % DEGREES_A_ROW)?;
    Some(BESIDE.len() * row + by)
}
