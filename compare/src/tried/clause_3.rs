//! Spans at the entries of Tables 6.2 to 6.5 and 1 mm above, by table, live load and column: document 01,
//! "The four clauses", clause 3, and for ribbons document 02, 2026-01.

use super::reading::{Verdict, SPAN_EDGE};
use super::sides::{column, COLUMNS, RIBBON};
use super::{crossed, Lines, Reading, Section};
use crate::clauses::FAILS_POINT_LOAD;
use crate::tables::{SPANS, TWO_EDGE};
use std::sync::LazyLock;

pub const SECTION: Section = Section {
    title: "clause 3 at its edge",
    unit: Some("verdicts"),
    names,
    count,
};

/// A ribbon is at most so wide in mm, since it is at most 5000 long.
const WIDEST_RIBBON: u16 = 1_666;

const LIVE_LOADS: [&str; 3] = ["0.5 kN", "1.1 kN", "1.8 kN"];

/// The entries of a table for a live load in a column, in all thicknesses.
#[derive(PartialEq)]
struct Cell {
    /// The kind of glass, less 1.
    table: usize,
    live_load: usize,
    column: usize,
}

/// The cells with an entry that a span can exceed.
static CELLS: LazyLock<Vec<Cell>> = LazyLock::new(|| {
    let mut cells = Vec::new();
    for table in 0..SPANS.len() {
        for live_load in 0..LIVE_LOADS.len() {
            cells.extend((0..COLUMNS.len()).map(|column| Cell {
                table,
                live_load,
                column,
            }));
        }
    }
    cells.retain(Cell::has_edge);
    cells
});

impl Cell {
    fn of(verdict: &Verdict) -> Cell {
        Cell {
            table: usize::from(verdict.glass.kind) - 1,
            live_load: verdict.loads.live_load,
            column: column(verdict.pane),
        }
    }

    fn has_edge(&self) -> bool {
        let (most, column) = match self.column {
            RIBBON => (WIDEST_RIBBON, TWO_EDGE),
            column => (u16::MAX, column),
        };
        let entries = SPANS[self.table][self.live_load].iter();
        let mut entries = entries.map(|row| row[column]);
        entries.any(|entry| (1..most).contains(&entry))
    }

    fn name(&self) -> String {
        let kind = self.table + 1;
        let live_load = LIVE_LOADS[self.live_load];
        format!("kind {kind}, {live_load}, {}", COLUMNS[self.column])
    }
}

/// Each cell on both sides of the edge, and then the dashes of each table.
fn names() -> Vec<String> {
    let cells: Vec<String> = CELLS.iter().map(Cell::name).collect();
    let mut names = crossed(&cells, &SPAN_EDGE);
    names.extend((1..=SPANS.len()).map(|kind| format!("kind {kind}, a dash")));
    names
}

fn count(reading: &Reading, lines: &mut Lines) {
    for verdict in &reading.verdicts {
        if let Some(edge) = verdict.span_edge() {
            let cell = Cell::of(verdict);
            let cell = CELLS.iter().position(|of_line| *of_line == cell);
            lines.meet(SPAN_EDGE.len() * cell.expect("a cell with an edge") + edge);
        }
        if verdict.clause == FAILS_POINT_LOAD && verdict.loads.entry(verdict.glass) == 0 {
            let table = usize::from(verdict.glass.kind) - 1;
            lines.meet(SPAN_EDGE.len() * CELLS.len() + table);
        }
    }
}
