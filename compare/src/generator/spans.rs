//! Spans about the entries of Tables 6.2 to 6.5: document 01, "The four clauses", clause 3, and for
//! ribbons document 02, 2026-01, with pressures or a wind class (2026-03).

use super::easy::strong_glass;
use super::plan::either_way_round;
use crate::clauses::{thickness_index, THICKNESSES};
use crate::job::{Glass, Pane, Wind};
use crate::random::Random;
use crate::tables::{SPANS, TWO_EDGE};

/// The widest that a ribbon can be, in mm, since it is at most 5000 long.
const WIDEST_RIBBON: u16 = 1_666;

/// A span at an entry or one mm off, with sides at the ends of the column.
pub fn entry(random: &mut Random) -> (Pane, Glass) {
    let row = Row::draw(random);
    let column = random.below(4);
    let b = (row.spans()[column] + random.pick(&[0, 1, 1, 2, 2])).max(2) - 1;
    let pane = row.pane_of_span(b, column, random);
    (with_any_wind(pane, random), row.glass())
}

/// The pane as it is, or by a wind class. The strongest glass bears either.
fn with_any_wind(pane: Pane, random: &mut Random) -> Pane {
    let by_class = Wind::Class {
        class: random.draw(1..=10),
        zone: random.draw(1..=2),
    };
    let wind = random.pick(&[pane.wind, by_class]);
    Pane { wind, ..pane }
}

/// A pane at this angle and with no wind that clauses 1 to 3 let pass with glass of this kind and
/// thickness, where the sheet is large enough. For some there is none: a row of dashes.
pub fn within(kind: u8, thick: u8, angle: u8, random: &mut Random) -> Option<Pane> {
    let live_load = usize::from(angle < 30);
    let row = Row {
        kind,
        live_load,
        thick,
    };
    let spans = row.spans();
    let columns: Vec<usize> = (0..4).filter(|&column| spans[column] > 0).collect();
    if columns.is_empty() {
        return None;
    }
    let column = random.pick(&columns);
    // Of a span of 100 and more, the constant shows whether P is 1 off.
    let b = match random.below(8) {
        0 => random.draw(1..=99),
        _ => random.draw(100..=spans[column]),
    };
    let pane = row.pane_of_span(b, column, random);
    let top = match kind {
        4 => pane.top.min(2_999),
        _ => pane.top,
    };
    Some(Pane { angle, top, ..pane })
}

/// A longer side with which a four-edge pane of this span reads this column.
fn longer_side(b: u16, column: usize, random: &mut Random) -> u16 {
    let longer = match column {
        0 => b,
        1 => random.pick(&[b + 1, 2 * b]),
        2 => random.pick(&[2 * b + 1, 3 * b]),
        _ => random.pick(&[3 * b + 1, 4 * b, 5 * b, 5_000]),
    };
    longer.min(5_000)
}

/// Sides of exactly 3 times, one mm more and one mm less, with a span that is at the end of what
/// the AR=3 column passes and the two-edge column fails.
pub fn three_times(random: &mut Random) -> (Pane, Glass) {
    let row = Row::draw(random);
    let [_, _, ar_3, two_edge] = row.spans();
    let b = random.pick(&[two_edge + 1, ar_3]).clamp(1, WIDEST_RIBBON);
    let longer = 3 * b + random.pick(&[0, 1, 2]) - 1;
    let pane = row.pane(4, either_way_round((b, longer), random), random);
    (with_any_wind(pane, random), row.glass())
}

/// A row of the tables.
struct Row {
    kind: u8,
    live_load: usize,
    thick: u8,
}

impl Row {
    fn draw(random: &mut Random) -> Row {
        Row {
            kind: random.draw(1..=4),
            live_load: random.below(3),
            thick: random.pick(&THICKNESSES),
        }
    }

    /// The entries of the row, by column.
    fn spans(&self) -> [u16; 4] {
        SPANS[usize::from(self.kind) - 1][self.live_load][thickness_index(self.thick)]
    }

    /// A glass of the row's kind and thickness.
    fn glass(&self) -> Glass {
        Glass {
            kind: self.kind,
            thick: self.thick,
            ..strong_glass()
        }
    }

    /// A pane of this span that reads this column, with the row's live load and no wind.
    fn pane_of_span(&self, b: u16, column: usize, random: &mut Random) -> Pane {
        let two_edges = column == TWO_EDGE && (b > WIDEST_RIBBON || random.one_in(2));
        if two_edges {
            return self.pane(2, (b, random.draw(1..=5_000)), random);
        }
        let longer = longer_side(b, column, random);
        self.pane(4, either_way_round((b, longer), random), random)
    }

    /// A pane with the row's live load and no wind.
    fn pane(&self, edges: u8, (w, h): (u16, u16), random: &mut Random) -> Pane {
        let angle = match self.live_load {
            0 => random.pick(&[30, 31, 45, 74]),
            1 => random.pick(&[0, 5, 28, 29]),
            _ => random.draw(0..=74),
        };
        Pane {
            id: 0,
            edges,
            angle,
            awning: self.live_load == 2,
            top: random.pick(&[0, 2_999, 3_000]),
            w,
            h,
            wind: Wind::Pressures { down: 0, up: 0 },
        }
    }
}
