//! The verdict on a pane and a glass: document 01, "The four clauses", and document 02, 2026-01 for
//! ribbons, 2026-02 for clause 2, and 2026-03 and 2026-06 for the wind and the dead loads of clause 4.

use crate::job::{Glass, Job, Pane};
use crate::reader::read;
use crate::refusal::{Refusal, NO_GLASS, NO_PANE};
use crate::tables::{
    DEGREES_A_ROW, EDGE_COVERS, MAXIMUM_DEAD_LOADS, MINIMUM_DEAD_LOADS, SPANS, TWO_EDGE,
};

pub const PASSES: usize = 0;
pub const FAILS_KIND: usize = 1;
pub const FAILS_SIZE: usize = 2;
pub const FAILS_POINT_LOAD: usize = 3;
pub const FAILS_UNIFORM_LOAD: usize = 4;

/// The nominal thicknesses in mm, in the order of the tables.
pub const THICKNESSES: [u8; 4] = [6, 8, 10, 12];

/// Laminated annealed glass. The other kinds are heat-strengthened or toughened.
pub const ANNEALED: u8 = 1;

/// A kind for each of the two dead loads. Kinds 3 and 4 have that of kind 2: document 02, 2026-06.
pub const KINDS_BY_DEAD_LOAD: [u8; 2] = [ANNEALED, 2];

/// What the clauses need of a pane, worked out once for all glasses.
#[derive(Clone, Copy, Debug)]
pub struct Loads {
    /// Clause 1: monolithic toughened glass is too high above the floor.
    laminated_only: bool,
    /// Clause 2: the cut size, by thickness.
    cut_sizes: [(u16, u16); 4],
    /// Clause 4: the constant is "four", else "two".
    four_edges: bool,
    /// Which of 0.5, 1.1 and 1.8 kN is the live load, counted from 0.
    pub live_load: usize,
    /// Column of the span tables.
    pub column: usize,
    /// The span B in mm: w with two edges, the shorter side with four.
    pub span: u16,
    /// The pressures downward and upward in units of 0.01 kPa, by dead load and thickness. P is the larger
    /// one.
    pressures: [[(u32, u32); 4]; 2],
    /// B times B times P, by dead load and thickness.
    bbp: [[u64; 4]; 2],
}

impl Loads {
    pub fn of(pane: &Pane) -> Loads {
        let span = match pane.edges {
            2 => pane.w,
            _ => pane.shorter_side(),
        };
        let wind = pane.wind.pressures();
        let by_thickness = |kind| THICKNESSES.map(|thick| pressures(kind, pane.angle, wind, thick));
        let pressures = KINDS_BY_DEAD_LOAD.map(by_thickness);
        let bbp = |(downward, upward)| bbp(span, u32::max(downward, upward));
        Loads {
            laminated_only: pane.top >= 3_000,
            cut_sizes: THICKNESSES.map(|thick| cut_size(pane, thick)),
            four_edges: pane.edges == 4,
            live_load: live_load(pane),
            column: column(pane),
            span,
            pressures,
            bbp: pressures.map(|by_thickness| by_thickness.map(bbp)),
        }
    }

    /// The first clause that fails, or `PASSES`.
    pub fn judge(&self, glass: &Glass) -> usize {
        if self.laminated_only && glass.kind == 4 {
            return FAILS_KIND;
        }
        if !lies_within(self.cut_sizes[thickness_index(glass.thick)], glass) {
            return FAILS_SIZE;
        }
        if self.span > self.entry(glass) {
            return FAILS_POINT_LOAD;
        }
        let k = u64::from(self.constant(glass));
        if self.bbp(glass) > k * k {
            return FAILS_UNIFORM_LOAD;
        }
        PASSES
    }

    /// Clause 3: the longest span in mm.
    pub fn entry(&self, glass: &Glass) -> u16 {
        let kind = usize::from(glass.kind) - 1;
        SPANS[kind][self.live_load][thickness_index(glass.thick)][self.column]
    }

    /// Clause 4: the constant K.
    pub fn constant(&self, glass: &Glass) -> u32 {
        if self.four_edges {
            glass.four
        } else {
            glass.two
        }
    }

    /// Clause 4: B times B times P.
    pub fn bbp(&self, glass: &Glass) -> u64 {
        self.bbp[dead_load_index(glass.kind)][thickness_index(glass.thick)]
    }

    /// The pressures downward and upward in units of 0.01 kPa, with glass of this kind and thickness.
    pub fn pressures(&self, kind: u8, thick: u8) -> (u32, u32) {
        self.pressures[dead_load_index(kind)][thickness_index(thick)]
    }

    /// The pressure P in units of 0.01 kPa, with glass of this kind and thickness.
    pub fn pressure(&self, kind: u8, thick: u8) -> u32 {
        let (downward, upward) = self.pressures(kind, thick);
        downward.max(upward)
    }
}

/// B times B times P, with a span B and a pressure P.
pub fn bbp(span: u16, pressure: u32) -> u64 {
    u64::from(span) * u64::from(span) * u64::from(pressure)
}

/// The place of the dead load of a kind among the two.
fn dead_load_index(kind: u8) -> usize {
    usize::from(kind != ANNEALED)
}

/// The place of a thickness of 6, 8, 10 or 12 mm among the four.
pub fn thickness_index(thick: u8) -> usize {
    usize::from(thick - 6) / 2
}

/// The least that glass of this thickness reaches into the rebate at an edge, in mm.
pub fn edge_cover(thick: u8) -> u16 {
    EDGE_COVERS[thickness_index(thick)]
}

/// The w and h in mm to which a pane is cut from glass of this thickness: the sight size with the edge
/// cover at every edge, with two supports as with four.
pub fn cut_size(pane: &Pane, thick: u8) -> (u16, u16) {
    let covers = 2 * edge_cover(thick);
    (pane.w + covers, pane.h + covers)
}

/// Whether a cut size lies within the sheet, w along w or w along h.
pub fn lies_within((w, h): (u16, u16), sheet: &Glass) -> bool {
    let along = w <= sheet.w && h <= sheet.h;
    let across = w <= sheet.h && h <= sheet.w;
    along || across
}

/// The verdict on the pane and the glass of these ids: the first clause that fails, or `PASSES`.
pub fn verdict(file: &[u8], pane_id: u32, glass_id: u32) -> Result<usize, Refusal> {
    verdict_of(&read(file)?, pane_id, glass_id)
}

/// The same of an accepted file.
pub fn verdict_of(job: &Job, pane_id: u32, glass_id: u32) -> Result<usize, Refusal> {
    let mut panes = job.panes().iter();
    let pane = panes
        .find(|pane| u32::from(pane.id) == pane_id)
        .ok_or(Refusal::new(NO_PANE, 0))?;
    let mut glasses = job.glasses().iter();
    let glass = glasses
        .find(|glass| u32::from(glass.id) == glass_id)
        .ok_or(Refusal::new(NO_GLASS, 0))?;
    Ok(Loads::of(pane).judge(glass))
}

fn live_load(pane: &Pane) -> usize {
    match (pane.awning, pane.angle) {
        (true, _) => 2,
        (false, ..=29) => 1,
        (false, _) => 0,
    }
}

/// The column of the span tables: the two-edge one for two edges and for a ribbon, else by the
/// sides.
fn column(pane: &Pane) -> usize {
    if pane.edges == 2 || pane.is_ribbon() {
        TWO_EDGE
    } else if pane.w == pane.h {
        0
    } else if pane.longer_side() <= 2 * pane.shorter_side() {
        1
    } else {
        2
    }
}

/// The downward and the upward combination of dead load and wind. P is the larger one.
fn pressures(kind: u8, angle: u8, (down, up): (u16, u16), thick: u8) -> (u32, u32) {
    let downward = maximum_dead_load(kind, angle, thick) + u32::from(down);
    let upward = u32::from(up).saturating_sub(minimum_dead_load(angle, thick));
    (downward, upward)
}

/// The maximum dead load in units of 0.01 kPa: that of the last row of Table 6.1 which the angle
/// reaches, in this thickness, and 31/50 of it for kinds 2, 3 and 4 (document 02, 2026-06). Only the
/// end is rounded, up.
pub fn maximum_dead_load(kind: u8, angle: u8, thick: u8) -> u32 {
    let at_or_below = usize::from(angle / DEGREES_A_ROW);
    let row_by_thick = MAXIMUM_DEAD_LOADS[at_or_below] * u32::from(thick);
    match kind {
        ANNEALED => row_by_thick.div_ceil(6),
        _ => (row_by_thick * 31).div_ceil(300),
    }
}

/// The minimum dead load of every kind in units of 0.01 kPa, rounded down: that of the first row of
/// Table 6.1 which the angle does not pass, in this thickness.
pub fn minimum_dead_load(angle: u8, thick: u8) -> u32 {
    minimum_row(angle) * u32::from(thick) / 6
}

/// The figure of Table 6.1 from which the minimum is worked out.
pub fn minimum_row(angle: u8) -> u32 {
    let at_or_above = usize::from(angle.div_ceil(DEGREES_A_ROW));
    MINIMUM_DEAD_LOADS[at_or_above]
}
