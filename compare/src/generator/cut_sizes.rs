//! Sheets about the cut size of a pane: document 01, "The four clauses", clause 2, with document 02,
//! 2026-02.

use super::easy::{easy_pane, easy_two_edge_pane, strong_glass};
use super::plan::either_way_round;
use crate::clauses::{cut_size, edge_cover, THICKNESSES};
use crate::job::{Glass, Pane};
use crate::random::Random;

/// A pane and a sheet that just covers its cut size or does not, either way round.
pub fn size(random: &mut Random) -> (Pane, Glass) {
    let thick = random.pick(&THICKNESSES);
    let pane = pane(thick, random);
    let sides = if random.one_in(6) {
        small_sheet(&pane, thick, random)
    } else {
        near_sheet(&pane, thick, random)
    };
    let (w, h) = either_way_round(sides, random);
    let glass = Glass {
        thick,
        w,
        h,
        ..strong_glass()
    };
    (pane, glass)
}

fn pane(thick: u8, random: &mut Random) -> Pane {
    let easy = if random.one_in(2) {
        easy_two_edge_pane(random)
    } else {
        easy_pane(random)
    };
    match random.below(7) {
        0 => almost_square(easy, thick, random),
        1 | 2 => with_sides(easy, (5_000, 5_000)),
        3 => with_sides(easy, (random.draw(1..=20), random.draw(1..=20))),
        _ => easy,
    }
}

/// A pane whose sides differ by so little that its sight size lies either way round within a sheet
/// that covers it one way only.
fn almost_square(pane: Pane, thick: u8, random: &mut Random) -> Pane {
    let shorter = random.draw(100..=1_600);
    let longer = shorter + random.draw(1..=2 * edge_cover(thick));
    with_sides(pane, either_way_round((shorter, longer), random))
}

fn with_sides(pane: Pane, (w, h): (u16, u16)) -> Pane {
    Pane { w, h, ..pane }
}

/// Sides of the cut size or one mm off, and at times of the sight size.
fn near_sheet(pane: &Pane, thick: u8, random: &mut Random) -> (u16, u16) {
    let mut near = |cut, sight| random.pick(&[cut, cut, cut + 1, cut - 1, cut - 1, sight]);
    let (w, h) = cut_size(pane, thick);
    (near(w, pane.w), near(h, pane.h))
}

/// A side of at most the two covers, which leaves nothing to see, and one of the cut size or such a
/// side again.
fn small_sheet(pane: &Pane, thick: u8, random: &mut Random) -> (u16, u16) {
    let covers = 2 * edge_cover(thick);
    let (_, h) = cut_size(pane, thick);
    let mut small = || random.pick(&[1, covers / 2, covers - 1, covers]);
    let (one, other) = (small(), small());
    (one, random.pick(&[h, other]))
}
