//! That the generator draws sheets about the cut size of a pane (document 02, 2026-02), also of the
//! largest and the smallest panes, and on plausible roofs.

use crate::pairs::{each_comes_up, files_with, jobs, judge, FEW};
use compare::clauses::{cut_size, edge_cover, FAILS_POINT_LOAD, FAILS_SIZE, PASSES, THICKNESSES};
use compare::generator::Kind;
use compare::job::{Glass, Pane};

/// How many mm a sheet is too small for the cut size, by w and h.
const MISSING: [(u16, u16); 4] = [(0, 0), (1, 0), (0, 1), (1, 1)];

#[test]
fn the_cut_size_and_one_mm_less_in_every_thickness() {
    for thick in THICKNESSES {
        let counts = files_with(MISSING.len(), |at, pane, glass| {
            glass.thick == thick
                && (lacks(pane, glass, MISSING[at]) || lacks(pane, &turned(glass), MISSING[at]))
        });
        println!("{thick} mm: {counts:?} files lack {MISSING:?}");
        assert!(counts.iter().all(|&count| count >= FEW));
    }
}

#[test]
fn the_cut_size_and_one_mm_less_either_way_round() {
    for edges in [2, 4] {
        let one_way = files_with(MISSING.len(), |at, pane, glass| {
            pane.edges == edges && lacks(pane, glass, MISSING[at])
        });
        let other_way = files_with(MISSING.len(), |at, pane, glass| {
            pane.edges == edges && lacks(pane, &turned(glass), MISSING[at])
        });
        println!("{edges} edges: {one_way:?} files lack {MISSING:?}, {other_way:?} turned");
        assert!(one_way.iter().chain(&other_way).all(|&count| count >= FEW));
    }
}

#[test]
fn the_largest_pane_in_every_thickness() {
    for (thick, side) in [(6, 5_012), (8, 5_016), (10, 5_016), (12, 5_018)] {
        let cases = [(side, FAILS_POINT_LOAD), (side - 1, FAILS_SIZE)];
        let counts = files_with(cases.len(), |at, pane, glass| {
            let (shorter, verdict) = cases[at];
            (pane.w, pane.h, glass.thick) == (5_000, 5_000, thick)
                && glass.w.min(glass.h) == shorter
                && judge(pane, glass) == verdict
        });
        println!("{thick} mm: {counts:?} files with sheets and verdicts of {cases:?}");
        assert!(counts.iter().all(|&count| count >= FEW));
    }
}

#[test]
fn the_boundaries() {
    each_comes_up(&[
        ("a sheet of the cut size passes", |pane, glass| {
            lacks(pane, glass, (0, 0)) && judge(pane, glass) == PASSES
        }),
        ("a side less than the two covers", |pane, glass| {
            glass.w.min(glass.h) < 2 * edge_cover(glass.thick) && judge(pane, glass) == FAILS_SIZE
        }),
        ("a sheet of the sight size", |pane, glass| {
            (glass.w, glass.h) == (pane.w, pane.h) && judge(pane, glass) == FAILS_SIZE
        }),
        (
            "covered turned, not upright, where it fits by sight",
            |pane, glass| only_turned(pane, glass) && judge(pane, glass) != FAILS_SIZE,
        ),
        (
            "covered upright, not turned, where it fits by sight",
            |pane, glass| only_turned(pane, &turned(glass)) && judge(pane, glass) != FAILS_SIZE,
        ),
        ("two edges, only h keeps it out", |pane, glass| {
            let (w, h) = cut_size(pane, glass.thick);
            pane.edges == 2
                && judge(pane, glass) == FAILS_SIZE
                && w <= glass.w
                && (pane.h..h).contains(&glass.h)
        }),
    ]);
}

#[test]
fn whole_sheets_on_plausible_roofs() {
    let honest = jobs().filter(|(kind, _)| *kind == Kind::Honest);
    let with_whole_sheets = honest.filter(|(_, job)| {
        let is_whole = |pane| {
            job.glasses()
                .iter()
                .any(|glass| takes_whole_sheet(pane, glass))
        };
        job.panes().iter().any(is_whole)
    });
    let count = with_whole_sheets.count();
    println!("{count} plausible roofs with a pane that takes a whole sheet");
    assert!(count >= FEW);
}

/// Whether the sheet lacks so many mm of the cut size, upright.
fn lacks(pane: &Pane, sheet: &Glass, (w_missing, h_missing): (u16, u16)) -> bool {
    let (w, h) = cut_size(pane, sheet.thick);
    (sheet.w + w_missing, sheet.h + h_missing) == (w, h)
}

fn takes_whole_sheet(pane: &Pane, sheet: &Glass) -> bool {
    lacks(pane, sheet, (0, 0)) || lacks(pane, &turned(sheet), (0, 0))
}

/// Whether the sight size lies within the sheet upright and the cut size only turned.
fn only_turned(pane: &Pane, sheet: &Glass) -> bool {
    let (w, h) = cut_size(pane, sheet.thick);
    pane.w <= sheet.w
        && pane.h <= sheet.h
        && (w > sheet.w || h > sheet.h)
        && w <= sheet.h
        && h <= sheet.w
}

fn turned(sheet: &Glass) -> Glass {
    Glass {
        w: sheet.h,
        h: sheet.w,
        ..*sheet
    }
}
