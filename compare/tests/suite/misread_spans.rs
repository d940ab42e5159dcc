//! Likely misreadings of document 02, 2026-02, in clauses 3 and 4, where spans and sides stay sight
//! sizes. Each case is a generated pair of a pane and a glass on which the misreading gives another
//! verdict, so that a library with it is found.

use crate::pairs::{each_comes_up, judge};
use compare::clauses::{
    cut_size, edge_cover, thickness_index, Loads, FAILS_POINT_LOAD, FAILS_UNIFORM_LOAD, PASSES,
};
use compare::job::{Glass, Pane};
use compare::tables::{SPANS, TWO_EDGE};

const AR_2: usize = 1;
const AR_3: usize = 2;

#[test]
fn a_span_with_covers_in_clause_3() {
    each_comes_up(&[
        ("clause 3, four edges", |pane, glass| {
            pane.edges == 4 && differs_in_clause_3(pane, glass, 2)
        }),
        ("clause 3, two edges", |pane, glass| {
            pane.edges == 2 && differs_in_clause_3(pane, glass, 2)
        }),
        ("clause 3, one cover", |pane, glass| {
            differs_in_clause_3(pane, glass, 1)
        }),
    ]);
}

#[test]
fn a_span_with_covers_in_clause_4() {
    each_comes_up(&[
        ("clause 4, four edges", |pane, glass| {
            pane.edges == 4 && differs_in_clause_4(pane, glass, 2)
        }),
        ("clause 4, two edges", |pane, glass| {
            pane.edges == 2 && differs_in_clause_4(pane, glass, 2)
        }),
        ("clause 4, one cover", |pane, glass| {
            differs_in_clause_4(pane, glass, 1)
        }),
    ]);
}

#[test]
fn a_column_by_the_cut_size() {
    each_comes_up(&[
        ("AR=2 for AR=3", |pane, glass| {
            differs_by_column(pane, glass, (AR_3, AR_2))
        }),
        ("AR=3 for a ribbon", |pane, glass| {
            differs_by_column(pane, glass, (TWO_EDGE, AR_3))
        }),
    ]);
}

/// Whether clause 3 fails with so many covers added to the span, and neither it nor an earlier clause
/// does without.
fn differs_in_clause_3(pane: &Pane, glass: &Glass, covers: u16) -> bool {
    let Loads { span, column, .. } = Loads::of(pane);
    matches!(judge(pane, glass), PASSES | FAILS_UNIFORM_LOAD)
        && span + covers * edge_cover(glass.thick) > entry(pane, glass, column)
}

/// Whether clause 4 fails with so many covers added to the span, and no clause does without.
fn differs_in_clause_4(pane: &Pane, glass: &Glass, covers: u16) -> bool {
    let loads = Loads::of(pane);
    let b = u64::from(loads.span + covers * edge_cover(glass.thick));
    let p = u64::from(loads.pressure(glass.kind, glass.thick));
    let k = u64::from(match pane.edges {
        2 => glass.two,
        _ => glass.four,
    });
    judge(pane, glass) == PASSES && b * b * p > k * k
}

/// Whether the sight size and the cut size read these two columns, and the second lets the pane pass
/// clause 3 where the first does not.
fn differs_by_column(pane: &Pane, glass: &Glass, columns: (usize, usize)) -> bool {
    let (w, h) = cut_size(pane, glass.thick);
    let loads = Loads::of(pane);
    let by_cut_size = Loads::of(&Pane { w, h, ..*pane }).column;
    (loads.column, by_cut_size) == columns
        && judge(pane, glass) == FAILS_POINT_LOAD
        && loads.span <= entry(pane, glass, by_cut_size)
}

/// The entry of a glass for the live load of a pane, in this column.
fn entry(pane: &Pane, glass: &Glass, column: usize) -> u16 {
    let kind = usize::from(glass.kind) - 1;
    SPANS[kind][Loads::of(pane).live_load][thickness_index(glass.thick)][column]
}
