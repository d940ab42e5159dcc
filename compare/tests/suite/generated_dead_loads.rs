//! That the generator tries the dead load of every kind (document 02, 2026-06): constants that just
//! bear a pane or just do not, at every row of Table 6.1 and in every thickness, and constants
//! between those that the two dead loads ask for.

use crate::pairs::{
    bears, constant, down_governs, files_with, judge, just_bears, just_fails, p, up_governs, Case,
    FEW, KINDS,
};
use compare::clauses::{FAILS_UNIFORM_LOAD, PASSES, THICKNESSES};
use compare::job::{Glass, Pane};

/// A pressure, and whether it governs on a pane with glass of a kind and a thickness.
type Pressure = (&'static str, fn(&Pane, u8, u8) -> bool);

const DOWN: Pressure = ("down", down_governs);
const UP: Pressure = ("up", up_governs);

/// Whether the constant is just enough, or one too small.
const AT_THE_BOUNDARY: [Case; 2] = [("just bears", just_bears), ("just fails", just_fails)];

/// Each side of the boundary comes up in every kind, where this pressure governs, in each of so many
/// cases.
fn check_boundaries(
    (pressure, governs): Pressure,
    cases: usize,
    holds: impl Fn(usize, &Pane, &Glass) -> bool,
) {
    for kind in KINDS {
        for (side, at_the_boundary) in AT_THE_BOUNDARY {
            let counts = files_with(cases, |at, pane, glass| {
                glass.kind == kind
                    && holds(at, pane, glass)
                    && governs(pane, kind, glass.thick)
                    && at_the_boundary(pane, glass)
            });
            println!("kind {kind}, {pressure} governs, {side}: {counts:?} files");
            assert!(counts.iter().all(|&count| count >= FEW));
        }
    }
}

/// A maximum is of the last row that the angle reaches: of 0 to 70 degrees.
#[test]
fn the_boundaries_at_every_row_of_the_maximum() {
    check_boundaries(DOWN, 15, |row, pane, _| usize::from(pane.angle / 5) == row);
}

/// A minimum is of the first row that the angle does not pass: of 0 to 75 degrees.
#[test]
fn the_boundaries_at_every_row_of_the_minimum() {
    check_boundaries(UP, 16, |row, pane, _| {
        usize::from(pane.angle.div_ceil(5)) == row
    });
}

#[test]
fn the_boundaries_in_every_thickness() {
    for pressure in [DOWN, UP] {
        check_boundaries(pressure, 4, |at, _, glass| glass.thick == THICKNESSES[at]);
    }
}

#[test]
fn the_boundaries_by_edges() {
    for pressure in [DOWN, UP] {
        check_boundaries(pressure, 2, |at, pane, _| pane.edges == [2, 4][at]);
    }
}

/// Constants that bear the lesser dead load and not that of annealed glass, and are beside neither
/// least one.
#[test]
fn constants_between() {
    let counts = files_with(KINDS.len(), |at, pane, glass| {
        glass.kind == KINDS[at] && is_between(pane, glass)
    });
    println!("by kind: {counts:?} files");
    assert!(counts.iter().all(|&count| count >= FEW));
}

fn is_between(pane: &Pane, glass: &Glass) -> bool {
    let k = constant(pane, glass);
    let bears = |kind, k| bears(pane, k, p(pane, kind, glass.thick));
    let verdict = match glass.kind {
        1 => FAILS_UNIFORM_LOAD,
        _ => PASSES,
    };
    judge(pane, glass) == verdict && bears(2, k - 1) && !bears(1, k + 1)
}
