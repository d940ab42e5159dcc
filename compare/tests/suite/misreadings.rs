//! Likely misreadings of document 02, 2026-01. Each case is a generated pair of a pane and a glass on
//! which the misreading gives another verdict, so that a library with it is found.

use crate::pairs::{each_comes_up, judge, two_for_four};
use compare::clauses::{FAILS_KIND, FAILS_SIZE, FAILS_UNIFORM_LOAD, PASSES};
use compare::job::{Glass, Pane};

#[test]
fn column_ar_3_for_ribbons() {
    each_comes_up(&[
        ("AR=3 where w is longer", |pane, glass| {
            pane.is_ribbon() && pane.w > pane.h && differs_by_ar_3(pane, glass)
        }),
        ("AR=3 where h is longer", |pane, glass| {
            pane.is_ribbon() && pane.h > pane.w && differs_by_ar_3(pane, glass)
        }),
        ("AR=3 under 4 times", |pane, glass| {
            pane.is_ribbon()
                && pane.longer_side() < 4 * pane.shorter_side()
                && differs_by_ar_3(pane, glass)
        }),
        ("AR=3 at one mm over 3 times, w longer", |pane, glass| {
            four_edge(pane) && pane.w == 3 * pane.h + 1 && differs_by_ar_3(pane, glass)
        }),
        ("AR=3 at one mm over 3 times, h longer", |pane, glass| {
            four_edge(pane) && pane.h == 3 * pane.w + 1 && differs_by_ar_3(pane, glass)
        }),
    ]);
}

#[test]
fn two_edge_column_for_panes_that_are_no_ribbons() {
    each_comes_up(&[
        ("a ribbon at 3 times, w longer", |pane, glass| {
            four_edge(pane) && pane.w == 3 * pane.h && differs_by_two_edge(pane, glass)
        }),
        ("a ribbon at 3 times, h longer", |pane, glass| {
            four_edge(pane) && pane.h == 3 * pane.w && differs_by_two_edge(pane, glass)
        }),
        (
            "a ribbon at one mm under 3 times, w longer",
            |pane, glass| {
                four_edge(pane) && pane.w + 1 == 3 * pane.h && differs_by_two_edge(pane, glass)
            },
        ),
        (
            "a ribbon at one mm under 3 times, h longer",
            |pane, glass| {
                four_edge(pane) && pane.h + 1 == 3 * pane.w && differs_by_two_edge(pane, glass)
            },
        ),
    ]);
}

#[test]
fn span_w_for_ribbons() {
    each_comes_up(&[("the span w", |pane, glass| {
        let two_edge = Pane { edges: 2, ..*pane };
        let four_for_two = Glass {
            two: glass.four,
            ..*glass
        };
        pane.is_ribbon() && judge(pane, glass) != judge(&two_edge, &four_for_two)
    })]);
}

#[test]
fn constant_two_for_ribbons() {
    each_comes_up(&[
        ("two passes where four fails", |pane, glass| {
            pane.is_ribbon()
                && judge(pane, glass) == FAILS_UNIFORM_LOAD
                && judge(pane, &two_for_four(glass)) == PASSES
        }),
        ("two fails where four passes", |pane, glass| {
            pane.is_ribbon()
                && judge(pane, glass) == PASSES
                && judge(pane, &two_for_four(glass)) == FAILS_UNIFORM_LOAD
        }),
    ]);
}

fn four_edge(pane: &Pane) -> bool {
    pane.edges == 4
}

/// Whether the AR=3 column gives a ribbon another verdict. A pane of exactly 3 times reads it.
fn differs_by_ar_3(pane: &Pane, glass: &Glass) -> bool {
    differs_with_longer_side(pane, glass, 3 * pane.shorter_side())
}

/// Whether the two-edge column gives a pane another verdict. The shortest ribbon reads it.
fn differs_by_two_edge(pane: &Pane, glass: &Glass) -> bool {
    differs_with_longer_side(pane, glass, 3 * pane.shorter_side() + 1)
}

/// Whether the verdict is by clause 3 or 4, and is another with this longer side and room for it.
fn differs_with_longer_side(pane: &Pane, glass: &Glass, longer: u16) -> bool {
    let verdict = judge(pane, glass);
    let read_as = Pane {
        w: pane.shorter_side(),
        h: longer,
        ..*pane
    };
    let roomy = Glass {
        w: 9_999,
        h: 9_999,
        ..*glass
    };
    !matches!(verdict, FAILS_KIND | FAILS_SIZE) && verdict != judge(&read_as, &roomy)
}
