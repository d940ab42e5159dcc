//! Panes of a span of 100, and the least constant of a glass on them: that of the root of P, times 100
//! and rounded up.

use crate::jobs::glass;
use compare::clauses::{Loads, FAILS_UNIFORM_LOAD, PASSES};
use compare::job::{Glass, Pane, Wind};

/// A four-edge pane of 100 by 100.
pub fn pane(angle: u8, wind: Wind) -> Pane {
    Pane {
        id: 1,
        edges: 4,
        angle,
        w: 100,
        h: 100,
        wind,
        ..Pane::default()
    }
}

/// The verdict by a pane's edges, its angle and wind, and a glass's kind and thickness and its
/// constants "two" and "four".
fn judge(
    edges: u8,
    (angle, wind): (u8, Wind),
    (kind, thick): (u8, u8),
    (two, four): (u32, u32),
) -> usize {
    let pane = Pane {
        edges,
        ..pane(angle, wind)
    };
    let glass = Glass {
        kind,
        thick,
        two,
        four,
        ..glass()
    };
    Loads::of(&pane).judge(&glass)
}

/// This is the least "four" with which a glass of a kind and a thickness bears a pane of four edges.
pub fn check_four_edges(place: (u8, Wind), glass: (u8, u8), least: u32) {
    let judge = |k| judge(4, place, glass, k);
    assert_eq!(judge((1, least)), PASSES, "{place:?} and {glass:?}");
    let weaker = judge((99_999, least - 1));
    assert_eq!(weaker, FAILS_UNIFORM_LOAD, "{place:?} and {glass:?}");
}

/// The same of "two" and a pane of two edges.
pub fn check_two_edges(place: (u8, Wind), glass: (u8, u8), least: u32) {
    let judge = |k| judge(2, place, glass, k);
    assert_eq!(judge((least, 1)), PASSES, "{place:?} and {glass:?}");
    let weaker = judge((least - 1, 99_999));
    assert_eq!(weaker, FAILS_UNIFORM_LOAD, "{place:?} and {glass:?}");
}
