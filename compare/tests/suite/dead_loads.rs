//! Dead loads by kind: document 02, 2026-06. The figures were worked out from the document and from
//! Table 6.1 of AS 1288 by hand.

use crate::jobs::accepted;
use crate::pairs::{down_governs, p, up_governs, KINDS};
use crate::small_panes::{check_four_edges, check_two_edges, pane};
use compare::clauses::THICKNESSES;
use compare::job::Wind;
use compare::roof::Roof;

fn pressures(down: u16, up: u16) -> Wind {
    Wind::Pressures { down, up }
}

/// Without wind, P is the maximum dead load.
fn maximum(angle: u8, kind: u8, thick: u8) -> u32 {
    p(&pane(angle, pressures(0, 0)), kind, thick)
}

/// So much of a pressure up of 1000 is left off.
fn minimum(angle: u8, kind: u8, thick: u8) -> u32 {
    1_000 - p(&pane(angle, pressures(0, 1_000)), kind, thick)
}

#[test]
fn the_figures_of_the_request() {
    assert_eq!(KINDS.map(|kind| maximum(0, kind, 12)), [114, 71, 71, 71]);
}

/// Maximum dead loads of 6, 8, 10 and 12 mm.
type Maxima = [u32; 4];

/// From 0 to 70 degrees, the maxima of kind 1 and those of kinds 2, 3 and 4. With 6 mm, kind 1 has
/// the figures of the table.
const MAXIMA: [(Maxima, Maxima); 15] = [
    // 57 times 31 is 1767: 35.34, 47.12, 58.9 and 70.68.
    ([57, 76, 95, 114], [36, 48, 59, 71]),
    ([57, 76, 95, 114], [36, 48, 59, 71]),
    // 56 times 31 is 1736: 34.72, 46.29, 57.87 and 69.44.
    ([56, 75, 94, 112], [35, 47, 58, 70]),
    // 55 times 31 is 1705: 34.1, 45.47, 56.83 and 68.2.
    ([55, 74, 92, 110], [35, 46, 57, 69]),
    // 54 times 31 is 1674: 33.48, 44.64, 55.8 and 66.96.
    ([54, 72, 90, 108], [34, 45, 56, 67]),
    // 52 times 31 is 1612: 32.24, 42.99, 53.73 and 64.48.
    ([52, 70, 87, 104], [33, 43, 54, 65]),
    // 49 times 31 is 1519: 30.38, 40.51, 50.63 and 60.76.
    ([49, 66, 82, 98], [31, 41, 51, 61]),
    // 47 times 31 is 1457: 29.14, 38.85, 48.57 and 58.28.
    ([47, 63, 79, 94], [30, 39, 49, 59]),
    // 44 times 31 is 1364: 27.28, 36.37, 45.47 and 54.56.
    ([44, 59, 74, 88], [28, 37, 46, 55]),
    // 40 times 31 is 1240: 24.8, 33.07, 41.33 and 49.6.
    ([40, 54, 67, 80], [25, 34, 42, 50]),
    // 37 times 31 is 1147: 22.94, 30.59, 38.23 and 45.88.
    ([37, 50, 62, 74], [23, 31, 39, 46]),
    // 33 times 31 is 1023: 20.46, 27.28, 34.1 and 40.92.
    ([33, 44, 55, 66], [21, 28, 35, 41]),
    // 28 times 31 is 868: 17.36, 23.15, 28.93 and 34.72.
    ([28, 38, 47, 56], [18, 24, 29, 35]),
    // 24 times 31 is 744: 14.88, 19.84, 24.8 and 29.76.
    ([24, 32, 40, 48], [15, 20, 25, 30]),
    // 19 times 31 is 589: 11.78, 15.71, 19.63 and 23.56.
    ([19, 26, 32, 38], [12, 16, 20, 24]),
];

/// At every angle, of which the row at or next below is read.
#[test]
fn every_maximum() {
    for angle in 0..=74 {
        let (annealed, others) = MAXIMA[usize::from(angle / 5)];
        for kind in KINDS {
            let expected = if kind == 1 { annealed } else { others };
            let maxima = THICKNESSES.map(|thick| maximum(angle, kind, thick));
            assert_eq!(maxima, expected, "kind {kind} at {angle} degrees");
        }
    }
}

/// Angle and thickness, 31 times row times thick, and the figure of kinds 2, 3 and 4. Rounding to the
/// nearest would give one less.
const JUST_ABOVE: [(u8, u8, u32, u32); 7] = [
    // 55, 31 and 6: 34.1 is rounded up to 35.
    (15, 6, 10_230, 35),
    // 47, 31 and 6: 29.14.
    (35, 6, 8_742, 30),
    // 57, 31 and 8: 47.12.
    (0, 8, 14_136, 48),
    // 40, 31 and 8: 33.07.
    (45, 8, 9_920, 34),
    // 28, 31 and 8: 23.15.
    (60, 8, 6_944, 24),
    // 33, 31 and 10: 34.1.
    (55, 10, 10_230, 35),
    // 55, 31 and 12: 68.2.
    (15, 12, 20_460, 69),
];

/// The same, where 31/50 of the row rounded up first, or a sixth of row times thick, would give one
/// more.
const JUST_BELOW: [(u8, u8, u32, u32); 6] = [
    // 57, 31 and 12: 70.68. 31/50 of 57 is 35.34: 36 and 12 would give 72.
    (0, 12, 21_204, 71),
    // 54, 31 and 12: 66.96. 31/50 of 54 is 33.48: 34 and 12 would give 68.
    (20, 12, 20_088, 67),
    // 33, 31 and 12: 40.92. 31/50 of 33 is 20.46: 21 and 12 would give 42.
    (55, 12, 12_276, 41),
    // 52, 31 and 8: 42.99. A sixth of 416 is 69.33: 31/50 of 70 is 43.4, and would give 44.
    (25, 8, 12_896, 43),
    // 28, 31 and 10: 28.93. A sixth of 280 is 46.67: 31/50 of 47 is 29.14, and would give 30.
    (60, 10, 8_680, 29),
    // 19, 31 and 8: 15.71. A sixth of 152 is 25.33: 31/50 of 26 is 16.12, and would give 17.
    (70, 8, 4_712, 16),
];

#[test]
fn rounded_up_once() {
    for (angle, thick, product, figure) in JUST_ABOVE.into_iter().chain(JUST_BELOW) {
        assert!(300 * (figure - 1) < product && product <= 300 * figure);
        for kind in [2, 3, 4] {
            assert_eq!(maximum(angle, kind, thick), figure, "{angle}, {thick} mm");
        }
    }
}

/// From 0 to 75 degrees, the minimum dead loads of 6, 8, 10 and 12 mm, of every kind.
const MINIMA: [[u32; 4]; 16] = [
    [13, 17, 21, 26],
    [13, 17, 21, 26],
    [13, 17, 21, 26],
    [13, 17, 21, 26],
    [12, 16, 20, 24],
    [12, 16, 20, 24],
    [11, 14, 18, 22],
    [11, 14, 18, 22],
    [10, 13, 16, 20],
    [9, 12, 15, 18],
    [9, 12, 15, 18],
    [8, 10, 13, 16],
    [7, 9, 11, 14],
    [6, 8, 10, 12],
    [5, 6, 8, 10],
    [3, 4, 5, 6],
];

/// At every angle, of which the row at or next above is read.
#[test]
fn every_minimum_as_before() {
    for angle in 0..=74u8 {
        let expected = MINIMA[usize::from(angle.div_ceil(5))];
        for kind in KINDS {
            let minima = THICKNESSES.map(|thick| minimum(angle, kind, thick));
            assert_eq!(minima, expected, "kind {kind} at {angle} degrees");
        }
    }
}

/// 12 mm at 0 degrees has a minimum of 26 and maxima of 114 and 71.
#[test]
fn the_governing_pressure() {
    let under = |down, up| KINDS.map(|kind| p(&pane(0, pressures(down, up)), kind, 12));
    // Down governs on all.
    assert_eq!(under(50, 0), [164, 121, 121, 121]);
    assert_eq!(under(50, 147), [164, 121, 121, 121]);
    // 148 less 26 is 122: up governs on all but annealed glass.
    assert_eq!(under(50, 148), [164, 122, 122, 122]);
    assert_eq!(under(50, 190), [164, 164, 164, 164]);
    // 191 less 26 is 165: up governs on all, and the kind makes no difference.
    assert_eq!(under(50, 191), [165, 165, 165, 165]);
    assert_eq!(under(0, 1_000), [974, 974, 974, 974]);
    let between = pane(0, pressures(50, 160));
    assert!(down_governs(&between, 1, 12) && !up_governs(&between, 1, 12));
    for kind in [2, 3, 4] {
        assert!(up_governs(&between, kind, 12) && !down_governs(&between, kind, 12));
    }
}

/// Kind, angle, thickness, pressure down, and the least constant.
const LEAST_CONSTANTS: [(u8, u8, u8, u16, u32); 8] = [
    // 114 and 73: P is 187.
    (1, 0, 12, 73, 1_368),
    // 71 and 73: P is 144.
    (2, 0, 12, 73, 1_200),
    (3, 0, 12, 73, 1_200),
    (4, 0, 12, 73, 1_200),
    // 63 and 61, where the others have 39 and 61: P is 124 and 100.
    (1, 35, 8, 61, 1_114),
    (2, 35, 8, 61, 1_000),
    (3, 35, 8, 61, 1_000),
    (4, 35, 8, 61, 1_000),
];

#[test]
fn clause_4_by_kind() {
    for (kind, angle, thick, down, least) in LEAST_CONSTANTS {
        check_four_edges((angle, pressures(down, 0)), (kind, thick), least);
    }
}

/// On two edges 12 mm at 30 degrees spans 700 in kind 1. 98 and 46 are 144, and 61 and 83.
#[test]
fn clause_4_with_two_edges() {
    for (kind, down) in [(1, 46), (2, 83), (3, 83), (4, 83)] {
        check_two_edges((30, pressures(down, 0)), (kind, 12), 1_200);
    }
}

/// Flat panes of 1000 by 1000 and glass of 12 mm, which needs a constant of 8427 for 71, and of 10678
/// for 114.
#[test]
fn fits_and_shortages() {
    let served = |kind: u8, four: u32| {
        let glass = format!("G 9 {kind} 12 2400 3600 1 {four} 2\n");
        let panes = "P 1 4 0 0 2999 1000 1000 0 0\nP 2 4 0 0 2999 1000 1000 0 0\n";
        Roof::of(accepted(&glass, panes)).flow.most_served
    };
    for kind in [2, 3, 4] {
        assert_eq!(served(kind, 8_426), 0, "kind {kind}");
        assert_eq!(served(kind, 8_427), 2, "kind {kind}");
    }
    assert_eq!(served(1, 8_427), 0);
    assert_eq!(served(1, 10_677), 0);
    assert_eq!(served(1, 10_678), 2);
}
