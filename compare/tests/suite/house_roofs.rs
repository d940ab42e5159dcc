//! House roofs by wind class: document 02, 2026-03, with the dead loads of 2026-06. The figures were
//! read from the documents and from Tables 6.1 and A2 of AS 1288 by hand.

use crate::jobs::{glass, EXAMPLE_J, HOUSE_JOB};
use crate::pairs::{down_governs, p};
use crate::small_panes::{check_four_edges, check_two_edges, pane};
use crate::table_a2::{
    classes_and_zones, pressure, right_pressures, ANY_POSITION, DOWN_CAN_GOVERN,
    DOWN_CAN_GOVERN_ON_ALL, GENERAL, NEAR_EDGES, SPEEDS,
};
use compare::clauses::{
    verdict, Loads, FAILS_KIND, FAILS_POINT_LOAD, FAILS_SIZE, FAILS_UNIFORM_LOAD, PASSES,
    THICKNESSES,
};
use compare::job::{Glass, Pane, Wind};
use compare::reader::read;
use compare::roof::Roof;
use compare::tables::ROOF_PRESSURES;

fn class(class: u16, zone: u16) -> Wind {
    Wind::Class { class, zone }
}

#[test]
fn the_two_rows_of_document_02() {
    assert_eq!(class(1, 1).pressures(), (44, 69));
    assert_eq!(class(10, 2).pressures(), (422, 998));
}

/// A test over the table itself, since no verdict depends on the downs of N6, C3 and C4.
#[test]
fn the_thirty_figures() {
    for class in 1..=10 {
        let figures = [ANY_POSITION, GENERAL, NEAR_EDGES].map(|column| pressure(class, column));
        assert_eq!(ROOF_PRESSURES[usize::from(class) - 1], figures, "{class}");
    }
}

/// Figures with one decimal.
#[test]
fn one_decimal_is_tenths() {
    assert_eq!(class(2, 1).pressures(), (60, 95));
    assert_eq!(class(3, 2).pressures(), (95, 270));
    assert_eq!(class(6, 2).pressures(), (280, 799));
}

/// A figure is 0.6 times the square of the speed, in Pa, times the coefficient printed above its column,
/// here in hundredths. An error in copying would show.
#[test]
fn figures_fit_speeds_and_coefficients() {
    for (at, (figures, speed)) in ROOF_PRESSURES.into_iter().zip(SPEEDS).enumerate() {
        let coefficients = match at {
            ..6 => [63, 99, 180],
            _ => [95, 144, 225],
        };
        let worked_out = coefficients.map(|hundredths| {
            let ten_thousandths = 6 * speed * speed * hundredths;
            (ten_thousandths + 5_000) / 10_000
        });
        assert_eq!(figures.map(u32::from), worked_out, "class {}", at + 1);
    }
}

/// At every angle, in every kind and thickness, with constants about the least one.
#[test]
fn the_verdict_of_the_pane_with_the_pressures() {
    for (class_number, zone) in classes_and_zones() {
        for angle in 0..=74 {
            let by_class = pane(angle, class(class_number, zone));
            let by_pressures = pane(angle, right_pressures(class_number, zone));
            for (kind, thick) in kinds_and_thicknesses() {
                assert_eq!(p(&by_class, kind, thick), p(&by_pressures, kind, thick));
                let least = (10_000 * p(&by_pressures, kind, thick)).isqrt();
                for four in [1, least - 1, least, least + 1, 99_999] {
                    let glass = Glass {
                        kind,
                        thick,
                        four,
                        ..glass()
                    };
                    let verdict = Loads::of(&by_pressures).judge(&glass);
                    assert_eq!(Loads::of(&by_class).judge(&glass), verdict);
                }
            }
        }
    }
}

fn kinds_and_thicknesses() -> impl Iterator<Item = (u8, u8)> {
    (1..=4).flat_map(|kind| THICKNESSES.map(|thick| (kind, thick)))
}

/// Angle, thickness, class and zone, and the least constants of annealed glass and of the other kinds.
/// 12 mm at 0 degrees has maximum dead loads of 114 and 71, and a minimum of 26.
const LEAST_CONSTANTS: [(u8, u8, Wind, u32, u32); 11] = [
    // Down governs, with 44: P is 158 and 115.
    (0, 12, Wind::Class { class: 1, zone: 1 }, 1_257, 1_073),
    // The same in zone 2, where up leaves 125 less 26.
    (0, 12, Wind::Class { class: 1, zone: 2 }, 1_257, 1_073),
    // With 143: P is 257 and 214, where up leaves 216 less 26.
    (0, 12, Wind::Class { class: 7, zone: 1 }, 1_604, 1_463),
    // On annealed glass down governs, with 60: P is 174. On the others up does, of 173: P is 147.
    (0, 12, Wind::Class { class: 2, zone: 2 }, 1_320, 1_213),
    // With 207: P is 321. Of 325: P is 299.
    (0, 12, Wind::Class { class: 5, zone: 1 }, 1_792, 1_730),
    // With 212: P is 326. Of 321: P is 295.
    (0, 12, Wind::Class { class: 8, zone: 1 }, 1_806, 1_718),
    // Up governs, of 439: P is 413.
    (0, 12, Wind::Class { class: 6, zone: 1 }, 2_033, 2_033),
    // Up governs: 6 mm at 74 degrees has a minimum dead load of 3. Of 69, P is 66.
    (74, 6, Wind::Class { class: 1, zone: 1 }, 813, 813),
    // Of 270, P is 267.
    (74, 6, Wind::Class { class: 3, zone: 2 }, 1_635, 1_635),
    // Of 216, P is 213.
    (74, 6, Wind::Class { class: 7, zone: 1 }, 1_460, 1_460),
    // Of 998, P is 995.
    (74, 6, Wind::Class { class: 10, zone: 2 }, 3_155, 3_155),
];

/// With two edges, kinds 1 and 2 do not bear the point load in some of the places.
#[test]
fn clause_4_has_the_pressures_of_the_class() {
    for (angle, thick, wind, annealed, others) in LEAST_CONSTANTS {
        check_four_edges((angle, wind), (1, thick), annealed);
        for kind in [2, 3, 4] {
            check_four_edges((angle, wind), (kind, thick), others);
        }
        for kind in [3, 4] {
            check_two_edges((angle, wind), (kind, thick), others);
        }
    }
}

/// The pressure down governs where up less down is under the sum of the dead loads, maximum and
/// minimum. That is at most 140 for annealed glass, with 12 mm at 0 degrees, and at most 97 for the
/// other kinds. Up less down is over that in all other classes and zones.
#[test]
fn downs_that_can_govern() {
    assert_eq!(downs_that_govern(1), DOWN_CAN_GOVERN);
    for kind in [2, 3, 4] {
        assert_eq!(downs_that_govern(kind), DOWN_CAN_GOVERN_ON_ALL);
    }
}

/// The classes and zones in which the pressure down governs at some angle in some thickness.
fn downs_that_govern(kind: u8) -> Vec<(u16, u16)> {
    let can_govern = |&(class_number, zone): &(u16, u16)| {
        let mut places = (0..=74).flat_map(|angle| THICKNESSES.map(|thick| (angle, thick)));
        places.any(|(angle, thick)| {
            down_governs(&pane(angle, class(class_number, zone)), kind, thick)
        })
    };
    classes_and_zones().filter(can_govern).collect()
}

/// The wind is for clause 4 alone.
#[test]
fn the_first_clause_that_fails() {
    let strongest = pane(30, class(10, 2));
    let judge = |pane: Pane, glass: Glass| Loads::of(&pane).judge(&glass);
    let worst = Glass {
        kind: 4,
        thick: 6,
        w: 111,
        four: 1,
        ..glass()
    };
    let high = Pane {
        top: 3000,
        ..strongest
    };
    assert_eq!(judge(high, worst), FAILS_KIND);
    assert_eq!(judge(strongest, worst), FAILS_SIZE);
    let wider = Glass { w: 112, ..worst };
    let awning = Pane {
        awning: true,
        w: 99,
        ..strongest
    };
    assert_eq!(judge(awning, wider), FAILS_POINT_LOAD);
    assert_eq!(judge(strongest, wider), FAILS_UNIFORM_LOAD);
    let stronger = Glass {
        four: 99_999,
        ..wider
    };
    assert_eq!(judge(strongest, stronger), PASSES);
}

/// N2 in zone 1 has the 60 and 95 of the example.
#[test]
fn example_j_by_class() {
    let text = std::str::from_utf8(EXAMPLE_J).expect("a text");
    let by_class = text.replace("P ", "Q ").replace(" 60 95", " 2 1");
    for (pane, glass) in [(1, 9), (1, 7), (2, 9), (2, 7)] {
        let expected = verdict(EXAMPLE_J, pane, glass);
        assert_eq!(verdict(by_class.as_bytes(), pane, glass), expected);
    }
    let job = read(by_class.as_bytes()).expect("an accepted file");
    assert_eq!(Roof::of(job).flow.most_served, 2);
}

#[test]
fn a_job_of_both_letters() {
    assert_eq!(verdict(HOUSE_JOB, 1, 9), Ok(PASSES));
    assert_eq!(verdict(HOUSE_JOB, 1, 7), Ok(PASSES));
    assert_eq!(verdict(HOUSE_JOB, 2, 9), Ok(PASSES));
    assert_eq!(verdict(HOUSE_JOB, 2, 7), Ok(FAILS_UNIFORM_LOAD));
    let job = read(HOUSE_JOB).expect("an accepted file");
    assert_eq!(job.panes()[0].wind, Wind::Pressures { down: 60, up: 95 });
    assert_eq!(job.panes()[1].wind, class(5, 2));
    assert_eq!(Roof::of(job).flow.most_served, 2);
}
