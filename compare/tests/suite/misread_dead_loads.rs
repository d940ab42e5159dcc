//! Likely misreadings of document 02, 2026-06, in the dead loads of clause 4. Each case is a
//! generated pair of a pane and a glass on which the misreading gives another verdict, so that a
//! library with it is found.

use crate::pairs::{bears, constant, files_with, judge, not_few};
use compare::clauses::{ANNEALED, FAILS_UNIFORM_LOAD, PASSES};
use compare::job::{Glass, Pane};
use compare::tables::{MAXIMUM_DEAD_LOADS, MINIMUM_DEAD_LOADS};

const OTHERS: [u8; 3] = [2, 3, 4];

/// The figures from which P is worked out. The rows are those of Table 6.1, in units of 0.01 kPa.
struct Figures {
    at_or_below: usize,
    at_or_above: usize,
    thick: u32,
    down: u32,
    up: u32,
}

impl Figures {
    fn of(pane: &Pane, glass: &Glass) -> Figures {
        let (down, up) = pane.wind.pressures();
        Figures {
            at_or_below: usize::from(pane.angle / 5),
            at_or_above: usize::from(pane.angle.div_ceil(5)),
            thick: glass.thick.into(),
            down: down.into(),
            up: up.into(),
        }
    }

    /// The row for the maximum.
    fn row(&self) -> u32 {
        MAXIMUM_DEAD_LOADS[self.at_or_below]
    }

    /// The row for the minimum.
    fn minimum_row(&self) -> u32 {
        MINIMUM_DEAD_LOADS[self.at_or_above]
    }

    /// The maximum of kind 1, which once was that of every kind.
    fn annealed(&self) -> u32 {
        (self.row() * self.thick).div_ceil(6)
    }

    /// The maximum of kinds 2, 3 and 4.
    fn others(&self) -> u32 {
        (self.row() * 31 * self.thick).div_ceil(300)
    }

    fn minimum(&self) -> u32 {
        self.minimum_row() * self.thick / 6
    }

    /// P with this maximum.
    fn p(&self, maximum: u32) -> u32 {
        self.p_of(maximum, self.minimum())
    }

    /// P with these dead loads.
    fn p_of(&self, maximum: u32, minimum: u32) -> u32 {
        let upward = self.up.saturating_sub(minimum);
        upward.max(maximum + self.down)
    }
}

/// The P of a misreading.
type Reading = fn(&Figures) -> u32;

/// In how many files the reading gives a pair of each of these kinds another verdict.
fn found(kinds: &[u8], reading: Reading) -> Vec<usize> {
    files_with(kinds.len(), |at, pane, glass| {
        glass.kind == kinds[at] && differs(pane, glass, reading)
    })
}

/// Each reading is found if it is that of any one of these kinds.
fn each_is_found(kinds: &[u8], readings: &[(&str, Reading)]) {
    for (name, reading) in readings {
        for (kind, count) in kinds.iter().zip(found(kinds, *reading)) {
            not_few(&format!("{name}, kind {kind}"), count);
        }
    }
}

/// Whether clause 4 decides the verdict, and gives another one with the P of a reading.
fn differs(pane: &Pane, glass: &Glass, reading: Reading) -> bool {
    let p = reading(&Figures::of(pane, glass));
    let bears = bears(pane, constant(pane, glass), p);
    match judge(pane, glass) {
        PASSES => !bears,
        FAILS_UNIFORM_LOAD => bears,
        _ => false,
    }
}

#[test]
fn the_right_reading() {
    assert_eq!(found(&[ANNEALED], |it| it.p(it.annealed())), [0]);
    assert_eq!(found(&OTHERS, |it| it.p(it.others())), [0, 0, 0]);
}

/// Also where only one of kinds 2, 3 and 4 is left out.
#[test]
fn the_rule_of_another_kind() {
    each_is_found(&[ANNEALED], &[("new rule", |it| it.p(it.others()))]);
    each_is_found(&OTHERS, &[("old rule", |it| it.p(it.annealed()))]);
}

/// The request leaves the minimum as it is, for every kind.
#[test]
fn the_minimum_too() {
    let readings: [(&str, Reading); 2] = [
        ("minimum by the new rule", |it| {
            let minimum = it.minimum_row() * 31 * it.thick / 300;
            it.p_of(it.others(), minimum)
        }),
        ("minimum by the new rule, rounded up", |it| {
            let minimum = (it.minimum_row() * 31 * it.thick).div_ceil(300);
            it.p_of(it.others(), minimum)
        }),
    ];
    each_is_found(&OTHERS, &readings);
    each_is_found(
        &[ANNEALED],
        &[("minimum alone by the new rule", |it| {
            let minimum = it.minimum_row() * 31 * it.thick / 300;
            it.p_of(it.annealed(), minimum)
        })],
    );
}

#[test]
fn rounded_otherwise() {
    each_is_found(
        &OTHERS,
        &[
            ("rounded down", |it| it.p(it.row() * 31 * it.thick / 300)),
            ("rounded to the nearest", |it| {
                it.p((it.row() * 31 * it.thick + 150) / 300)
            }),
        ],
    );
}

/// Each step is rounded up, or the first one down.
#[test]
fn rounded_in_two_steps() {
    each_is_found(
        &OTHERS,
        &[
            ("31/50 of the row first", |it| {
                it.p(((it.row() * 31).div_ceil(50) * it.thick).div_ceil(6))
            }),
            ("31/50 of the row first, rounded down", |it| {
                it.p((it.row() * 31 / 50 * it.thick).div_ceil(6))
            }),
            ("a sixth of the thickness first", |it| {
                it.p((it.row() * 31 * it.thick.div_ceil(6)).div_ceil(50))
            }),
            ("a sixth of the thickness first, rounded down", |it| {
                it.p((it.row() * 31 * (it.thick / 6)).div_ceil(50))
            }),
            ("the old rule first", |it| {
                it.p((it.annealed() * 31).div_ceil(50))
            }),
            ("the old rule first, rounded down", |it| {
                it.p((it.row() * it.thick / 6 * 31).div_ceil(50))
            }),
        ],
    );
}

/// The right factor is 0.31 for 0.5, which is 31/50.
#[test]
fn another_factor() {
    each_is_found(
        &OTHERS,
        &[
            ("50 for 31", |it| {
                it.p((it.row() * 50 * it.thick).div_ceil(300))
            }),
            ("50/31", |it| it.p((it.row() * 50 * it.thick).div_ceil(186))),
            ("0.31", |it| it.p((it.row() * 31 * it.thick).div_ceil(600))),
            ("0.5", |it| it.p((it.row() * it.thick).div_ceil(12))),
            ("no thickness", |it| it.p((it.row() * 31).div_ceil(50))),
        ],
    );
}

#[test]
fn another_row() {
    each_is_found(
        &OTHERS,
        &[
            ("maximum from the row at or next above", |it| {
                let row = MAXIMUM_DEAD_LOADS[it.at_or_above];
                it.p((row * 31 * it.thick).div_ceil(300))
            }),
            ("minimum from the row at or next below", |it| {
                let row = MINIMUM_DEAD_LOADS[it.at_or_below];
                it.p_of(it.others(), row * it.thick / 6)
            }),
        ],
    );
}

/// Down or up is chosen once for a pane, by the dead load of the other kinds.
#[test]
fn governed_by_the_other_dead_load() {
    fn governed(it: &Figures, chosen_by: u32, maximum: u32) -> u32 {
        let upward = it.up.saturating_sub(it.minimum());
        if chosen_by + it.down > upward {
            maximum + it.down
        } else {
            upward
        }
    }
    each_is_found(
        &OTHERS,
        &[("as on annealed glass", |it| {
            governed(it, it.annealed(), it.others())
        })],
    );
    each_is_found(
        &[ANNEALED],
        &[("as on the other kinds", |it| {
            governed(it, it.others(), it.annealed())
        })],
    );
}
