//! Likely misreadings of document 02, 2026-03, in the pressures of a wind class. Each case is a
//! generated pair of a pane and a glass on which the misreading gives another verdict, so that a library
//! with it is found.

use crate::pairs::{each_comes_up, files_with, judge, not_few};
use crate::table_a2::{
    classes_and_zones, pressure, pressures, right_pressures, up_column, ANY_POSITION,
    DOWN_CAN_GOVERN, GENERAL, NEAR_EDGES, WALLS, WALL_CORNERS,
};
use compare::job::{Glass, Pane, Wind};

/// The wind for which a class and a zone are taken.
type Reading = fn(u16, u16) -> Wind;

fn each_is_found(readings: &[(&str, Reading)]) {
    let counts = files_with(readings.len(), |at, pane, glass| {
        differs(pane, glass, readings[at].1)
    });
    for ((name, _), count) in readings.iter().zip(counts) {
        not_few(name, count);
    }
}

/// Whether a pane by class has another verdict by this reading.
fn differs(pane: &Pane, glass: &Glass, reading: impl Fn(u16, u16) -> Wind) -> bool {
    match pane.wind {
        Wind::Class { class, zone } => differs_with(pane, glass, reading(class, zone)),
        Wind::Pressures { .. } => false,
    }
}

fn differs_with(pane: &Pane, glass: &Glass, wind: Wind) -> bool {
    judge(pane, glass) != judge(&Pane { wind, ..*pane }, glass)
}

fn is_of_class(pane: &Pane, number: u16) -> bool {
    matches!(pane.wind, Wind::Class { class, .. } if class == number)
}

#[test]
fn another_zone() {
    each_is_found(&[
        ("zones exchanged", |class, zone| {
            right_pressures(class, 3 - zone)
        }),
        ("zone 1 for both", |class, _| right_pressures(class, 1)),
        ("zone 2 for both", |class, _| right_pressures(class, 2)),
    ]);
}

#[test]
fn another_column_of_roofs() {
    each_is_found(&[
        ("down from general", |class, zone| {
            pressures(class, GENERAL, up_column(zone))
        }),
        ("down from near edges", |class, zone| {
            pressures(class, NEAR_EDGES, up_column(zone))
        }),
        ("down by zone", |class, zone| {
            pressures(class, up_column(zone), up_column(zone))
        }),
        ("up in zone 1 from any position", |class, zone| {
            let up = [ANY_POSITION, NEAR_EDGES][usize::from(zone) - 1];
            pressures(class, ANY_POSITION, up)
        }),
        ("up in zone 2 from any position", |class, zone| {
            let up = [GENERAL, ANY_POSITION][usize::from(zone) - 1];
            pressures(class, ANY_POSITION, up)
        }),
        (
            "zones 1 and 2 as any position and general",
            |class, zone| {
                let up = [ANY_POSITION, GENERAL][usize::from(zone) - 1];
                pressures(class, ANY_POSITION, up)
            },
        ),
        ("down and up exchanged", |class, zone| {
            pressures(class, up_column(zone), ANY_POSITION)
        }),
        ("no pressure up for the sign", |class, _| Wind::Pressures {
            down: pressure(class, ANY_POSITION),
            up: 0,
        }),
    ]);
}

#[test]
fn columns_of_walls() {
    each_is_found(&[
        ("walls for both directions", |class, _| {
            pressures(class, WALLS, WALL_CORNERS)
        }),
        ("down from walls", |class, zone| {
            pressures(class, WALLS, up_column(zone))
        }),
        ("up from walls", |class, _| {
            pressures(class, ANY_POSITION, WALLS)
        }),
        ("up from corners of walls", |class, _| {
            pressures(class, ANY_POSITION, WALL_CORNERS)
        }),
        ("walls by zone", |class, zone| {
            let up = [WALLS, WALL_CORNERS][usize::from(zone) - 1];
            pressures(class, WALLS, up)
        }),
    ]);
}

/// A serviceability column comes after the ultimate one.
#[test]
fn serviceability_columns() {
    each_is_found(&[
        ("serviceability", |class, zone| {
            pressures(class, ANY_POSITION + 1, up_column(zone) + 1)
        }),
        ("serviceability down", |class, zone| {
            pressures(class, ANY_POSITION + 1, up_column(zone))
        }),
        ("serviceability up", |class, zone| {
            pressures(class, ANY_POSITION, up_column(zone) + 1)
        }),
    ]);
}

/// Each class read as each other one.
#[test]
fn another_class() {
    let pairs = (1..=10).flat_map(|class| (1..=10).map(move |other| (class, other)));
    let others: Vec<(u16, u16)> = pairs.filter(|(class, other)| class != other).collect();
    let counts = files_with(others.len(), |at, pane, glass| {
        let (class, other) = others[at];
        is_of_class(pane, class) && differs(pane, glass, |_, zone| right_pressures(other, zone))
    });
    for ((class, other), count) in others.into_iter().zip(counts) {
        not_few(&format!("class {class} as {other}"), count);
    }
}

/// The rows in another order, or counted from 0.
#[test]
fn another_order_of_classes() {
    const C_FIRST: [u16; 10] = [7, 8, 9, 10, 1, 2, 3, 4, 5, 6];
    each_is_found(&[
        ("one more", |class, zone| {
            right_pressures((class + 1).min(10), zone)
        }),
        ("one less", |class, zone| {
            right_pressures((class - 1).max(1), zone)
        }),
        ("C1 to C4 first", |class, zone| {
            right_pressures(C_FIRST[usize::from(class) - 1], zone)
        }),
        ("C1 to C4 as N1 to N4", |class, zone| {
            right_pressures(if class > 6 { class - 6 } else { class }, zone)
        }),
        ("C1 to C4 as N3 to N6, of the same speeds", |class, zone| {
            right_pressures(if class > 6 { class - 4 } else { class }, zone)
        }),
        ("C1 to C4 two rows too early, from N5", |class, zone| {
            right_pressures(if class > 6 { class - 2 } else { class }, zone)
        }),
        ("N5 and N6 as C1 and C2", |class, zone| {
            let read_as = if matches!(class, 5 | 6) {
                class + 2
            } else {
                class
            };
            right_pressures(read_as, zone)
        }),
    ]);
}

/// Each down that can govern, one more or less. The others are held by the test over the table itself in
/// `house_roofs.rs`.
#[test]
fn a_down_one_off() {
    for off_by in [-1, 1] {
        let counts = files_with(10, |at, pane, glass| {
            let (down, up) = pane.wind.pressures();
            let down = down.wrapping_add_signed(off_by);
            is_of_class(pane, at as u16 + 1)
                && differs_with(pane, glass, Wind::Pressures { down, up })
        });
        for (class, count) in (1..).zip(counts) {
            let name = format!("down of class {class} off by {off_by}");
            if DOWN_CAN_GOVERN.iter().any(|row| row.0 == class) {
                not_few(&name, count);
            } else {
                assert_eq!(count, 0, "{name}");
            }
        }
    }
}

/// Each up, one more or less.
#[test]
fn an_up_one_off() {
    for off_by in [-1, 1] {
        let rows: Vec<(u16, u16)> = classes_and_zones().collect();
        let counts = files_with(rows.len(), |at, pane, glass| {
            let (class, zone) = rows[at];
            let (down, up) = pane.wind.pressures();
            let up = up.wrapping_add_signed(off_by);
            pane.wind == Wind::Class { class, zone }
                && differs_with(pane, glass, Wind::Pressures { down, up })
        });
        for ((class, zone), count) in rows.into_iter().zip(counts) {
            not_few(
                &format!("up of class {class}, zone {zone}, off by {off_by}"),
                count,
            );
        }
    }
}

/// 0.6 as 6 and 2.7 as 27, in units of 0.01 kPa.
#[test]
fn one_decimal_as_hundredths() {
    each_is_found(&[
        ("0.6, down in N2", |class, zone| {
            let (down, up) = right_pressures(class, zone).pressures();
            let down = if class == 2 { 6 } else { down };
            Wind::Pressures { down, up }
        }),
        ("2.7, up in N3 near edges", |class, zone| {
            let (down, up) = right_pressures(class, zone).pressures();
            let up = if (class, zone) == (3, 2) { 27 } else { up };
            Wind::Pressures { down, up }
        }),
    ]);
}

#[test]
fn numbers_taken_by_the_other_letter() {
    each_is_found(&[
        ("class and zone as pressures", |class, zone| {
            Wind::Pressures {
                down: class,
                up: zone,
            }
        }),
        ("class and zone as pressures in kPa", |class, zone| {
            Wind::Pressures {
                down: 100 * class,
                up: 100 * zone,
            }
        }),
        ("no wind", |_, _| Wind::Pressures { down: 0, up: 0 }),
    ]);
    each_comes_up(&[("pressures as class and zone", |pane, glass| {
        match pane.wind {
            Wind::Pressures {
                down: class @ 1..=10,
                up: zone @ 1..=2,
            } => differs_with(pane, glass, right_pressures(class, zone)),
            _ => false,
        }
    })]);
}
