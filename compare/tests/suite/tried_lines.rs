//! That what stands on the lines of an accepted file is counted, and nothing of a refused one.

use crate::jobs::file;
use crate::tried::{meets, met};

#[test]
fn glasses() {
    let glasses =
        "G 1 1 6 1 1 1 1 0\nG 2 2 8 1 1 1 1 1\nG 3 2 12 1 1 1 1 999\nG 4 3 12 1 1 1 1 2\n";
    let expected = [
        ("kind 1", 1),
        ("kind 2", 2),
        ("kind 3", 1),
        ("6 mm", 1),
        ("8 mm", 1),
        ("12 mm", 2),
        ("stock 0", 1),
        ("stock 1", 1),
        ("stock 999", 1),
    ];
    meets("glasses", [glasses, ""], &expected);
    assert_eq!(met("glasses", &file(glasses, "?")), []);
    meets(
        "glasses",
        ["G 1 4 10 1 1 1 1 5\n", ""],
        &[("kind 4", 1), ("10 mm", 1)],
    );
}

#[test]
fn panes() {
    let panes =
        "P 1 2 29 0 0 1 1 0 0\nP 2 4 30 0 0 1 1 0 0\nQ 3 4 30 1 0 1 1 1 1\nQ 4 4 29 1 0 1 1 1 1\n\
                 P 5 4 28 0 0 1 1 0 0\nP 6 4 31 0 0 1 1 0 0\n";
    let expected = [
        ("edges 2", 1),
        ("edges 4", 5),
        ("awning 0", 4),
        ("awning 1", 2),
        ("live load 0.5 kN", 2),
        ("live load 1.1 kN", 2),
        ("live load 1.8 kN", 2),
        ("29 degrees, awning 0", 1),
        ("30 degrees, awning 0", 1),
        ("30 degrees or more, awning 1", 1),
    ];
    meets("panes", ["", panes], &expected);
    assert_eq!(met("panes", &file("?", panes)), []);
}

/// A pane of these sides with four edges, and one with two.
fn check_sides((w, h): (u16, u16), expected: &[(&str, u64)]) {
    let pane = |edges| format!("P 1 {edges} 0 0 0 {w} {h} 0 0\n");
    meets("sides of panes", ["", &pane(4)], expected);
    meets("sides of panes", ["", &pane(2)], &[("two edges", 1)]);
}

#[test]
fn sides() {
    check_sides((900, 900), &[("AR=1", 1)]);
    check_sides((5_000, 5_000), &[("AR=1", 1), ("5000 by 5000", 1)]);
    check_sides((901, 900), &[("AR=2", 1), ("1 mm off equal", 1)]);
    check_sides((900, 1_799), &[("AR=2", 1)]);
    check_sides((900, 1_800), &[("AR=2", 1), ("exactly 2 times", 1)]);
    check_sides((1_801, 900), &[("AR=3", 1), ("1 mm over 2 times", 1)]);
    check_sides((900, 2_700), &[("AR=3", 1), ("exactly 3 times", 1)]);
    check_sides((2_701, 900), &[("ribbon", 1), ("1 mm over 3 times", 1)]);
    check_sides((900, 2_702), &[("ribbon", 1)]);
    check_sides((1, 5_000), &[("ribbon", 1), ("5000 by 1", 1)]);
}
