//! That the sort of placing which a file asks for is counted, and the sort of its short group.

use crate::jobs::{
    file, BARE_JOB, BARE_PANE_JOB, EXAMPLE_J, FALLING_JOB, HOUSE_JOB, RIBBON_JOB, SHORT_JOB,
    TWO_PLACES_JOB, UNSORTED_JOB,
};
use crate::tried::{meets, met};

/// The names of the lines that a file meets.
fn names(title: &str, file: &[u8]) -> Vec<&'static str> {
    met(title, file).into_iter().map(|(name, _)| name).collect()
}

fn check(title: &str, cases: &[(&[u8], &[&str])]) {
    for (file, expected) in cases {
        let name = String::from_utf8_lossy(file);
        assert_eq!(names(title, file), *expected, "{name}");
    }
}

#[test]
fn placings() {
    let without_panes = file("G 1 1 6 1 1 1 1 1\n", "");
    check(
        "placings",
        &[
            (b"", &[]),
            (b"T 00000 00000\n", &["no panes, no glasses"]),
            (&without_panes, &["no panes, some glasses"]),
            (
                EXAMPLE_J,
                &["full, some panes", "full only by moving panes"],
            ),
            (
                SHORT_JOB,
                &["short by 1", "short, fewer still by first fit"],
            ),
            (
                BARE_JOB,
                &[
                    "some panes, no glasses",
                    "short by 2 to 9",
                    "short, in separate places",
                    "short, every pane left out",
                ],
            ),
            (
                BARE_PANE_JOB,
                &[
                    "short by 1",
                    "short, fewer still by first fit",
                    "a pane for which no glass passes",
                ],
            ),
            (
                TWO_PLACES_JOB,
                &[
                    "short by 2 to 9",
                    "short, fewer still by first fit",
                    "short, in separate places",
                ],
            ),
        ],
    );
}

/// Glass 1 passes for pane 1 alone, and has no sheet.
#[test]
fn without_stock() {
    let glass = "G 1 3 12 600 600 99999 99999 0\n";
    let pane = "P 1 4 30 0 0 500 500 0 0\n";
    meets(
        "placings",
        [glass, pane],
        &[
            ("short by 1", 1),
            ("short, every pane left out", 1),
            ("a pane whose passing glasses all have stock 0", 1),
        ],
    );
    meets(
        "placings",
        [glass, "P 1 4 30 0 0 600 500 0 0\n"],
        &[
            ("short by 1", 1),
            ("short, every pane left out", 1),
            ("a pane for which no glass passes", 1),
            ("every pane such that no glass passes", 1),
        ],
    );
}

/// Only the last of 64 glasses passes, or none does.
#[test]
fn the_largest_files() {
    let glass = |id: usize, w| format!("G {id} 3 12 {w} 600 99999 99999 300\n");
    let small: String = (1..64).map(|id| glass(id, 500)).collect();
    let pane = |id: usize| format!("P {id} 4 30 0 0 500 500 0 0\n");
    let panes: String = (1..=256).map(pane).collect();
    let with_last = small.clone() + &glass(64, 600);
    meets(
        "placings",
        [&with_last, &panes],
        &[
            ("full, some panes", 1),
            ("64 glasses", 1),
            ("256 panes", 1),
            ("the 64th glass passes", 1),
        ],
    );
    let without_last = small + &glass(64, 500);
    meets(
        "placings",
        [&without_last, &panes],
        &[
            ("short by 10 or more", 1),
            ("short, in separate places", 1),
            ("short, every pane left out", 1),
            ("a pane for which no glass passes", 1),
            ("every pane such that no glass passes", 1),
            ("64 glasses", 1),
            ("256 panes", 1),
        ],
    );
}

#[test]
fn groups() {
    let one_pane = file("", "Q 1 4 30 0 0 100 500 1 1\n");
    check(
        "short groups",
        &[
            (EXAMPLE_J, &[]),
            (BARE_PANE_JOB, &["one pane of several", "letter P alone"]),
            (SHORT_JOB, &["some panes", "letter P alone"]),
            (
                UNSORTED_JOB,
                &["some panes", "ids not in file order", "letter P alone"],
            ),
            (
                FALLING_JOB,
                &[
                    "all panes of several",
                    "ids not in file order",
                    "letter P alone",
                ],
            ),
            (
                &one_pane,
                &[
                    "the only pane",
                    "letter Q alone",
                    "ribbons alone",
                    "a ribbon by class",
                ],
            ),
        ],
    );
}

/// Without glasses, all panes are the group.
#[test]
fn letters_and_ribbons_in_groups() {
    let (p, q) = ("P 2 4 30 0 0 500 500 0 0\n", "Q 1 4 30 0 0 500 500 1 1\n");
    let check = |panes: &[&str], expected: &[&str]| {
        assert_eq!(names("short groups", &file("", &panes.concat())), expected);
    };
    check(
        &[p, q],
        &[
            "all panes of several",
            "ids not in file order",
            "both letters",
            "short by 2 or more, ids not in file order",
        ],
    );
    check(
        &[q, "Q 2 4 30 0 0 500 1501 1 1\n"],
        &[
            "all panes of several",
            "letter Q alone",
            "ribbons and others",
            "a ribbon by class",
            "short by 2 or more, letter Q alone",
            "short by 2 or more, a ribbon by class",
        ],
    );
    check(
        &[q, "P 2 4 30 0 0 500 1501 1 1\n"],
        &["all panes of several", "both letters", "ribbons and others"],
    );
}

/// A ribbon and a pane by class, and a ribbon that is by class, where glass 7 alone passes for the last pane.
#[test]
fn full_placings() {
    let glasses = "G 9 1 12 2400 3600 21304 23857 1\nG 7 1 10 2400 3600 17976 20130 1\n";
    let both = file(glasses, "Q 1 4 30 0 0 250 1250 1 1\n");
    check(
        "full placings",
        &[
            (b"T 00000 00000\n", &[]),
            (SHORT_JOB, &[]),
            (EXAMPLE_J, &[]),
            (
                RIBBON_JOB,
                &["with a ribbon", "only by moving panes, with a ribbon"],
            ),
            (
                HOUSE_JOB,
                &[
                    "with a pane by class",
                    "only by moving panes, with a pane by class",
                ],
            ),
            (
                &both,
                &[
                    "with a ribbon",
                    "with a pane by class",
                    "with a ribbon by class",
                    "with panes by class alone",
                ],
            ),
        ],
    );
    meets(
        "full placings",
        [
            glasses,
            "Q 3 4 30 0 3000 250 1250 1 1\nP 1 4 30 0 3000 2800 700 60 95\n",
        ],
        &[
            ("with a ribbon", 1),
            ("with a pane by class", 1),
            ("with a ribbon by class", 1),
            ("only by moving panes, with a ribbon", 1),
            ("only by moving panes, with a pane by class", 1),
            ("only by moving panes, with a ribbon by class", 1),
        ],
    );
}
