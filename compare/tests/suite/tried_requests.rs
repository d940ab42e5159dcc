//! That what two requests of document 02 ask for together is counted.

use crate::tried::meets;

const RIBBONS: &str = "ribbons by class";
const TEMPERED: &str = "kinds 2 to 4, passes but not with another dead load";
const READINGS: &str = "another number served by another reading";

/// A ribbon of 300 by 1500 is cut to 318 by 1518 from 12 mm. The same pane by pressures is not counted.
#[test]
fn ribbons_about_the_cut_size() {
    let sheet = |w, h| format!("G 1 3 12 {w} {h} 99999 99999 1\n");
    let panes =
        "Q 1 4 30 0 0 300 1500 1 1\nP 2 4 30 0 0 300 1500 44 69\nQ 3 4 30 0 0 600 1500 1 1\n";
    let passes = ("passes", 1);
    let short = ("1 mm short, passes but for it", 1);
    let fits = ("sight size fits, passes but for the covers", 1);
    for (sheet, expected) in [
        (sheet(318, 1_519), vec![passes]),
        (
            sheet(1_518, 318),
            vec![passes, ("passes on a sheet of the cut size", 1)],
        ),
        (sheet(317, 1_518), vec![short, fits]),
        (sheet(316, 1_518), vec![fits]),
        (sheet(299, 1_518), vec![]),
        (sheet(317, 1_518).replace("99999", "1"), vec![]),
    ] {
        meets(RIBBONS, [&sheet, panes], &expected);
    }
}

/// Heat-strengthened glass of 10 mm spans 1600 in the two-edge column at 0.5 kN.
#[test]
fn ribbons_about_the_entry() {
    let glass = "G 1 2 10 9999 9999 99999 99999 1\n";
    let panes =
        "Q 1 4 30 0 0 1600 4900 1 1\nQ 2 4 30 0 0 1601 4900 1 1\nQ 3 4 30 0 0 1602 4900 1 1\n\
                 Q 4 4 30 0 0 1599 4900 1 1\nP 5 4 30 0 0 1600 4900 44 69\n";
    meets(
        RIBBONS,
        [glass, panes],
        &[
            ("passes", 2),
            ("span at the entry", 1),
            ("span 1 mm above the entry", 1),
        ],
    );
}

/// N1 in zone 1 has 44 down. At 30 degrees 12 mm toughened glass has a maximum of 61, so that P is 105, of
/// which the root times 100 is above 1024 and below 1025.
#[test]
fn ribbons_about_the_least_constant() {
    let glasses =
        "G 1 3 12 9999 9999 1 1025 1\nG 2 3 12 9999 9999 1 1024 1\nG 3 3 12 9999 9999 1 1023 1\n";
    meets(
        RIBBONS,
        [glasses, "Q 1 4 30 0 0 100 301 1 1\n"],
        &[("passes", 1), ("least constant", 1), ("constant 1 less", 1)],
    );
}

/// At 30 degrees 12 mm glass of kind 3 has a maximum of 61 and kind 1 one of 98; the minimum is 22, and 31/50
/// of it 13. A constant of 1200 bears a P of 144.
#[test]
fn tempered_glass() {
    let check = |panes: &str, expected: &[(&str, u64)]| {
        let glass = "G 1 3 12 9999 9999 1 1200 1\n";
        meets(TEMPERED, [glass, panes], expected);
        meets(TEMPERED, [&glass.replace("G 1 3", "G 1 1"), panes], &[]);
    };
    // 107 or 144 on kind 1, and 120 or 157.
    check("P 1 4 30 0 0 100 100 46 0\n", &[]);
    check(
        "P 1 4 30 0 0 100 100 59 0\n",
        &[("maximum of kind 1, down governs", 1)],
    );
    // Up is 125, and on kind 1 down is 157.
    check(
        "P 1 4 30 0 0 100 100 59 147\n",
        &[("maximum of kind 1, up governs", 1)],
    );
    // Up is 144, and 153 with the lesser minimum.
    check(
        "P 1 4 30 0 0 100 301 0 166\n",
        &[
            ("31/50 of the minimum, up governs", 1),
            ("31/50 of the minimum, ribbon", 1),
        ],
    );
    // N2 in zone 1 has 60 down and 95 up.
    check(
        "Q 1 4 30 0 0 100 301 2 1\n",
        &[
            ("maximum of kind 1, down governs", 1),
            ("maximum of kind 1, by class", 1),
            ("maximum of kind 1, ribbon", 1),
            ("maximum of kind 1, ribbon by class", 1),
        ],
    );
    // N1 in zone 2 has 44 down and 125 up. Up less 22 is 103, less than 105 down.
    check("Q 1 4 30 0 0 100 100 1 2\n", &[]);
}

#[test]
fn sight_sizes_for_cut_sizes() {
    let sheet = |w| format!("G 1 3 12 {w} 2000 99999 99999 2\n");
    let pane = "P 1 4 30 0 0 900 1500 0 0\n";
    let two = format!("{pane}P 2 4 30 0 0 901 1500 0 0\n");
    let more = ("more by sight sizes", 1);
    let all = ("all by sight sizes, short by cut sizes", 1);
    meets(READINGS, [&sheet(918), pane], &[]);
    meets(READINGS, [&sheet(917), pane], &[more, all]);
    meets(READINGS, [&sheet(900), &two], &[more]);
    meets(READINGS, [&sheet(899), pane], &[]);
    let weak = sheet(917).replace("99999", "1");
    meets(READINGS, [&weak, pane], &[]);
}

/// Pane 1 has a P of 120, or of 157 with the maximum of kind 1. No glass passes for pane 2.
#[test]
fn one_maximum_for_all_kinds() {
    let pane = "P 1 4 30 0 0 100 100 59 0\n";
    let two = format!("{pane}P 2 4 30 0 0 5000 5000 0 0\n");
    let glass = |kind| format!("G 1 {kind} 12 2000 2000 1 1200 1\n");
    let fewer = ("fewer with the maximum of kind 1 for all", 1);
    let short = ("all, short with the maximum of kind 1 for all", 1);
    meets(READINGS, [&glass(2), pane], &[fewer, short]);
    meets(READINGS, [&glass(2), &two], &[fewer]);
    meets(READINGS, [&glass(1), pane], &[]);
    let and_strong = glass(2) + "G 2 1 12 2000 2000 1 99999 1\n";
    meets(READINGS, [&and_strong, pane], &[]);
}
