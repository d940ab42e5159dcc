//! That verdicts at the edge of clause 4 are counted by what governs, by row and by wind class, and others
//! are not.

use crate::tried::meets;

const EDGE: &str = "clause 4 at its edge";
const ROWS: &str = "dead loads by angle, clause 4 at its edge";
const WINDS: &str = "winds, clause 4 at its edge";

/// Glasses of a kind and a thickness with these constants as "two" and "four".
fn glasses(kind: u8, thick: u8, constants: &[(u32, u32)]) -> String {
    let line = |(at, (two, four)): (usize, &(u32, u32))| {
        format!("G {} {kind} {thick} 9999 9999 {two} {four} 1\n", at + 1)
    };
    constants.iter().enumerate().map(line).collect()
}

/// Toughened glass of 12 mm has a maximum of 71 at 0 degrees, so that P is 144 and K times K just B times B
/// times P.
#[test]
fn down_governs() {
    let fours = [(1, 1_201), (1, 1_200), (99_999, 1_199), (99_999, 1_198)];
    meets(
        EDGE,
        [&glasses(3, 12, &fours), "P 1 4 0 0 0 100 100 73 0\n"],
        &[
            ("down governs, kinds 2 to 4, four, least constant", 1),
            ("down governs, kinds 2 to 4, four, 1 less", 1),
            ("K*K is B*B*P, kinds 2 to 4", 1),
        ],
    );
    let twos = [(1_201, 1), (1_200, 1), (1_199, 99_999), (1_198, 99_999)];
    meets(
        EDGE,
        [&glasses(3, 12, &twos), "P 1 2 0 0 0 100 100 73 0\n"],
        &[
            ("down governs, kinds 2 to 4, two, least constant", 1),
            ("down governs, kinds 2 to 4, two, 1 less", 1),
            ("K*K is B*B*P, kinds 2 to 4", 1),
        ],
    );
}

/// Annealed glass of 6 mm has a maximum of 49 and a minimum of 11 at 30 degrees. P is 145, of which the root
/// times 100 is above 1204 and below 1205.
#[test]
fn up_governs() {
    meets(
        EDGE,
        [
            &glasses(1, 6, &[(1, 1_206), (1, 1_205), (1, 1_204), (1, 1_203)]),
            "P 1 4 30 0 0 100 100 95 156\n",
        ],
        &[
            ("up governs, kind 1, four, least constant", 1),
            ("up governs, kind 1, four, 1 less", 1),
        ],
    );
}

/// P is 145 by either pressure, on a ribbon.
#[test]
fn down_and_up_alike() {
    meets(
        EDGE,
        [
            &glasses(1, 12, &[(1, 1_205), (1, 1_204)]),
            "Q 1 4 70 0 0 100 301 4 1\nP 2 4 30 0 0 100 301 47 167\n",
        ],
        &[
            (
                "down and up alike, kind 1, four of a ribbon, least constant",
                1,
            ),
            ("down and up alike, kind 1, four of a ribbon, 1 less", 1),
        ],
    );
}

/// No constant is at the edge where an earlier clause fails.
#[test]
fn an_earlier_clause_fails() {
    let small = "G 1 3 12 117 118 1 1199 1\nG 2 3 12 117 118 1 1200 1\n";
    meets(EDGE, [small, "P 1 4 0 0 0 100 100 73 0\n"], &[]);
}

/// On kind 1 of 12 mm the maximum is twice the figure of the row, 57 at 0 to 9 degrees and 56 at 10. P is 144
/// on all panes but the last.
#[test]
fn rows_of_the_maximum() {
    let panes = "P 1 4 4 0 0 100 100 30 0\nP 2 4 5 0 0 100 100 30 0\nP 3 4 6 0 0 100 100 30 0\n\
                 P 4 4 7 0 0 100 100 30 0\nP 5 4 9 0 0 100 100 30 0\nP 6 4 10 0 0 100 100 32 0\n\
                 P 7 4 0 0 0 100 100 99 0\n";
    meets(
        ROWS,
        [&glasses(1, 12, &[(1, 1_200)]), panes],
        &[
            ("maximum, 4 degrees, just below 5", 1),
            ("maximum, 5 degrees, on the row", 1),
            ("maximum, 6 degrees, just above 5", 1),
            ("maximum, 9 degrees, just below 10", 1),
            ("maximum, 10 degrees, on the row", 1),
        ],
    );
}

/// On 12 mm the minimum is twice the figure of the row: 13 at 0 degrees, 5 at 70 and 3 above. P is 144 on all
/// panes but the last.
#[test]
fn rows_of_the_minimum() {
    let panes = "P 1 4 0 0 0 100 100 0 170\nP 2 4 70 0 0 100 100 0 154\nP 3 4 71 0 0 100 100 0 150\n\
                 P 4 4 72 0 0 100 100 0 150\nP 5 4 74 0 0 100 100 0 150\nP 6 4 70 0 0 100 100 0 199\n";
    meets(
        ROWS,
        [&glasses(1, 12, &[(1, 1_200)]), panes],
        &[
            ("minimum, 0 degrees, on the row", 1),
            ("minimum, 70 degrees, on the row", 1),
            ("minimum, 71 degrees, just above 70", 1),
            ("minimum, 74 degrees, just below 75", 1),
        ],
    );
}

/// N1 has 44 down, and 69 up in zone 1 and 125 in zone 2. At 30 degrees, P is 93 and 114 on annealed glass
/// of 6 mm.
#[test]
fn wind_classes() {
    let panes = "Q 1 4 30 0 0 100 100 1 1\nQ 2 4 30 0 0 100 100 1 2\nP 3 4 30 0 0 100 100 44 69\n";
    meets(
        WINDS,
        [&glasses(1, 6, &[(1, 965)]), panes],
        &[("N1, zone 1", 1)],
    );
    meets(
        WINDS,
        [&glasses(1, 6, &[(1, 1_067)]), panes],
        &[("N1, zone 2", 1)],
    );
    meets(WINDS, [&glasses(1, 6, &[(1, 1_000)]), panes], &[]);
    meets(
        "winds",
        ["", panes],
        &[
            ("letter P", 1),
            ("letter Q", 2),
            ("N1, zone 1", 1),
            ("N1, zone 2", 1),
        ],
    );
}
