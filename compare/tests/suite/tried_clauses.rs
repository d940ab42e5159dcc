//! That verdicts at the edges of clauses 1 to 3 are counted, and others are not.

use crate::tried::meets;

/// Glass of this kind and thickness that is large and strong.
fn glass(kind: u8, thick: u8) -> String {
    format!("G 1 {kind} {thick} 9999 9999 99999 99999 1\n")
}

#[test]
fn first_clauses() {
    meets(
        "first clause that fails",
        [
            "G 1 4 12 2000 3000 99999 99999 1\nG 2 3 12 2000 3000 99999 1000 1\n",
            "P 1 4 30 0 3000 1000 1000 0 0\nP 2 4 30 0 0 3000 3000 0 0\n\
             P 3 2 30 1 0 1900 1900 0 0\n",
        ],
        // Pane 1: 1 and 4. Pane 2: 2 and 2. Pane 3: 3 and 3.
        &[
            ("clause 1", 1),
            ("clause 2", 2),
            ("clause 3", 2),
            ("clause 4", 1),
        ],
    );
}

/// Pane 3 is too wide as well.
#[test]
fn kind_4_about_3000() {
    let panes = "P 1 4 30 0 2999 1000 1000 0 0\nP 2 4 30 0 3000 1000 1000 0 0\n\
                 P 3 4 30 0 3000 3000 3000 0 0\nP 4 4 30 0 3001 1000 1000 0 0\n";
    meets(
        "clause 1 at its edge, kind 4",
        [&glass(4, 12), panes],
        &[
            ("top 2999, any verdict", 1),
            ("top 2999, passes", 1),
            ("top 3000, fails", 2),
            ("top 3000, fails by clause 1 alone", 1),
        ],
    );
    meets("clause 1 at its edge, kind 4", [&glass(3, 12), panes], &[]);
}

/// The sheets for a pane of 900 by 1500 in one thickness.
fn check_sheets(thick: u8, sheets: &[(u16, u16)], expected: &[(&str, u64)]) {
    let line = |(at, (w, h)): (usize, &(u16, u16))| {
        format!("G {} 3 {thick} {w} {h} 99999 99999 1\n", at + 1)
    };
    let glasses: String = sheets.iter().enumerate().map(line).collect();
    let pane = "P 1 4 30 0 0 900 1500 0 0\n";
    meets("clause 2 at its edge", [&glasses, pane], expected);
}

#[test]
fn sheets_of_12_mm() {
    check_sheets(12, &[(919, 1_518), (918, 1_519), (899, 1_500)], &[]);
    check_sheets(
        12,
        &[(918, 1_518)],
        &[("cover 9, sheet of the cut size", 1)],
    );
    check_sheets(
        12,
        &[(1_518, 918)],
        &[("cover 9, sheet of the cut size, turned", 1)],
    );
    check_sheets(
        12,
        &[(917, 1_518), (917, 2_000), (1_517, 918), (918, 1_516)],
        &[
            ("cover 9, 1 mm short in the sheet's w", 3),
            ("cover 9, only the sight size fits", 4),
        ],
    );
    check_sheets(
        12,
        &[(918, 1_517), (1_518, 917), (917, 1_517), (900, 1_500)],
        &[
            ("cover 9, 1 mm short in the sheet's h", 2),
            ("cover 9, 1 mm short in both", 1),
            ("cover 9, only the sight size fits", 4),
        ],
    );
}

/// 8 and 10 mm have one cover.
#[test]
fn sheets_by_cover() {
    let exact = |cover| format!("cover {cover}, sheet of the cut size");
    let short = |cover| format!("cover {cover}, 1 mm short in the sheet's h");
    let fits = |cover| format!("cover {cover}, only the sight size fits");
    for (thick, cover) in [(6, 6), (8, 8), (10, 8), (12, 9)] {
        let (w, h) = (900 + 2 * cover, 1_500 + 2 * cover);
        check_sheets(
            thick,
            &[(w, h), (w, h - 1)],
            &[(&exact(cover), 1), (&short(cover), 1), (&fits(cover), 1)],
        );
    }
}

/// A sheet of the cut size is not at the edge of clause 2 where clause 1 fails.
#[test]
fn a_sheet_where_clause_1_fails() {
    let pane = "P 1 4 30 0 3000 900 1500 0 0\n";
    let glass = "G 1 4 12 918 1518 99999 99999 1\n";
    meets("clause 2 at its edge", [glass, pane], &[]);
}

/// Heat-strengthened glass of 10 mm. Its spans are 1800 in AR=3 and 1600 in the two-edge column at 0.5 kN,
/// and 2000 in AR=1 at 1.1 kN.
#[test]
fn spans_at_the_entry() {
    let panes = "P 1 4 30 0 0 1800 4500 0 0\nP 2 4 30 0 0 4500 1801 0 0\nP 3 4 30 0 0 1799 4500 0 0\n\
                 P 4 4 30 0 0 1802 4500 0 0\nP 5 2 30 0 0 1600 100 0 0\nP 6 2 30 0 0 1601 100 0 0\n\
                 P 7 4 30 0 0 1600 4801 0 0\nP 8 4 30 0 0 1601 5000 0 0\nP 9 4 29 0 0 2000 2000 0 0\n\
                 P 10 4 29 0 0 2001 2001 0 0\nP 11 2 29 1 0 1 1 0 0\n";
    meets(
        "clause 3 at its edge",
        [&glass(2, 10), panes],
        &[
            ("kind 2, 0.5 kN, AR=3, span at the entry", 1),
            ("kind 2, 0.5 kN, AR=3, 1 mm above", 1),
            ("kind 2, 0.5 kN, two edges, span at the entry", 1),
            ("kind 2, 0.5 kN, two edges, 1 mm above", 1),
            ("kind 2, 0.5 kN, ribbon, span at the entry", 1),
            ("kind 2, 0.5 kN, ribbon, 1 mm above", 1),
            ("kind 2, 1.1 kN, AR=1, span at the entry", 1),
            ("kind 2, 1.1 kN, AR=1, 1 mm above", 1),
            ("kind 2, a dash", 1),
        ],
    );
}

/// A span is at the edge of clause 3 also where clause 4 fails, and not where clause 2 does. The same holds
/// of a dash, which the awning reads.
#[test]
fn spans_where_another_clause_fails() {
    let pane = "P 1 4 30 0 0 1800 4500 0 0\n";
    let weak = "G 1 2 10 9999 9999 1 1 1\n";
    let small = "G 1 2 10 1815 4516 99999 99999 1\n";
    let expected = [("kind 2, 0.5 kN, AR=3, span at the entry", 1)];
    meets("clause 3 at its edge", [weak, pane], &expected);
    meets("clause 3 at its edge", [small, pane], &[]);
    let awning = "P 1 2 29 1 0 1800 4500 0 0\n";
    meets(
        "clause 3 at its edge",
        [weak, awning],
        &[("kind 2, a dash", 1)],
    );
    meets("clause 3 at its edge", [small, awning], &[]);
}
