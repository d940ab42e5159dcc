//! Job files, and a glass, that the tests share.

use compare::job::{Glass, Job};
use compare::reader::read;
use compare::refusal::Refusal;

/// Example (j) of document 01: every pane can be served, but not by first fit.
pub const EXAMPLE_J: &[u8] = b"G 9 1 12 2400 3600 21304 23857 1
G 7 1 10 2400 3600 17976 20130 1
P 1 4 30 0 3000 900 1500 60 95
P 2 4 10 0 3000 500 1000 60 95
T 00000 00066
";

/// Panes 3 and 4 are short: only glass 9, with one sheet, passes for them. Pane 1 has glass 7.
pub const SHORT_JOB: &[u8] = b"G 9 1 12 2400 3600 21304 23857 1
G 7 1 10 2400 3600 17976 20130 2
P 1 4 30 0 3000 900 1500 60 95
P 3 4 10 0 3000 500 1000 60 95
P 4 4 10 0 3000 500 1000 60 95
T 00000 00066
";

/// Two ribbons, five and four times as long as wide: every pane can be served, but not by first fit.
/// Pane 3 passes with both glasses. Pane 1 passes with glass 9 only, since 10 mm spans 250.
pub const RIBBON_JOB: &[u8] = b"G 9 1 12 2400 3600 21304 23857 1
G 7 1 10 2400 3600 17976 20130 1
P 3 4 30 0 3000 250 1250 60 95
P 1 4 30 0 3000 2800 700 60 95
T 00000 00066
";

/// A pane of 900 by 1500 is cut to 918 by 1518 from glass 9 and to 916 by 1516 from glass 7. Both panes
/// are short: glass 9, with one sheet, is just large enough for them, and glass 7 is 1 mm too small.
pub const CUT_JOB: &[u8] = b"G 9 1 12 918 1518 21304 23857 1
G 7 1 10 1600 915 17976 20130 1
P 1 4 30 0 3000 900 1500 60 95
P 2 4 30 0 3000 1500 900 60 95
T 00000 00064
";

/// A pane by pressures and one by wind class, N5 in zone 2: every pane can be served, but not by first
/// fit. Pane 1 passes with both glasses. Pane 2 passes with glass 9 only, for P is 573 with 10 mm, which
/// glass 7 bears up to 500. In zone 1 it would be 307.
pub const HOUSE_JOB: &[u8] = b"G 9 1 12 2400 3600 21304 23857 1
G 7 1 10 2400 3600 17976 20130 1
P 1 4 30 0 3000 900 1500 60 95
Q 2 4 30 0 3000 900 1500 5 2
T 00000 00066
";

/// Panes 100, 9 and 10 are short, and there is no other short group: only glass 9, with two sheets, passes
/// for them. Pane 55 has glass 7.
pub const UNSORTED_JOB: &[u8] = b"G 9 1 12 2400 3600 21304 23857 2
G 7 1 10 2400 3600 17976 20130 2
P 100 4 10 0 3000 500 1000 60 95
P 9 4 10 0 3000 500 1000 60 95
P 55 4 30 0 3000 900 1500 60 95
P 10 4 10 0 3000 500 1000 60 95
T 00000 00066
";

/// The ids fall in file order. All panes are short, and there is no other short group.
pub const FALLING_JOB: &[u8] = b"G 9 1 12 2400 3600 21304 23857 3
P 9999 4 10 0 3000 500 1000 60 95
P 10 4 10 0 3000 500 1000 60 95
P 9 4 10 0 3000 500 1000 60 95
P 1 4 10 0 3000 500 1000 60 95
T 00000 00033
";

/// Without glasses, either pane is a short group, but only both show the whole shortage.
pub const BARE_JOB: &[u8] = b"P 9999 4 10 0 3000 500 1000 60 95
P 1 4 10 0 3000 500 1000 60 95
T 00000 00000
";

/// Short by 2, in two places that share no glass: only glass 9, with one sheet, passes for panes 3 and 4,
/// and only glass 7, with one sheet, for panes 6 and 5. Pane 1 passes with these and with glass 8. No other
/// group than 3, 4, 5 and 6 shows the whole shortage.
pub const TWO_PLACES_JOB: &[u8] = b"G 9 1 12 600 1100 21304 23857 1
G 7 1 10 2400 3600 17976 20130 1
G 8 1 12 300 400 21304 23857 2
P 1 4 30 0 3000 200 300 60 95
P 3 4 10 0 3000 500 1000 60 95
P 4 4 10 0 3000 500 1000 60 95
P 6 4 30 0 3000 900 1500 60 95
P 5 4 30 0 3000 900 1500 60 95
T 00000 00096
";

/// Example (j), and pane 8, for which no glass passes. The others take all sheets, so that more than one
/// group shows the shortage.
pub const BARE_PANE_JOB: &[u8] = b"G 9 1 12 2400 3600 21304 23857 1
G 7 1 10 2400 3600 17976 20130 1
P 1 4 30 0 3000 900 1500 60 95
P 2 4 10 0 3000 500 1000 60 95
P 8 4 30 0 3000 5000 5000 60 95
T 00000 00066
";

/// A file of these parts, without notes.
pub fn file(glass_part: &str, pane_part: &str) -> Vec<u8> {
    format!("{glass_part}{pane_part}T 00000 {:05}\n", glass_part.len()).into_bytes()
}

/// The refusal of a file of these parts.
pub fn refused(glass_part: &str, pane_part: &str) -> Refusal {
    read(&file(glass_part, pane_part)).expect_err("a refusal")
}

/// The job of a file of these parts.
pub fn accepted(glass_part: &str, pane_part: &str) -> Job {
    read(&file(glass_part, pane_part)).expect("an accepted file")
}

/// A glass that passes for every pane with a span up to 2000 and a live load of 0.5 kN.
pub fn glass() -> Glass {
    Glass {
        id: 1,
        kind: 3,
        thick: 12,
        w: 9999,
        h: 9999,
        two: 99_999,
        four: 99_999,
        stock: 1,
    }
}
