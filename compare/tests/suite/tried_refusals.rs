//! That each cause of a refusal is counted, in the part where it lies.

use crate::jobs::{file, EXAMPLE_J};
use crate::tried::met;

const FILES: &str = "refused files";
const CALLS: &str = "refused calls on accepted files";

const GLASS: &str = "G 1 1 6 1000 1000 1000 1000 1\n";
const PANE: &str = "P 1 4 30 0 0 500 500 0 0\n";

fn refused(file: &[u8], line: &'static str) {
    assert_eq!(met(FILES, file), [(line, 1)]);
    assert_eq!(met(CALLS, file), []);
}

#[test]
fn causes_beside_the_lines() {
    refused(b"", "1, too few bytes");
    refused(b"T 0000 00000\n", "1, too few bytes");
    refused(&[b'0'; 65_536], "1, too many bytes");
    refused(b"t 00000 00000\n", "2, no trailer");
    refused(b"T 00001 00000\n", "3, offsets out of order");
}

#[test]
fn causes_in_lines() {
    let causes = [
        ("G", "4, form of a glass line", "4, form of a pane line"),
        (
            "value",
            "5, value on a glass line",
            "5, value on a pane line",
        ),
        (
            "id",
            "6, id of an earlier glass line",
            "6, id of an earlier pane line",
        ),
    ];
    for (cause, in_glasses, in_panes) in causes {
        let damaged = |line: &str| match cause {
            "value" => line.replacen(" 1 ", " 0 ", 1),
            "id" => format!("{line}{line}"),
            _ => cause.to_string(),
        };
        refused(&file(&damaged(GLASS), PANE), in_glasses);
        refused(&file(GLASS, &damaged(PANE)), in_panes);
        refused(&file("", &damaged(PANE)), in_panes);
    }
}

/// One field with a value that is not allowed, or two, which are not counted.
#[test]
fn values() {
    const VALUES: &str = "refused with 5 for one value alone";
    let value = |line: &str| met(VALUES, &file("", line));
    assert_eq!(
        met(VALUES, &file("G 1 1 7 1 1 1 1 0\n", "")),
        [("G line, thick", 1)]
    );
    assert_eq!(
        met(VALUES, &file("G 1 1 6 1 1 1 1 1000\n", "")),
        [("G line, stock", 1)]
    );
    assert_eq!(met(VALUES, &file("G 1 5 7 1 1 1 1 0\n", "")), []);
    assert_eq!(value("P 10000 2 0 0 0 1 1 0 0\n"), [("P line, id", 1)]);
    assert_eq!(value("P 1 3 0 0 0 1 1 0 0\n"), [("P line, edges", 1)]);
    assert_eq!(value("P 1 2 0 0 0 1 1 1001 0\n"), [("P line, down", 1)]);
    assert_eq!(value("P 1 2 75 0 0 1 1 1001 0\n"), []);
    assert_eq!(value("Q 1 2 75 0 0 1 1 1 1\n"), [("Q line, angle", 1)]);
    assert_eq!(value("Q 1 2 0 0 0 1 1 11 1\n"), [("Q line, class", 1)]);
    assert_eq!(value("Q 1 2 0 0 0 1 1 10 3\n"), [("Q line, zone", 1)]);
    assert_eq!(value("P 1 2 0 0 0 1 1 0\n"), []);
}

#[test]
fn a_line_too_many() {
    let line = |id| GLASS.replacen('1', &format!("{id}"), 1);
    let glasses: String = (1..=64).map(line).collect();
    assert_eq!(met(FILES, &file(&glasses, PANE)), []);
    refused(&file(&(glasses + "?"), PANE), "8, a glass line too many");
    let line = |id| PANE.replacen('1', &format!("{id}"), 1);
    let panes: String = (1..=256).map(line).collect();
    assert_eq!(met(FILES, &file(GLASS, &panes)), []);
    refused(&file(GLASS, &(panes + "?")), "8, a pane line too many");
}

/// Without panes no list is too short, and each of ten verdicts is asked of a pane that is not there.
#[test]
fn calls() {
    assert_eq!(met(CALLS, b"T 00000 00000\n"), [("10, no such pane", 10)]);
    let of_example = met(CALLS, EXAMPLE_J);
    assert_eq!(of_example[0], ("9, a list too short", 6));
    assert_eq!(of_example[1].0, "10, no such pane");
    let [no_pane, no_glass] = [1, 2].map(|at| of_example.get(at).map_or(0, |line| line.1));
    assert!(no_pane + no_glass <= 10);
}
