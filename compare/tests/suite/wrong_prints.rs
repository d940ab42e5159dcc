//! What the program printed, which has to be the text that the library gave, and right by itself.

use crate::jobs::{EXAMPLE_J, TWO_PLACES_JOB, UNSORTED_JOB};
use crate::reference::Reference;
use crate::wrong_orders::reverse_short_line;
use compare::comparison::{compare, compare_printed};
use compare::outcome::Outcome;
use compare::random::Random;
use compare::rules::{GREATEST, LEFT, RISING, WHOLE};
use compare::text::REFUSAL;

/// What was expected of the program where it printed this, and the library gave that text.
fn expected(file: &[u8], printed: &[u8], text: &[u8]) -> Vec<String> {
    let mut outcome = Outcome {
        text: text.to_vec(),
        ..Outcome::default()
    };
    compare_printed(file, printed, &mut outcome);
    let findings = outcome.findings.into_iter();
    findings
        .inspect(|finding| assert_eq!(finding.call, "canopy"))
        .map(|finding| finding.expected)
        .collect()
}

/// The text that a right library gives.
fn right_text(file: &[u8]) -> Vec<u8> {
    compare(&Reference, file, &mut Random::of_file(1, 1)).text
}

#[test]
fn right_prints() {
    for file in [EXAMPLE_J, UNSORTED_JOB, TWO_PLACES_JOB, b"--"] {
        let right = right_text(file);
        assert_eq!(expected(file, &right, &right), [""; 0]);
    }
}

/// Document 02, 2026-04: found also where the library gave the same text.
#[test]
fn a_group_out_of_order() {
    let right = right_text(UNSORTED_JOB);
    let wrong = reverse_short_line(&right).into_bytes();
    assert_eq!(expected(UNSORTED_JOB, &wrong, &wrong), [RISING]);
    assert_eq!(
        expected(UNSORTED_JOB, &wrong, &right),
        [&format!("{:?}", String::from_utf8_lossy(&right)), RISING]
    );
}

/// Document 02, 2026-05: found also where the library gave the same text.
#[test]
fn fewer_panes_and_a_part_of_the_shortage() {
    let fewer = b"1 9\n3 0\n4 0\n6 7\n5 0\n2 5\nshort 3 4 5 6\n";
    assert_eq!(expected(TWO_PLACES_JOB, fewer, fewer), [GREATEST]);
    let part = b"1 8\n3 9\n4 0\n6 7\n5 0\n3 5\nshort 3 4\n";
    assert_eq!(expected(TWO_PLACES_JOB, part, part), [WHOLE, LEFT]);
}

/// A right text that is not the one of the library.
#[test]
fn another_text() {
    let right = right_text(UNSORTED_JOB);
    let wrong = reverse_short_line(&right);
    let findings = expected(UNSORTED_JOB, &right, wrong.as_bytes());
    assert_eq!(findings, [format!("{wrong:?}")]);
}

#[test]
fn a_wrong_refusal() {
    let wrong = b"refused 2 0\n";
    assert_eq!(expected(b"--", wrong, wrong), [REFUSAL]);
}
