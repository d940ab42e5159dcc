//! A library that lists the short group in a wrong order in one of its calls (document 02, 2026-04), which
//! the comparison of the file has to find in that call.

use crate::jobs::{BARE_JOB, BARE_PANE_JOB, EXAMPLE_J, FALLING_JOB, SHORT_JOB, UNSORTED_JOB};
use crate::reference::Reference;
use crate::wrong_calls::{found, write};
use compare::bordavina::{CheckResult, PlaceResult, VerdictResult, TEXT_SIZE};
use compare::calls::Library;
use compare::comparison::compare;
use compare::random::Random;
use compare::rules::RISING;

/// The right library, but for one call, which lists the group from the highest id down.
struct Falling {
    call: &'static str,
}

impl Library for Falling {
    fn check(&self, file: &[u8]) -> CheckResult {
        Reference.check(file)
    }

    fn verdict(&self, file: &[u8], pane: u32, glass: u32) -> VerdictResult {
        Reference.verdict(file, pane, glass)
    }

    fn place(&self, file: &[u8], answers: &mut [u32], group: &mut [u32]) -> PlaceResult {
        let answer = Reference.place(file, answers, group);
        if self.call == "place" {
            group[..answer.group].reverse();
        }
        answer
    }

    fn report(&self, file: &[u8], text: &mut [u8; TEXT_SIZE]) -> usize {
        let length = Reference.report(file, text);
        if self.call == "report" {
            let lines = reverse_short_line(&text[..length]);
            write(text, lines.as_bytes());
        }
        length
    }
}

/// A text with the ids of its line `short`, if it has one, the other way round.
pub fn reverse_short_line(text: &[u8]) -> String {
    let text = String::from_utf8(text.to_vec()).expect("a text");
    let Some((lines, ids)) = text.split_once("short ") else {
        return text;
    };
    let ids: Vec<&str> = ids.trim_end().split(' ').rev().collect();
    format!("{lines}short {}\n", ids.join(" "))
}

#[test]
fn found_in_the_call_that_is_wrong() {
    for file in [SHORT_JOB, UNSORTED_JOB, FALLING_JOB, BARE_JOB] {
        for (call, other) in [("place", "report"), ("report", "place")] {
            let library = Falling { call };
            assert!(found(&library, file, call, RISING));
            assert!(!found(&library, file, other, RISING));
        }
    }
}

/// A group of one pane, or none, has no other order.
#[test]
fn nothing_to_find() {
    for file in [BARE_PANE_JOB, EXAMPLE_J] {
        for call in ["place", "report"] {
            let outcome = compare(&Falling { call }, file, &mut Random::of_file(1, 1));
            assert_eq!(outcome.finding_count, 0, "{:?}", outcome.findings);
        }
    }
}
