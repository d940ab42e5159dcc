//! A library that refuses an accepted file in one of its calls, which the comparison of the file has to
//! find.

use crate::jobs::{HOUSE_JOB, RIBBON_JOB};
use crate::reference::Reference;
use crate::wrong_calls::{found, write};
use compare::bordavina::{CheckResult, PlaceResult, VerdictResult, TEXT_SIZE};
use compare::calls::Library;
use compare::place_call::ACCEPTED;
use compare::refusal::Refusal;
use compare::text::FORM;

/// The right library, but for one call, which gives every file this refusal.
struct Refusing {
    call: &'static str,
    refusal: Refusal,
}

impl Refusing {
    /// The refusal where this is the call, or else the right answer.
    fn answer<T: From<Refusal>>(&self, call: &str, right: T) -> T {
        if self.call == call {
            self.refusal.into()
        } else {
            right
        }
    }
}

impl Library for Refusing {
    fn check(&self, file: &[u8]) -> CheckResult {
        self.answer("check", Reference.check(file))
    }

    fn verdict(&self, file: &[u8], pane: u32, glass: u32) -> VerdictResult {
        self.answer("verdict", Reference.verdict(file, pane, glass))
    }

    fn place(&self, file: &[u8], answers: &mut [u32], group: &mut [u32]) -> PlaceResult {
        self.answer("place", Reference.place(file, answers, group))
    }

    fn report(&self, file: &[u8], text: &mut [u8; TEXT_SIZE]) -> usize {
        if self.call == "report" {
            let Refusal { number, offset } = self.refusal;
            write(text, format!("refused {number} {offset}\n").as_bytes())
        } else {
            Reference.report(file, text)
        }
    }
}

/// Whether each call is found out that refuses an accepted file so.
fn found_refused(file: &[u8], refusal: Refusal) -> bool {
    let calls = [
        ("check", "number: 0"),
        ("verdict", "number: 0"),
        ("place", ACCEPTED),
        ("report", FORM),
    ];
    calls
        .into_iter()
        .all(|(call, expected)| found(&Refusing { call, refusal }, file, call, expected))
}

/// Document 02, 2026-01, lets no call give number 7 for the line of the first ribbon.
#[test]
fn ribbons_refused_with_number_7() {
    assert!(found_refused(RIBBON_JOB, Refusal::new(7, 66)));
}

/// Document 02, 2026-03, lets no call refuse a line for its `Q`, nor for a class or zone that is
/// allowed.
#[test]
fn panes_by_class_refused() {
    assert!(found_refused(HOUSE_JOB, Refusal::new(4, 97)));
    assert!(found_refused(HOUSE_JOB, Refusal::new(5, 97)));
}
