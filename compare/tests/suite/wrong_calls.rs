//! A library with wrong answers, each of which the comparison of a file has to find.

use crate::jobs::{
    BARE_JOB, BARE_PANE_JOB, CUT_JOB, EXAMPLE_J, FALLING_JOB, HOUSE_JOB, RIBBON_JOB, SHORT_JOB,
    TWO_PLACES_JOB, UNSORTED_JOB,
};
use crate::reference::Reference;
use compare::bordavina::{CheckResult, PlaceResult, VerdictResult, TEXT_SIZE};
use compare::calls::Library;
use compare::clauses::PASSES;
use compare::comparison::{compare, TEXT_LEFT, TEXT_WITHIN};
use compare::place_call::{ACCEPTED, ANSWERS_LEFT, GROUP_LEFT, REFUSED};
use compare::random::Random;
use compare::refusal::{NO_GLASS, NO_PANE, SHORT_LIST};
use compare::rules::{GROUP, PASSING, PLACED, STOCK, WANTED};
use compare::text::FORM;

type AlterCheck = fn(&mut CheckResult);
type AlterVerdict = fn(&mut VerdictResult);
type AlterPlace = fn(&mut PlaceResult, &mut [u32], &mut [u32]);
type AlterReport = fn(&mut usize, &mut [u8; TEXT_SIZE]);

/// The right library, altered in its answers.
#[derive(Default)]
struct Altered {
    check: Option<AlterCheck>,
    verdict: Option<AlterVerdict>,
    place: Option<AlterPlace>,
    report: Option<AlterReport>,
}

impl Library for Altered {
    fn check(&self, file: &[u8]) -> CheckResult {
        let mut answer = Reference.check(file);
        self.check.inspect(|alter| alter(&mut answer));
        answer
    }

    fn verdict(&self, file: &[u8], pane: u32, glass: u32) -> VerdictResult {
        let mut answer = Reference.verdict(file, pane, glass);
        self.verdict.inspect(|alter| alter(&mut answer));
        answer
    }

    fn place(&self, file: &[u8], answers: &mut [u32], group: &mut [u32]) -> PlaceResult {
        let mut answer = Reference.place(file, answers, group);
        self.place
            .inspect(|alter| alter(&mut answer, answers, group));
        answer
    }

    fn report(&self, file: &[u8], text: &mut [u8; TEXT_SIZE]) -> usize {
        let mut length = Reference.report(file, text);
        self.report.inspect(|alter| alter(&mut length, text));
        length
    }
}

/// Whether a comparison of the file finds what was expected to be this, in a call of this name.
pub fn found<L: Library>(library: &L, file: &[u8], call: &str, expected: &str) -> bool {
    let outcome = compare(library, file, &mut Random::of_file(1, 1));
    assert!(outcome.finding_count >= outcome.findings.len());
    let mut findings = outcome.findings.iter();
    findings.any(|finding| finding.call.starts_with(call) && finding.expected.contains(expected))
}

#[test]
fn unaltered_answers() {
    for file in [
        EXAMPLE_J,
        SHORT_JOB,
        RIBBON_JOB,
        CUT_JOB,
        HOUSE_JOB,
        UNSORTED_JOB,
        FALLING_JOB,
        BARE_JOB,
        BARE_PANE_JOB,
        TWO_PLACES_JOB,
        b"",
        b"T 00000 00000\n",
        b"GT 00000 00001\n",
    ] {
        let outcome = compare(&Altered::default(), file, &mut Random::of_file(1, 1));
        assert_eq!(outcome.finding_count, 0, "{:?}", outcome.findings);
    }
}

#[test]
fn altered_checks() {
    let alterations: [AlterCheck; 4] = [
        |answer| answer.number += 1,
        |answer| answer.offset += 1,
        |answer| answer.glasses += 1,
        |answer| answer.panes += 1,
    ];
    for alter in alterations {
        let library = Altered {
            check: Some(alter),
            ..Altered::default()
        };
        assert!(found(&library, EXAMPLE_J, "check", "glasses: 2, panes: 2"));
        assert!(found(
            &library,
            b"--",
            "check",
            "number: 1, offset: 0, glasses: 0"
        ));
    }
}

#[test]
fn altered_verdicts() {
    let alterations: [AlterVerdict; 3] = [
        |answer| answer.number += 1,
        |answer| answer.offset += 1,
        |answer| answer.clause += 1,
    ];
    for alter in alterations {
        let library = Altered {
            verdict: Some(alter),
            ..Altered::default()
        };
        assert!(found(&library, EXAMPLE_J, "verdict", "number: 0"));
        assert!(found(&library, b"--", "verdict", "number: 1"));
    }
    let no_pane_as_no_glass = Altered {
        verdict: Some(|answer| {
            if answer.number == NO_PANE {
                answer.number = NO_GLASS;
            }
        }),
        ..Altered::default()
    };
    assert!(found(
        &no_pane_as_no_glass,
        EXAMPLE_J,
        "verdict",
        "number: 10,"
    ));
}

/// Whether each call is found out that gives pane 2 the glass 7, which fails by this clause.
fn found_passing(file: &[u8], clause: &str) -> bool {
    let verdict = Altered {
        verdict: Some(|answer| answer.clause = PASSES),
        ..Altered::default()
    };
    let place = Altered {
        place: Some(|answer, answers, _| {
            if answer.number == 0 {
                answers[..2].copy_from_slice(&[9, 7]);
                (answer.placed, answer.group) = (2, 0);
            }
        }),
        ..Altered::default()
    };
    let report = Altered {
        report: Some(|length, text| *length = write(text, b"1 9\n2 7\n2 2\n")),
        ..Altered::default()
    };
    found(&verdict, file, "verdict", clause)
        && found(&place, file, "place", PASSING)
        && found(&report, file, "report", PASSING)
}

/// By sight size, both panes could be served.
#[test]
fn sheets_smaller_than_the_cut_size() {
    assert!(found_passing(CUT_JOB, "clause: 2"));
}

/// In zone 1, glass 7 would pass.
#[test]
fn a_glass_too_weak_for_the_zone() {
    assert!(found_passing(HOUSE_JOB, "clause: 4"));
}

/// Writes these lines to the front of a text, and gives their length.
pub fn write(text: &mut [u8], lines: &[u8]) -> usize {
    text[..lines.len()].copy_from_slice(lines);
    lines.len()
}

fn fill_last(list: &mut [u32]) {
    if let Some(last) = list.last_mut() {
        *last = 1;
    }
}

#[test]
fn altered_placings() {
    let alterations: [(AlterPlace, &[u8], &str); 13] = [
        (|answer, _, _| answer.number = 1, EXAMPLE_J, ACCEPTED),
        (|answer, _, _| answer.offset = 1, EXAMPLE_J, ACCEPTED),
        (|answer, _, _| answer.wanted += 1, EXAMPLE_J, WANTED),
        (
            |answer, _, _| answer.placed -= answer.placed.min(1),
            EXAMPLE_J,
            PLACED,
        ),
        (|answer, _, _| answer.group = 1_000, SHORT_JOB, GROUP),
        (|_, answers, _| answers.fill(9), EXAMPLE_J, STOCK),
        (|_, answers, _| answers.fill(9), EXAMPLE_J, ANSWERS_LEFT),
        (|_, _, group| group.fill(1), EXAMPLE_J, GROUP_LEFT),
        (|_, _, group| fill_last(group), SHORT_JOB, GROUP_LEFT),
        (|_, _, group| group.sort(), SHORT_JOB, GROUP_LEFT),
        (|_, answers, _| answers.fill(0), b"--", ANSWERS_LEFT),
        (|_, _, group| group.fill(0), b"--", GROUP_LEFT),
        (|answer, _, _| answer.wanted = 1, b"--", REFUSED),
    ];
    for (at, (alter, file, rule)) in alterations.into_iter().enumerate() {
        let library = Altered {
            place: Some(alter),
            ..Altered::default()
        };
        assert!(found(&library, file, "place", rule), "alteration {at}");
    }
}

#[test]
fn answered_with_lists_that_are_too_short() {
    let library = Altered {
        place: Some(|answer, _, _| {
            if answer.number == SHORT_LIST {
                answer.number = 0;
            }
        }),
        ..Altered::default()
    };
    assert!(found(
        &library,
        EXAMPLE_J,
        "place with lists of 1 and 2",
        REFUSED
    ));
}

#[test]
fn altered_reports() {
    let alterations: [(AlterReport, &str); 4] = [
        (|length, _| *length -= 1, FORM),
        (|length, text| text[*length] = b'\n', TEXT_LEFT),
        (|_, text| text[TEXT_SIZE - 1] = 0, TEXT_LEFT),
        (|length, _| *length = TEXT_SIZE + 1, TEXT_WITHIN),
    ];
    for (at, (alter, rule)) in alterations.into_iter().enumerate() {
        let library = Altered {
            report: Some(alter),
            ..Altered::default()
        };
        assert!(
            found(&library, EXAMPLE_J, "report", rule),
            "alteration {at}"
        );
    }
}
