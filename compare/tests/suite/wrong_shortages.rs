//! A library that serves fewer panes than it could, or shows only a part of the shortage, in one of its
//! calls (document 02, 2026-05), which the comparison of the file has to find in that call.

use crate::jobs::TWO_PLACES_JOB;
use crate::reference::{place_by, placed, report_by, Placed, Reference};
use crate::wrong_calls::found;
use compare::bordavina::{CheckResult, PlaceResult, VerdictResult, TEXT_SIZE};
use compare::calls::Library;
use compare::roof::Roof;
use compare::rules::{GREATEST, LEFT, SHORT, WHOLE};

/// Answers for panes 1, 3, 4, 6 and 5 of `TWO_PLACES_JOB`, and a group.
type Listed = ([u32; 5], &'static [u32]);

const RIGHT: [u32; 5] = [8, 9, 0, 7, 0];

/// Wrong lists, and a rule that each breaks.
const WRONG: [(&str, Listed, &str); 8] = [
    ("one pane fewer", ([9, 0, 0, 7, 0], &[3, 4, 5, 6]), GREATEST),
    ("two fewer", ([0, 9, 0, 0, 0], &[3, 4, 5, 6]), GREATEST),
    ("the first place", (RIGHT, &[3, 4]), WHOLE),
    ("the second place", (RIGHT, &[5, 6]), LEFT),
    ("the panes that have 0", (RIGHT, &[4, 5]), SHORT),
    ("all panes", (RIGHT, &[1, 3, 4, 5, 6]), WHOLE),
    ("one pane too few", (RIGHT, &[3, 4, 5]), WHOLE),
    ("a pane with 0 too few", (RIGHT, &[3, 5, 6]), LEFT),
];

/// The right library, but for what it lists in one of its calls on `TWO_PLACES_JOB`.
#[derive(Default)]
struct Misplacing {
    /// With lists of 5.
    place: Option<Listed>,
    /// With longer lists.
    place_longer: Option<Listed>,
    report: Option<Listed>,
}

impl Library for Misplacing {
    fn check(&self, file: &[u8]) -> CheckResult {
        Reference.check(file)
    }

    fn verdict(&self, file: &[u8], pane: u32, glass: u32) -> VerdictResult {
        Reference.verdict(file, pane, glass)
    }

    fn place(&self, file: &[u8], answers: &mut [u32], group: &mut [u32]) -> PlaceResult {
        let wrong = match (answers.len(), group.len()) {
            (5, 5) => self.place,
            _ => self.place_longer,
        };
        place_by(|roof| list(wrong, roof), file, answers, group)
    }

    fn report(&self, file: &[u8], text: &mut [u8; TEXT_SIZE]) -> usize {
        report_by(|roof| list(self.report, roof), file, text)
    }
}

/// The wrong lists, if there are any, or right ones.
fn list(wrong: Option<Listed>, roof: &Roof) -> Placed {
    match wrong {
        Some((answers, group)) => Placed {
            answers: answers.to_vec(),
            group: group.to_vec(),
        },
        None => placed(roof),
    }
}

#[test]
fn found_in_the_call_that_is_wrong() {
    for (name, wrong, rule) in WRONG {
        let wrong = Some(wrong);
        let place = Misplacing {
            place: wrong,
            place_longer: wrong,
            report: None,
        };
        let report = Misplacing {
            report: wrong,
            ..Misplacing::default()
        };
        for (library, call, other) in [(place, "place", "report"), (report, "report", "place")] {
            assert!(found(&library, TWO_PLACES_JOB, call, rule), "{name}");
            assert!(!found(&library, TWO_PLACES_JOB, other, rule), "{name}");
        }
    }
}

/// Lists of one length are enough.
#[test]
fn found_with_every_length() {
    let exact = "place with lists of 5 and 5";
    for (name, wrong, rule) in WRONG {
        let as_long = Misplacing {
            place: Some(wrong),
            ..Misplacing::default()
        };
        assert!(found(&as_long, TWO_PLACES_JOB, exact, rule), "{name}");
        let longer = Misplacing {
            place_longer: Some(wrong),
            ..Misplacing::default()
        };
        assert!(found(&longer, TWO_PLACES_JOB, "place", rule), "{name}");
        assert!(!found(&longer, TWO_PLACES_JOB, exact, rule), "{name}");
    }
}
