//! Everything that is compared on one file: each public call of document 01, "Glazing covered",
//! with every field and every entry.

use crate::bordavina::{CheckResult, PlaceResult, VerdictResult, TEXT_SIZE};
use crate::calls::Library;
use crate::clauses::verdict_of;
use crate::lent::LentList;
use crate::outcome::Outcome;
use crate::place_call::{check_placed, check_refused, Lists};
use crate::random::Random;
use crate::reader;
use crate::refusal::{Refusal, SHORT_LIST};
use crate::roof::Roof;
use crate::rules::check_flow;
use crate::text::check_text;
use crate::tried::{Reading, Tried};

const ANSWER_MARK: u32 = 0xa000_0000;
const GROUP_MARK: u32 = 0xb000_0000;
const TEXT_MARK: u8 = 0xee;

pub const TEXT_WITHIN: &str = "a text lies within its buffer";
pub const TEXT_LEFT: &str = "bytes beyond the text are untouched";

/// Compares all four calls on a file.
pub fn compare<L: Library>(library: &L, file: &[u8], random: &mut Random) -> Outcome {
    let case = Case {
        library,
        file,
        expected: reader::read(file).map(Roof::of),
    };
    let mut outcome = Outcome::default();
    case.flow(&mut outcome);
    case.check(&mut outcome);
    case.known_ids(&mut outcome);
    case.other_ids(random, &mut outcome);
    case.places(random, &mut outcome);
    case.report(&mut outcome);
    outcome.tally.tried = case.tried(&outcome);
    outcome
}

/// Compares what the program printed of a file with the text that the library gave, and holds it to the
/// rules by itself.
pub fn compare_printed(file: &[u8], printed: &[u8], outcome: &mut Outcome) {
    if printed != outcome.text {
        let expected = format!("{:?}", String::from_utf8_lossy(&outcome.text));
        let came = format!("{:?}", String::from_utf8_lossy(printed));
        outcome.find("canopy", expected, came);
    }
    let expected = reader::read(file).map(Roof::of);
    let expected = expected.as_ref().map_err(|refusal| *refusal);
    outcome.find_broken("canopy", check_text(expected, printed));
}

struct Case<'a, L> {
    library: &'a L,
    file: &'a [u8],
    expected: Result<Roof, Refusal>,
}

impl<L: Library> Case<'_, L> {
    /// Holds the max flow, by which placings are measured, to the rules itself.
    fn flow(&self, outcome: &mut Outcome) {
        if let Ok(roof) = &self.expected {
            outcome.find_broken("max flow", check_flow(roof));
        }
    }

    fn check(&self, outcome: &mut Outcome) {
        let expected = match &self.expected {
            Ok(roof) => {
                outcome.tally.accepted += 1;
                CheckResult {
                    glasses: roof.job.glasses().len(),
                    panes: roof.job.panes().len(),
                    ..CheckResult::default()
                }
            }
            Err(refusal) => CheckResult::from(*refusal),
        };
        let answer = self.library.check(self.file);
        if answer != expected {
            outcome.find("check", format!("{expected:?}"), format!("{answer:?}"));
        }
    }

    /// Verdicts on every pair of a pane and a glass of the file.
    fn known_ids(&self, outcome: &mut Outcome) {
        let Ok(roof) = &self.expected else {
            return;
        };
        for (pane, clauses) in roof.job.panes().iter().zip(&roof.clauses) {
            for (glass, &clause) in roof.job.glasses().iter().zip(clauses) {
                self.verdict(pane.id.into(), glass.id.into(), Ok(clause), outcome);
            }
        }
    }

    /// Verdicts on ids of which most are not in the file, or on a refused file.
    fn other_ids(&self, random: &mut Random, outcome: &mut Outcome) {
        let mut ids = vec![0, 1, 9_999, 10_000, u32::MAX];
        if let Ok(roof) = &self.expected {
            // An id of either part, and the same in its low 16 bits.
            let pane = roof.job.panes().first().map(|pane| pane.id);
            let glass = roof.job.glasses().last().map(|glass| glass.id);
            for id in pane.into_iter().chain(glass).map(u32::from) {
                ids.extend([id, id + 0x1_0000]);
            }
        }
        for _ in 0..10 {
            let (pane_id, glass_id) = (random.pick(&ids), random.pick(&ids));
            let expected = match &self.expected {
                Ok(roof) => verdict_of(&roof.job, pane_id, glass_id),
                Err(refusal) => Err(*refusal),
            };
            self.verdict(pane_id, glass_id, expected, outcome);
        }
    }

    fn verdict(
        &self,
        pane_id: u32,
        glass_id: u32,
        expected: Result<usize, Refusal>,
        outcome: &mut Outcome,
    ) {
        let expected = match expected {
            Ok(clause) => VerdictResult {
                clause,
                ..VerdictResult::default()
            },
            Err(refusal) => {
                outcome.refused_calls.push(refusal.number);
                VerdictResult::from(refusal)
            }
        };
        let answer = self.library.verdict(self.file, pane_id, glass_id);
        if answer != expected {
            let call = format!("verdict on pane {pane_id} and glass {glass_id}");
            outcome.find(&call, format!("{expected:?}"), format!("{answer:?}"));
        }
    }

    /// Placings with lists that are long enough, and with lists that are not.
    fn places(&self, random: &mut Random, outcome: &mut Outcome) {
        let longer = random.draw(1..=9);
        let longest = random.draw(10..=99);
        let Ok(roof) = &self.expected else {
            for (answers, group) in [(0, 0), (longer, longest), (longest, longer)] {
                self.place(answers, group, outcome);
            }
            return;
        };
        let panes = roof.job.panes().len();
        let (answer, lists) = self.place(panes, panes, outcome);
        if answer.placed == answer.wanted {
            outcome.tally.full_placings += 1;
        } else {
            let group = &lists.group.entries()[..answer.group.min(panes)];
            outcome.tally.short_placings += 1;
            outcome.tally.reordered_groups += u64::from(!roof.rises_in_file_order(group));
        }
        self.place(panes + longer, panes + longest, outcome);
        self.place(panes + longest, panes, outcome);
        if panes > 0 {
            let fewer = panes - 1;
            for (answers, group) in [(fewer, panes), (panes, fewer), (fewer, fewer)] {
                self.place(answers, group, outcome);
            }
            self.place(panes + longer, 0, outcome);
            self.place(0, panes + longer, outcome);
            self.place(0, 0, outcome);
        }
    }

    fn place(&self, answers: usize, group: usize, outcome: &mut Outcome) -> (PlaceResult, Lists) {
        let mut lists = Lists {
            answers: LentList::new(answers, ANSWER_MARK),
            group: LentList::new(group, GROUP_MARK),
        };
        let answer = {
            let (answers, group) = (lists.answers.lend(), lists.group.lend());
            self.library.place(self.file, answers, group)
        };
        let broken = match &self.expected {
            Err(refusal) => check_refused(*refusal, &answer, &lists),
            Ok(roof) if answers.min(group) < roof.job.panes().len() => {
                outcome.refused_calls.push(SHORT_LIST);
                check_refused(Refusal::new(SHORT_LIST, 0), &answer, &lists)
            }
            Ok(roof) => check_placed(roof, &answer, &lists),
        };
        let call = format!("place with lists of {answers} and {group}");
        outcome.find_broken(&call, broken);
        (answer, lists)
    }

    /// What the file and the calls on it try.
    fn tried(&self, outcome: &Outcome) -> Tried {
        let roof = self.expected.as_ref().map_err(|refusal| *refusal);
        Tried::by(&Reading::of(self.file, roof, &outcome.refused_calls))
    }

    fn report(&self, outcome: &mut Outcome) {
        let mut buffer = [TEXT_MARK; TEXT_SIZE];
        let length = self.library.report(self.file, &mut buffer);
        let Some((text, rest)) = buffer.split_at_checked(length) else {
            outcome.find("report", TEXT_WITHIN, format!("a length of {length}"));
            return;
        };
        if let Some(at) = rest.iter().position(|&byte| byte != TEXT_MARK) {
            let came = format!("byte {} was set to {}", length + at, rest[at]);
            outcome.find("report", TEXT_LEFT, came);
        }
        let expected = self.expected.as_ref().map_err(|refusal| *refusal);
        outcome.find_broken("report", check_text(expected, text));
        outcome.text = text.to_vec();
    }
}
