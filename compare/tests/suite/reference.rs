//! A right library made of the second implementation, for the tests to alter. It places by a
//! simple search for moves, so that its counts and groups also check the max flow. Then it sorts the group
//! by id.

use compare::bordavina::{CheckResult, PlaceResult, VerdictResult, TEXT_SIZE};
use compare::calls::Library;
use compare::clauses;
use compare::reader::read;
use compare::refusal::{Refusal, SHORT_LIST};
use compare::roof::Roof;

pub struct Reference;

impl Library for Reference {
    fn check(&self, file: &[u8]) -> CheckResult {
        read(file).map_or_else(CheckResult::from, |job| CheckResult {
            glasses: job.glasses().len(),
            panes: job.panes().len(),
            ..CheckResult::default()
        })
    }

    fn verdict(&self, file: &[u8], pane: u32, glass: u32) -> VerdictResult {
        let verdict = clauses::verdict(file, pane, glass);
        verdict.map_or_else(VerdictResult::from, |clause| VerdictResult {
            clause,
            ..VerdictResult::default()
        })
    }

    fn place(&self, file: &[u8], answers: &mut [u32], short_group: &mut [u32]) -> PlaceResult {
        place_by(placed, file, answers, short_group)
    }

    fn report(&self, file: &[u8], text: &mut [u8; TEXT_SIZE]) -> usize {
        report_by(placed, file, text)
    }
}

/// A placing with its group, as both are listed.
pub struct Placed {
    pub answers: Vec<u32>,
    pub group: Vec<u32>,
}

/// The call `place` of a library that places in this way.
pub fn place_by(
    place: impl Fn(&Roof) -> Placed,
    file: &[u8],
    answers: &mut [u32],
    short_group: &mut [u32],
) -> PlaceResult {
    let roof = match read(file) {
        Ok(job) => Roof::of(job),
        Err(refusal) => return refusal.into(),
    };
    if answers.len().min(short_group.len()) < roof.job.panes().len() {
        return Refusal::new(SHORT_LIST, 0).into();
    }
    let placed = place(&roof);
    answers[..placed.answers.len()].copy_from_slice(&placed.answers);
    short_group[..placed.group.len()].copy_from_slice(&placed.group);
    PlaceResult {
        wanted: placed.answers.len(),
        placed: placed.count(),
        group: placed.group.len(),
        ..PlaceResult::default()
    }
}

/// The call `report` of a library that places in this way.
pub fn report_by(
    place: impl Fn(&Roof) -> Placed,
    file: &[u8],
    text: &mut [u8; TEXT_SIZE],
) -> usize {
    let report = match read(file) {
        Ok(job) => {
            let roof = Roof::of(job);
            place(&roof).text(&roof)
        }
        Err(Refusal { number, offset }) => format!("refused {number} {offset}\n"),
    };
    text[..report.len()].copy_from_slice(report.as_bytes());
    report.len()
}

impl Placed {
    /// How many panes have a glass.
    pub fn count(&self) -> usize {
        self.answers.iter().filter(|&&answer| answer != 0).count()
    }

    pub fn text(&self, roof: &Roof) -> String {
        let mut text = String::new();
        for (pane, glass) in roof.job.panes().iter().zip(&self.answers) {
            text += &format!("{} {glass}\n", pane.id);
        }
        text += &format!("{} {}\n", self.count(), self.answers.len());
        if self.count() != self.answers.len() {
            let ids = self.group.iter().map(|id| format!(" {id}"));
            text += &format!("short{}\n", ids.collect::<String>());
        }
        text
    }
}

/// A right placing. The group has every pane that cannot be served, and all that hold a glass seen on
/// behalf of one of them.
pub fn placed(roof: &Roof) -> Placed {
    let panes = roof.job.panes();
    let mut search = Search::new(roof);
    let mut group = Vec::new();
    for pane in 0..panes.len() {
        search.seen.fill(false);
        if !search.serve(pane) {
            group.extend(search.group_of(pane));
        }
    }
    let glass_id = |glass: usize| u32::from(roof.job.glasses()[glass].id);
    let glasses = search.glass_of.iter();
    let mut group: Vec<u32> = group.iter().map(|&pane| panes[pane].id.into()).collect();
    group.sort();
    group.dedup();
    Placed {
        answers: glasses.map(|glass| glass.map_or(0, glass_id)).collect(),
        group,
    }
}

/// A search for moves that serve one pane more.
struct Search<'a> {
    roof: &'a Roof,
    glass_of: Vec<Option<usize>>,
    /// The glasses that the search for the current pane has seen.
    seen: Vec<bool>,
}

impl Search<'_> {
    fn new(roof: &Roof) -> Search<'_> {
        Search {
            roof,
            glass_of: vec![None; roof.job.panes().len()],
            seen: vec![false; roof.job.glasses().len()],
        }
    }

    fn serve(&mut self, pane: usize) -> bool {
        for glass in self.roof.passing(pane) {
            if self.seen[glass] {
                continue;
            }
            self.seen[glass] = true;
            let holders = self.holders(glass);
            let stock = usize::from(self.roof.job.glasses()[glass].stock);
            let mut holders_iter = holders.iter();
            if holders.len() < stock || holders_iter.any(|&holder| self.serve(holder)) {
                self.glass_of[pane] = Some(glass);
                return true;
            }
        }
        false
    }

    fn holders(&self, glass: usize) -> Vec<usize> {
        let panes = 0..self.glass_of.len();
        panes
            .filter(|&pane| self.glass_of[pane] == Some(glass))
            .collect()
    }

    /// A pane that could not be served, and all that hold a glass seen on its behalf.
    fn group_of(&self, pane: usize) -> Vec<usize> {
        let glasses = (0..self.seen.len()).filter(|&glass| self.seen[glass]);
        let mut group: Vec<usize> = glasses.flat_map(|glass| self.holders(glass)).collect();
        group.push(pane);
        group
    }
}
