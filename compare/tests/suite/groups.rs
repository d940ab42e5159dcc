//! The short groups of generated files that show the whole shortage (document 02, 2026-05). Which one of
//! these is listed is open, so that there are two choices.

use crate::pairs::files;
use crate::reference;
use compare::generator::Kind;
use compare::job::Pane;
use compare::reader::read;
use compare::roof::Roof;
use compare::rules::{check_placing, Placing};
use std::sync::LazyLock;

/// A generated file in which not every pane can be served, as a right library places it.
pub struct ShortFile {
    pub kind: Kind,
    pub roof: &'static Roof,
    pub answers: &'static [u32],
    /// The panes of the short group, in file order.
    pub group: Vec<Pane>,
}

/// Chooses a short group, by places in the file, where these answers leave panes without a glass.
pub type Choice = fn(&Roof, &[u32]) -> Vec<usize>;

/// A short file before a group is chosen.
struct Placed {
    kind: Kind,
    roof: Roof,
    answers: Vec<u32>,
}

/// The short files among the first 3,000 of seed 1.
static PLACED: LazyLock<Vec<Placed>> = LazyLock::new(|| {
    files(3_000)
        .filter_map(|(kind, file)| placed(kind, &file))
        .collect()
});

fn placed(kind: Kind, file: &[u8]) -> Option<Placed> {
    let roof = Roof::of(read(file).ok()?);
    let answers = reference::placed(&roof).answers;
    answers.contains(&0).then_some(Placed {
        kind,
        roof,
        answers,
    })
}

pub fn short_files(choice: Choice) -> Vec<ShortFile> {
    let files = PLACED.iter().map(|placed| ShortFile::of(placed, choice));
    files.collect()
}

impl ShortFile {
    fn of(placed: &'static Placed, choice: Choice) -> ShortFile {
        let Placed {
            kind,
            roof,
            answers,
        } = placed;
        let group = choice(roof, answers).into_iter();
        ShortFile {
            kind: *kind,
            group: group.map(|pane| roof.job.panes()[pane]).collect(),
            answers,
            roof,
        }
    }

    /// The ids of the group, in file order.
    pub fn ids(&self) -> Vec<u32> {
        ids(&self.group)
    }

    /// The ids of the group as they have to be listed.
    pub fn sorted_ids(&self) -> Vec<u32> {
        let mut ids = self.ids();
        ids.sort();
        ids
    }

    pub fn rises_in_file_order(&self) -> bool {
        self.roof.rises_in_file_order(&self.ids())
    }

    /// The rules that this group, by places in the file, breaks when it is listed by id.
    pub fn broken_by(&self, group: &[usize]) -> Vec<&'static str> {
        let panes = self.roof.job.panes();
        let mut ids: Vec<u32> = group.iter().map(|&pane| panes[pane].id.into()).collect();
        ids.sort();
        self.broken(self.answers, &ids)
    }

    /// Whether a pane was given a glass.
    pub fn is_served(&self, pane: &Pane) -> bool {
        let at = self.roof.pane_of_id(pane.id.into());
        self.answers[at.expect("a pane of the file")] != 0
    }

    /// The rules that these answers and this group break.
    pub fn broken(&self, answers: &[u32], group: &[u32]) -> Vec<&'static str> {
        let placing = Placing {
            answers,
            placed: answers.len() - without_glass(answers).len(),
            wanted: answers.len(),
            group,
        };
        let broken = check_placing(self.roof, &placing);
        broken.into_iter().map(|broken| broken.rule).collect()
    }
}

pub fn ids(panes: &[Pane]) -> Vec<u32> {
    panes.iter().map(|pane| pane.id.into()).collect()
}

/// The smallest group that shows the whole shortage: all panes that have no glass, and what follows.
pub fn smallest(roof: &Roof, answers: &[u32]) -> Vec<usize> {
    with_holders(roof, answers, &without_glass(answers))
}

/// The largest group that shows the whole shortage: all panes but those that could have another glass, by
/// moving others over to a sheet that is left.
pub fn largest(roof: &Roof, answers: &[u32]) -> Vec<usize> {
    let glasses = 0..roof.job.glasses().len();
    let mut free: Vec<bool> = glasses
        .map(|glass| holders(roof, answers, glass).len() < stock(roof, glass))
        .collect();
    loop {
        let panes = 0..answers.len();
        let (movable, group): (Vec<usize>, Vec<usize>) =
            panes.partition(|&pane| roof.passing(pane).any(|glass| free[glass]));
        let held = movable
            .iter()
            .filter_map(|&pane| roof.glass_of_id(answers[pane]));
        let held: Vec<usize> = held.filter(|&glass| !free[glass]).collect();
        if held.is_empty() {
            return group;
        }
        held.into_iter().for_each(|glass| free[glass] = true);
    }
}

/// A group of one pane that has no glass, which is short by 1: the smallest of these.
pub fn of_one_pane(roof: &Roof, answers: &[u32]) -> Vec<usize> {
    let panes = without_glass(answers).into_iter();
    let groups = panes.map(|pane| with_holders(roof, answers, &[pane]));
    groups.min_by_key(Vec::len).expect("a pane without a glass")
}

pub fn without_glass(answers: &[u32]) -> Vec<usize> {
    let panes = 0..answers.len();
    panes.filter(|&pane| answers[pane] == 0).collect()
}

/// These panes, all that hold a glass which passes for one of them, and so on.
fn with_holders(roof: &Roof, answers: &[u32], panes: &[usize]) -> Vec<usize> {
    let mut in_group = vec![false; answers.len()];
    let mut left = panes.to_vec();
    while let Some(pane) = left.pop() {
        if in_group[pane] {
            continue;
        }
        in_group[pane] = true;
        for glass in roof.passing(pane) {
            left.extend(holders(roof, answers, glass));
        }
    }
    let members = 0..answers.len();
    members.filter(|&pane| in_group[pane]).collect()
}

/// The panes that have this glass.
fn holders(roof: &Roof, answers: &[u32], glass: usize) -> Vec<usize> {
    let id = u32::from(roof.job.glasses()[glass].id);
    let panes = 0..answers.len();
    panes.filter(|&pane| answers[pane] == id).collect()
}

fn stock(roof: &Roof, glass: usize) -> usize {
    roof.job.glasses()[glass].stock.into()
}
