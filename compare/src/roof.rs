//! An accepted job with all its verdicts by document 01, "The four clauses", and document 02, 2026-01
//! to 2026-03 and 2026-06, the greatest number of panes that can be served (2026-05), and whether the
//! ids of a group rise in file order (2026-04).

use crate::clauses::{Loads, PASSES};
use crate::flow::Flow;
use crate::job::Job;

#[derive(Clone, Debug)]
pub struct Roof {
    pub job: Job,
    /// What the clauses need of each pane.
    pub loads: Vec<Loads>,
    /// The verdicts: for each pane, the first clause that each glass fails, or `PASSES`.
    pub clauses: Vec<Vec<usize>>,
    pub flow: Flow,
}

impl Roof {
    pub fn of(job: Job) -> Roof {
        let loads: Vec<Loads> = job.panes().iter().map(Loads::of).collect();
        let verdicts = |loads: &Loads| {
            let glasses = job.glasses().iter();
            glasses.map(|glass| loads.judge(glass)).collect()
        };
        let clauses: Vec<Vec<usize>> = loads.iter().map(verdicts).collect();
        let passing: Vec<Vec<usize>> = clauses.iter().map(|row| passing(row).collect()).collect();
        let stocks: Vec<u16> = job.glasses().iter().map(|glass| glass.stock).collect();
        Roof {
            flow: Flow::of(&passing, &stocks),
            clauses,
            loads,
            job,
        }
    }

    /// The glasses that pass for a pane.
    pub fn passing(&self, pane: usize) -> impl Iterator<Item = usize> + '_ {
        passing(&self.clauses[pane])
    }

    /// How many panes cannot be served.
    pub fn shortage(&self) -> usize {
        self.job.panes().len() - self.flow.most_served
    }

    /// The sheets of all glasses that pass for at least one of these panes, each glass counted once.
    pub fn sheets(&self, panes: &[usize]) -> usize {
        let glasses = self.job.glasses().iter().enumerate();
        let counted = glasses.filter(|&(glass, _)| {
            let mut panes = panes.iter();
            panes.any(|&pane| self.clauses[pane][glass] == PASSES)
        });
        counted.map(|(_, glass)| usize::from(glass.stock)).sum()
    }

    pub fn pane_of_id(&self, id: u32) -> Option<usize> {
        let mut panes = self.job.panes().iter();
        panes.position(|pane| u32::from(pane.id) == id)
    }

    /// Whether a group that is listed in file order has rising ids too.
    pub fn rises_in_file_order(&self, group: &[u32]) -> bool {
        let ids = self.job.panes().iter().map(|pane| u32::from(pane.id));
        ids.filter(|id| group.contains(id)).is_sorted()
    }

    pub fn glass_of_id(&self, id: u32) -> Option<usize> {
        let mut glasses = self.job.glasses().iter();
        glasses.position(|glass| u32::from(glass.id) == id)
    }
}

fn passing(row: &[usize]) -> impl Iterator<Item = usize> + '_ {
    (0..row.len()).filter(|&glass| row[glass] == PASSES)
}
