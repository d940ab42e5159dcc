//! Roofs of which another number of panes could be served without the covers, or with one maximum dead load
//! for all kinds: document 02, 2026-05 with 2026-02 and with 2026-06.

use super::reading::Verdict;
use super::{named, Lines, Reading, Section};
use crate::clauses::{lies_within, ANNEALED, FAILS_SIZE, PASSES};
use crate::flow::Flow;
use crate::roof::Roof;

pub const SECTION: Section = Section {
    title: "another number served by another reading",
    unit: None,
    names: || named(&NAMES),
    count,
};

const NAMES: [&str; 4] = [
    "more by sight sizes",
    "all by sight sizes, short by cut sizes",
    "fewer with the maximum of kind 1 for all",
    "all, short with the maximum of kind 1 for all",
];

fn count(reading: &Reading, lines: &mut Lines) {
    let Ok(roof) = reading.roof else {
        return;
    };
    let (panes, served) = (roof.job.panes().len(), roof.flow.most_served);
    if served < panes {
        let by_sight = most_served(reading, roof, passes_by_sight_size);
        lines.meet_each(0, [by_sight > served, by_sight == panes]);
    }
    let by_old_maximum = most_served(reading, roof, passes_with_the_maximum_of_kind_1);
    let fewer = by_old_maximum < served;
    lines.meet_each(2, [fewer, fewer && served == panes]);
}

/// How many panes could be served if other glasses passed.
fn most_served(reading: &Reading, roof: &Roof, passes: fn(&Verdict) -> bool) -> usize {
    let same = |verdict: &Verdict| passes(verdict) == (verdict.clause == PASSES);
    if reading.verdicts.iter().all(same) {
        return roof.flow.most_served;
    }
    let glasses = roof.job.glasses();
    let row = |verdicts: &[Verdict]| {
        let glasses = 0..glasses.len();
        glasses.filter(|&glass| passes(&verdicts[glass])).collect()
    };
    let rows: Vec<Vec<usize>> = reading.verdicts.chunks(glasses.len()).map(row).collect();
    let stocks: Vec<u16> = glasses.iter().map(|glass| glass.stock).collect();
    Flow::of(&rows, &stocks).most_served
}

fn passes_by_sight_size(verdict: &Verdict) -> bool {
    let fits_by_sight = || lies_within((verdict.pane.w, verdict.pane.h), verdict.glass);
    match verdict.clause {
        FAILS_SIZE => fits_by_sight() && verdict.passes_on_a_large_sheet(),
        clause => clause == PASSES,
    }
}

fn passes_with_the_maximum_of_kind_1(verdict: &Verdict) -> bool {
    let Verdict { loads, glass, .. } = verdict;
    verdict.clause == PASSES && verdict.bears(loads.pressure(ANNEALED, glass.thick))
}
