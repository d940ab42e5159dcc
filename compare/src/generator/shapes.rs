//! Jobs that are hard for document 01, "The placing". The sheets rise in width as they fall in
//! height, so that a pane's sides set any interval of glasses that pass for it.

mod side_by_side;
#[cfg(test)]
mod tests;

use super::easy::strong_glass;
use super::plan::{either_way_round, sizes, Plan};
use super::pressures::least_constant;
use super::winds::Winds;
use crate::clauses::cut_size;
use crate::job::{Glass, Pane, Wind, MOST_PANES};
use crate::random::Random;
use side_by_side::side_by_side;

/// A pane's glasses, first and last. Where the last is before the first, no glass passes.
type Interval = (usize, usize);

/// Widths of the widest pane that the first sheet covers, in mm. With 400 all panes are ribbons, and
/// with 1000 none is. With 700 some are where the rack is large, and with 820 also where it is small.
const FIRST_WIDTHS: [u16; 4] = [400, 700, 820, 1_000];

/// The thicknesses of the sheets, in mm. 6 mm would be too thin for the widest ribbons.
const THICK: [u8; 3] = [8, 10, 12];

/// The pressures on a pane without a class.
const PRESSURES: Wind = Wind::Pressures { down: 60, up: 95 };

pub fn plan(random: &mut Random) -> Plan {
    let (glasses, panes) = sizes(random);
    let (glasses, panes) = (glasses.max(2), panes.max(2));
    let mut shape = match random.below(8) {
        0 => chain(glasses, random),
        1 => nested(glasses, panes, random),
        2 => intervals(glasses, panes, random),
        3 => shortage(glasses, panes, random),
        4 => only_group(random.draw(2..=6), few_or_many(random), random),
        5 => tight(glasses, panes, random),
        _ => side_by_side(random),
    };
    if random.one_in(2) {
        random.shuffle(&mut shape.intervals);
    }
    if random.one_in(4) {
        shape.intervals.reverse();
    }
    shape.plan(random)
}

#[derive(Default)]
struct Shape {
    stocks: Vec<u16>,
    intervals: Vec<Interval>,
}

impl Shape {
    fn plan(&self, random: &mut Random) -> Plan {
        let first_width = random.pick(&FIRST_WIDTHS);
        let winds = Winds::draw(random).choices(PRESSURES);
        let mut plan = Plan::default();
        for (at, &stock) in self.stocks.iter().enumerate() {
            let thick = random.pick(&THICK);
            let kind = random.pick(kinds(first_width, thick));
            let sheet = sheet(first_width, at, (kind, thick), &winds);
            plan.glasses.push(Glass { stock, ..sheet });
        }
        for &interval in &self.intervals {
            let sides = either_way_round(sides(first_width, interval), random);
            plan.panes.push(pane(sides, random.pick(&winds)));
        }
        match random.below(4) {
            0 => random.shuffle(&mut plan.glasses),
            1 => plan.glasses.reverse(),
            _ => {}
        }
        plan.number(random);
        plan
    }
}

/// The sides of the largest pane that all sheets of an interval cover. Every height is above every
/// width, so that no other sheet covers it, either way round.
fn sides(first_width: u16, (first, last): Interval) -> (u16, u16) {
    let width = first_width + 5 * first as u16;
    let height = 2_500 - 5 * last as u16;
    (width, height)
}

/// The sheet at this place, of this kind and thickness and of the cut size of the pane that it alone
/// covers. It just bears that pane in each of these winds.
fn sheet(first_width: u16, at: usize, (kind, thick): (u8, u8), winds: &[Wind]) -> Glass {
    let sides = sides(first_width, (at, at));
    let (w, h) = cut_size(&pane(sides, PRESSURES), thick);
    let least = winds
        .iter()
        .map(|&wind| least_constant(&pane(sides, wind), kind, thick));
    Glass {
        kind,
        thick,
        w,
        h,
        four: least.max().expect("a wind"),
        ..strong_glass()
    }
}

/// The kinds of the sheets of a thickness. All bear the point load on the widest panes:
/// heat-strengthened glass of 8 mm and annealed glass of 10 and 12 mm only where none is a ribbon,
/// annealed glass of 8 mm nowhere.
fn kinds(first_width: u16, thick: u8) -> &'static [u8] {
    match (first_width, thick) {
        (1_000, 8) => &[2, 3, 4],
        (1_000, _) => &[1, 2, 3, 4],
        (_, 8) => &[3, 4],
        _ => &[2, 3, 4],
    }
}

/// A pane of these sides, for which every sheet passes that covers it.
fn pane((w, h): (u16, u16), wind: Wind) -> Pane {
    Pane {
        id: 0,
        edges: 4,
        angle: 45,
        awning: false,
        top: 2_500,
        w,
        h,
        wind,
    }
}

/// Each pane has two neighbouring glasses of one sheet, and a last pane has only an end of the
/// chain, so that all others have to move. At times one pane more, or one sheet less.
fn chain(glasses: usize, random: &mut Random) -> Shape {
    let mut intervals: Vec<Interval> = (0..glasses - 1).map(|at| (at, at + 1)).collect();
    let end = random.pick(&[0, glasses - 1]);
    intervals.push((end, end));
    let mut stocks = vec![1; glasses];
    match random.below(4) {
        0 => intervals.push((0, glasses - 1)),
        1 => stocks[random.below(glasses)] = 0,
        _ => {}
    }
    Shape { stocks, intervals }
}

/// Intervals that all have one end in common.
fn nested(glasses: usize, panes: usize, random: &mut Random) -> Shape {
    let from_front = random.one_in(2);
    let interval = |other| match from_front {
        true => (0, other),
        false => (other, glasses - 1),
    };
    let intervals = (0..panes)
        .map(|_| interval(random.below(glasses)))
        .collect();
    Shape {
        stocks: fair_stocks(glasses, panes, random),
        intervals,
    }
}

fn intervals(glasses: usize, panes: usize, random: &mut Random) -> Shape {
    let intervals = (0..panes).map(|_| any_interval(glasses, random)).collect();
    Shape {
        stocks: fair_stocks(glasses, panes, random),
        intervals,
    }
}

/// Many panes on a narrow interval with few sheets, and many sheets elsewhere.
fn shortage(glasses: usize, panes: usize, random: &mut Random) -> Shape {
    let first = random.below(glasses);
    let last = (first + random.below(4)).min(glasses - 1);
    let mut stocks: Vec<u16> = (0..glasses).map(|_| random.pick(&[0, 1, 5, 999])).collect();
    stocks[first..=last].fill(random.pick(&[0, 1, 2]));
    let many = panes / 2 + random.draw(0..=panes / 2);
    let mut intervals = vec![(first, last); many];
    intervals.extend((many..panes).map(|_| any_interval(glasses, random)));
    Shape { stocks, intervals }
}

/// Numbers of panes. With few glasses, many panes are soon compared.
fn few_or_many(random: &mut Random) -> usize {
    match random.below(4) {
        0 => random.draw(100..=MOST_PANES),
        _ => random.draw(2..=12),
    }
}

/// Panes on the first glasses, which have one sheet less than there are such panes, while every other
/// pane has a glass with more sheets than there are panes. So there is one short group and no other: one
/// pane, some or all.
fn only_group(glasses: usize, panes: usize, random: &mut Random) -> Shape {
    let some = random.draw(1..=panes);
    let group = random.pick(&[1, panes, some, some]);
    let first_glasses = random.draw(1..=glasses - 1);
    let mut stocks = spread(group - 1, first_glasses, random);
    stocks.resize(glasses, 999);
    let mut intervals = vec![(0, first_glasses - 1); group];
    intervals.extend((group..panes).map(|_| {
        let last = random.draw(first_glasses..=glasses - 1);
        (random.draw(0..=last), last)
    }));
    Shape { stocks, intervals }
}

/// As many sheets as panes, and an interval about a sheet for each pane. At times one sheet less.
fn tight(glasses: usize, panes: usize, random: &mut Random) -> Shape {
    let mut stocks = vec![0; glasses];
    let reach = random.draw(1..=6);
    let mut intervals = Vec::new();
    for _ in 0..panes {
        let glass = random.below(glasses);
        stocks[glass] += 1;
        let first = glass - random.below(reach).min(glass);
        let last = (glass + random.below(reach)).min(glasses - 1);
        intervals.push((first, last));
    }
    if random.one_in(3) {
        let glass = random.below(glasses);
        stocks[glass] -= stocks[glass].min(1);
    }
    Shape { stocks, intervals }
}

/// Stocks of so many sheets in all.
fn spread(sheets: usize, glasses: usize, random: &mut Random) -> Vec<u16> {
    let mut stocks = vec![0; glasses];
    for _ in 0..sheets {
        stocks[random.below(glasses)] += 1;
    }
    stocks
}

fn any_interval(glasses: usize, random: &mut Random) -> Interval {
    let (one, other) = (random.below(glasses), random.below(glasses));
    (one.min(other), one.max(other))
}

/// Stocks of about as many sheets as panes.
fn fair_stocks(glasses: usize, panes: usize, random: &mut Random) -> Vec<u16> {
    let most = (2 * panes / glasses + 1) as u16;
    (0..glasses).map(|_| random.draw(0..=most)).collect()
}
