//! Roofs that are short in several places at once, or short in one and hard to place in another: document
//! 02, 2026-05.

use super::{any_interval, chain, spread, tight, Shape};
use crate::random::Random;

/// A crowd and one to three other shapes beside it, which share no glass.
pub(super) fn side_by_side(random: &mut Random) -> Shape {
    let mut all = Shape::default();
    all.add(any_crowd(random));
    for _ in 0..random.draw(1..=3) {
        let glasses = random.pick(&[2, 3, 6, 9, 14]);
        all.add(match random.below(6) {
            0 | 1 => any_crowd(random),
            2 | 3 => chain(glasses, random),
            4 => tight(glasses, glasses + random.below(4), random),
            _ => bare(random),
        });
    }
    all
}

impl Shape {
    /// Adds a shape behind the last glass.
    fn add(&mut self, other: Shape) {
        let by = self.stocks.len();
        self.stocks.extend(other.stocks);
        let moved = other.intervals.into_iter();
        let moved = moved.map(|(first, last)| (first + by, last + by));
        self.intervals.extend(moved);
    }
}

fn any_crowd(random: &mut Random) -> Shape {
    if random.one_in(2) {
        crowd(random.draw(1..=4), random)
    } else {
        two_crowds(random)
    }
}

/// Panes on any of these glasses, which have one to four sheets fewer.
pub(super) fn crowd(glasses: usize, random: &mut Random) -> Shape {
    let panes = random.draw(1..=8);
    let fewer = random.draw(1..=panes.min(4));
    Shape {
        stocks: spread(panes - fewer, glasses, random),
        intervals: (0..panes).map(|_| any_interval(glasses, random)).collect(),
    }
}

/// Two crowds with a glass in common. Each is short even with all sheets of that glass.
pub(super) fn two_crowds(random: &mut Random) -> Shape {
    let stocks: Vec<u16> = (0..3).map(|_| random.draw(0..=3)).collect();
    let crowds = random.pick(&[[(0, 1), (1, 2)], [(0, 0), (0, 2)]]);
    let mut intervals = Vec::new();
    for (first, last) in crowds {
        let sheets: u16 = stocks[first..=last].iter().sum();
        let panes = sheets + random.draw(1..=3u16);
        intervals.extend((0..panes).map(|_| (first, last)));
    }
    Shape { stocks, intervals }
}

/// One to three panes for which no glass passes, beside sheets that nobody needs.
fn bare(random: &mut Random) -> Shape {
    Shape {
        stocks: spread(random.below(3), 2, random),
        intervals: vec![(1, 0); random.draw(1..=3)],
    }
}
