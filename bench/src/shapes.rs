//! The jobs that are measured: five hard shapes, each of any size and each by a fixed seed.
//!
//! The lines have the numbers of real roofs: ids of four digits, span constants of five, heights,
//! winds and slopes that differ from line to line.

use compare::job::Wind;
use compare::random::Random;

use crate::job_text::{job_file, GlassNumbers, PaneNumbers};

#[derive(Clone, Copy, Debug, PartialEq, Eq)]
pub enum Shape {
    /// Every glass passes for every pane, and there is just a sheet for each pane; or one of each
    /// glass, where there are fewer panes.
    AllSuitAll,
    /// A chain of as many links as there are glasses, or panes, where those are fewer: each of the
    /// last panes is served by moving one pane of every link.
    Chain,
    /// Each pane suits an interval of the glasses by size, and a sheet for each pane is all there
    /// is. The glasses stand in no order in the file.
    RandomIntervals,
    /// A roof and a rack as a glazier has them, by all four clauses, with eight panes to a sheet.
    HeavyShortage,
    /// Such a roof and rack again, with the wind on every pane by class and two panes to a sheet.
    HouseRoof,
}

impl Shape {
    pub const ALL: [Shape; 5] = [
        Shape::AllSuitAll,
        Shape::Chain,
        Shape::RandomIntervals,
        Shape::HeavyShortage,
        Shape::HouseRoof,
    ];

    pub fn name(self) -> &'static str {
        match self {
            Shape::AllSuitAll => "all suit all",
            Shape::Chain => "chain",
            Shape::RandomIntervals => "random intervals",
            Shape::HeavyShortage => "heavy shortage",
            Shape::HouseRoof => "house roof",
        }
    }

    /// The job file of this shape with so many glasses and panes.
    pub fn file(self, glass_count: usize, pane_count: usize) -> Vec<u8> {
        let mut random = Random::of_seed(self as u64 + 1);
        let (glasses, panes) = match self {
            Shape::AllSuitAll => all_suit_all(glass_count, pane_count, &mut random),
            Shape::Chain => chain(glass_count, pane_count, &mut random),
            Shape::RandomIntervals => random_intervals(glass_count, pane_count, &mut random),
            Shape::HeavyShortage => heavy_shortage(glass_count, pane_count, &mut random),
            Shape::HouseRoof => house_roof(glass_count, pane_count, &mut random),
        };
        job_file(&glasses, &panes, &mut random)
    }
}

type Lines = (Vec<GlassNumbers>, Vec<PaneNumbers>);

fn all_suit_all(glass_count: usize, pane_count: usize, random: &mut Random) -> Lines {
    let stock = pane_count.div_ceil(glass_count);
    let glasses = (0..glass_count).map(|_| sound_glass(2_400, 3_600, stock, random));
    let glasses = glasses.collect();
    let panes = (0..pane_count).map(|_| {
        let (w, h) = (random.draw(600..=1_600), random.draw(1_000..=1_800));
        fair_pane(w, h, random)
    });
    (glasses, panes.collect())
}

/// The panes of link n suit the glasses n and n + 1 and take n at first; those of the last link
/// suit the glass 0 alone. Where there are fewer panes than glasses, every pane is a link.
fn chain(glass_count: usize, pane_count: usize, random: &mut Random) -> Lines {
    let links = glass_count.min(pane_count);
    let panes_a_link = pane_count / links;
    assert_eq!(panes_a_link * links, pane_count, "the links are even");
    let glasses = (0..glass_count).map(|at| sheet(at, panes_a_link, random));
    let glasses = glasses.collect();
    let panes = (0..pane_count).map(|pane| match pane / panes_a_link {
        link if link == links - 1 => interval(0, 0, random),
        link => interval(link, link + 1, random),
    });
    (glasses, panes.collect())
}

/// Each pane's interval is laid about a sheet that is there for it.
fn random_intervals(glass_count: usize, pane_count: usize, random: &mut Random) -> Lines {
    let reach = glass_count / 8;
    let last = glass_count - 1;
    let mut stocks = vec![0; glass_count];
    let mut panes = Vec::new();
    for _ in 0..pane_count {
        let at = random.draw(0..=last);
        stocks[at] += 1;
        let from = at.saturating_sub(random.draw(0..=reach));
        let to = last.min(at + random.draw(0..=reach));
        panes.push(interval(from, to, random));
    }
    let sheets = stocks.iter().enumerate();
    let mut glasses: Vec<_> = sheets
        .map(|(at, &stock)| sheet(at, stock, random))
        .collect();
    random.shuffle(&mut glasses);
    (glasses, panes)
}

fn heavy_shortage(glass_count: usize, pane_count: usize, random: &mut Random) -> Lines {
    let glasses = any_rack(glass_count, pane_count.div_ceil(8), random);
    let panes = (0..pane_count).map(|_| any_pane(random));
    (glasses, panes.collect())
}

fn house_roof(glass_count: usize, pane_count: usize, random: &mut Random) -> Lines {
    let glasses = any_rack(glass_count, pane_count.div_ceil(2), random);
    let panes = (0..pane_count).map(|_| PaneNumbers {
        wind: Wind::Class {
            class: random.draw(1..=10),
            zone: random.draw(1..=2),
        },
        ..any_pane(random)
    });
    (glasses, panes.collect())
}

/// Any glasses, with so many sheets together.
fn any_rack(glass_count: usize, sheets: usize, random: &mut Random) -> Vec<GlassNumbers> {
    let mut glasses: Vec<_> = (0..glass_count).map(|_| any_glass(random)).collect();
    for _ in 0..sheets {
        glasses[random.below(glass_count)].stock += 1;
    }
    glasses
}

/// What the edge cover takes of each side of a sound glass of 12 mm; of one of 10 mm it takes 16.
const COVERED: usize = 18;

/// The sheets at 0, 1, .. grow wider and less high, so that a pane can be made for any interval of
/// them. None is as wide as any is high: no pane fits one turned.
fn sheet(at: usize, stock: usize, random: &mut Random) -> GlassNumbers {
    sound_glass(
        1_000 + 10 * at + COVERED,
        3_000 - 10 * at + COVERED,
        stock,
        random,
    )
}

/// A pane that the sheets at `from` to `to` cover, and no others.
fn interval(from: usize, to: usize, random: &mut Random) -> PaneNumbers {
    fair_pane(1_000 + 10 * from, 3_000 - 10 * to, random)
}

/// A glass that passes for every fair pane that its sheet covers.
fn sound_glass(w: usize, h: usize, stock: usize, random: &mut Random) -> GlassNumbers {
    GlassNumbers {
        kind: random.draw(1..=3),
        thick: random.pick(&[10, 12]),
        w,
        h,
        two: random.draw(27_000..=39_999),
        four: random.draw(27_000..=39_999),
        stock,
    }
}

/// A pane on four edges, steep enough to bear 0.5 kN only, in moderate wind. With a shorter side up
/// to 1,700 mm it is within the span of every sound glass.
fn fair_pane(w: usize, h: usize, random: &mut Random) -> PaneNumbers {
    PaneNumbers {
        edges: 4,
        angle: random.draw(30..=60),
        awning: 0,
        top: random.draw(2_400..=12_000),
        w,
        h,
        wind: Wind::Pressures {
            down: random.draw(10..=140),
            up: random.draw(10..=240),
        },
    }
}

/// Any glass of a rack, with no sheet yet.
fn any_glass(random: &mut Random) -> GlassNumbers {
    GlassNumbers {
        kind: random.draw(1..=4),
        thick: random.pick(&[6, 8, 10, 12]),
        w: random.pick(&[1_200, 1_800, 2_400]),
        h: random.pick(&[1_800, 2_400, 3_600]),
        two: random.draw(9_000..=21_000),
        four: random.draw(10_000..=24_000),
        stock: 0,
    }
}

/// Any pane of a roof.
fn any_pane(random: &mut Random) -> PaneNumbers {
    let w = random.draw(400..=1_300);
    PaneNumbers {
        edges: random.pick(&[2, 4, 4, 4]),
        angle: random.draw(0..=74),
        awning: usize::from(random.one_in(20)),
        top: random.draw(2_000..=12_000),
        w,
        h: random.draw(w..=2 * w),
        wind: Wind::Pressures {
            down: random.draw(0..=150),
            up: random.draw(0..=250),
        },
    }
}

#[cfg(test)]
mod tests;
