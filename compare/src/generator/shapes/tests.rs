//! That the sides of a pane set the interval of glasses that pass for it, in every wind of its roof, also
//! where that is none, that there is one short group where there is to be no other, and that crowds are
//! short.

use super::side_by_side::{crowd, side_by_side, two_crowds};
use super::{kinds, only_group, pane, sheet, sides, Shape, FIRST_WIDTHS, PRESSURES, THICK};
use crate::clauses::{Loads, FAILS_SIZE, FAILS_UNIFORM_LOAD, PASSES};
use crate::generator::winds::Winds;
use crate::job::{Glass, Pane, Wind, MOST_GLASSES, MOST_PANES};
use crate::random::Random;
use std::ops::RangeInclusive;

/// The winds of a roof by pressures, by each class, and by both.
fn roofs() -> Vec<Vec<Wind>> {
    let classes = (1..=10).flat_map(|class| [Winds::Class(class), Winds::Mixed(class)]);
    let winds = classes.chain([Winds::Pressures]);
    winds.map(|winds| winds.choices(PRESSURES)).collect()
}

/// The kinds and thicknesses of the sheets for panes that begin with this width.
fn kinds_and_thicknesses(first_width: u16) -> impl Iterator<Item = (u8, u8)> {
    let kinds_in = move |thick| kinds(first_width, thick).iter();
    THICK
        .into_iter()
        .flat_map(move |thick| kinds_in(thick).map(move |&kind| (kind, thick)))
}

/// Every sheet of its interval passes for a pane, and no other, either way round and in every kind and
/// thickness.
#[test]
fn a_pane_passes_with_its_interval_alone() {
    for winds in roofs() {
        for first_width in FIRST_WIDTHS {
            check_roof(first_width, &winds);
        }
    }
}

fn check_roof(first_width: u16, winds: &[Wind]) {
    let places = 0..MOST_GLASSES;
    let sheets = |at| {
        kinds_and_thicknesses(first_width)
            .map(|glass| sheet(first_width, at, glass, winds))
            .collect()
    };
    let rack: Vec<Vec<Glass>> = places.map(sheets).collect();
    for first in 0..MOST_GLASSES {
        for last in first.saturating_sub(1)..MOST_GLASSES {
            let (w, h) = sides(first_width, (first, last));
            for &wind in winds {
                check(&pane((w, h), wind), &rack, first..=last);
                check(&pane((h, w), wind), &rack, first..=last);
            }
        }
    }
}

fn check(pane: &Pane, rack: &[Vec<Glass>], interval: RangeInclusive<usize>) {
    let loads = Loads::of(pane);
    for (at, sheets) in rack.iter().enumerate() {
        let expected = if interval.contains(&at) {
            PASSES
        } else {
            FAILS_SIZE
        };
        for sheet in sheets {
            assert_eq!(loads.judge(sheet), expected, "{pane:?} and {sheet:?}");
        }
    }
}

/// With a constant 1 less, a sheet would be too weak for the widest pane that it covers in one of the
/// winds.
#[test]
fn a_sheet_just_bears_its_widest_pane() {
    for winds in roofs() {
        for first_width in FIRST_WIDTHS {
            for at in 0..MOST_GLASSES {
                for glass in kinds_and_thicknesses(first_width) {
                    check_least(first_width, at, glass, &winds);
                }
            }
        }
    }
}

fn check_least(first_width: u16, at: usize, glass: (u8, u8), winds: &[Wind]) {
    let panes = winds.iter();
    let mut panes = panes.map(|&wind| pane(sides(first_width, (at, at)), wind));
    let sheet = sheet(first_width, at, glass, winds);
    let four = sheet.four - 1;
    let weaker = Glass { four, ..sheet };
    let fails = |pane| Loads::of(&pane).judge(&weaker) == FAILS_UNIFORM_LOAD;
    assert!(panes.any(fails), "{sheet:?}");
}

/// A group of one pane, of some and of all.
#[test]
fn one_short_group_and_no_other() {
    const PANES: usize = 6;
    let mut sizes = [0; PANES + 1];
    for seed in 0..100 {
        let mut random = Random::of_seed(seed);
        let shape = only_group(random.draw(2..=5), PANES, &mut random);
        let groups: Vec<Vec<usize>> = groups(PANES)
            .filter(|group| is_short(&shape, group))
            .collect();
        assert_eq!(groups.len(), 1, "seed {seed}: {groups:?}");
        sizes[groups[0].len()] += 1;
    }
    assert_eq!(sizes[0], 0);
    assert!(sizes[1..].iter().all(|&count| count > 0), "{sizes:?}");
}

#[test]
fn a_crowd_is_short() {
    for seed in 0..100 {
        let mut random = Random::of_seed(seed);
        let shape = crowd(random.draw(1..=4), &mut random);
        let all: Vec<usize> = (0..shape.intervals.len()).collect();
        assert!(is_short(&shape, &all), "seed {seed}");
    }
}

/// The panes of each crowd have the same glasses.
#[test]
fn each_of_two_crowds_is_short() {
    for seed in 0..100 {
        let shape = two_crowds(&mut Random::of_seed(seed));
        let first = shape.intervals[0];
        let panes = 0..shape.intervals.len();
        let (one, other): (Vec<usize>, Vec<usize>) =
            panes.partition(|&pane| shape.intervals[pane] == first);
        assert!(is_short(&shape, &one), "seed {seed}");
        assert!(is_short(&shape, &other), "seed {seed}");
    }
}

#[test]
fn shapes_side_by_side_fit_into_a_file() {
    for seed in 0..1_000 {
        let shape = side_by_side(&mut Random::of_seed(seed));
        assert!(shape.stocks.len() <= MOST_GLASSES);
        assert!(shape.intervals.len() <= MOST_PANES);
    }
}

/// Every group of so many panes.
fn groups(panes: usize) -> impl Iterator<Item = Vec<usize>> {
    let is_in = |group: usize, pane: usize| group >> pane & 1 == 1;
    (1..1 << panes).map(move |group| (0..panes).filter(|&pane| is_in(group, pane)).collect())
}

fn is_short(shape: &Shape, group: &[usize]) -> bool {
    let passes = |glass| {
        let mut intervals = group.iter().map(|&pane| shape.intervals[pane]);
        intervals.any(|(first, last)| (first..=last).contains(&glass))
    };
    let stocks = shape.stocks.iter().enumerate();
    let sheets = stocks.filter(|&(glass, _)| passes(glass));
    sheets.map(|(_, &stock)| usize::from(stock)).sum::<usize>() < group.len()
}
