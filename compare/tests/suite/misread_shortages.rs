//! Likely misreadings of document 02, 2026-05. Each case is a generated file on which the misreading serves
//! fewer panes or lists a group that does not show the whole shortage, so that a library with it is found.

use crate::groups::{largest, of_one_pane, short_files, smallest, without_glass, ShortFile};
use crate::pairs::not_few;
use compare::rules::{GREATEST, GROUP, LEFT, SHORT, WHOLE};
use compare::shortage::places;

/// Counts the short files in which a misreading is found, which have to be one in so many at least.
fn is_found(name: &str, one_in: usize, found: impl Fn(&ShortFile) -> bool) {
    let files = short_files(smallest);
    let count = files.iter().filter(|file| found(file)).count();
    println!("{name}: {count} of {} short files", files.len());
    assert!(one_in * count >= files.len(), "{name}: {count}");
}

/// Whether a group is found, and breaks no rule but these.
fn breaks(file: &ShortFile, group: &[usize], allowed: &[&str]) -> bool {
    let broken = file.broken_by(group);
    assert!(broken.iter().all(|rule| allowed.contains(rule)));
    !broken.is_empty()
}

/// Each pane in file order takes the first or the last passing glass that has a sheet left. So no pane
/// that has 0 has a sheet to spare. The group is right.
#[test]
fn no_moves() {
    is_found("first fit", 10, |file| is_fewer(file, &fit(file, false)));
    is_found("last fit", 10, |file| is_fewer(file, &fit(file, true)));
    let files = short_files(smallest);
    let one_fewer = files.iter().filter(|file| {
        let left = without_glass(&fit(file, false)).len();
        left == file.roof.shortage() + 1
    });
    not_few("first fit, one pane fewer", one_fewer.count());
}

fn fit(file: &ShortFile, last: bool) -> Vec<u32> {
    let glasses = file.roof.job.glasses();
    let mut left: Vec<u16> = glasses.iter().map(|glass| glass.stock).collect();
    let mut answer = |pane| {
        let mut passing: Vec<usize> = file.roof.passing(pane).collect();
        if last {
            passing.reverse();
        }
        let glass = passing.into_iter().find(|&glass| left[glass] > 0)?;
        left[glass] -= 1;
        Some(u32::from(glasses[glass].id))
    };
    let panes = 0..file.answers.len();
    panes.map(|pane| answer(pane).unwrap_or(0)).collect()
}

/// Whether these answers are found to be fewer. A pane left over need not be in the group.
fn is_fewer(file: &ShortFile, answers: &[u32]) -> bool {
    let broken = file.broken(answers, &file.sorted_ids());
    assert!(broken.iter().all(|rule| [GREATEST, LEFT].contains(rule)));
    assert_eq!(broken.is_empty(), !broken.contains(&GREATEST));
    !broken.is_empty()
}

/// The group of the first pane, or the last, for which the search finds nothing.
#[test]
fn the_group_of_one_pane() {
    is_found("the group of one pane", 2, |file| {
        let broken = file.broken_by(&of_one_pane(file.roof, file.answers));
        let is_part = file.roof.shortage() > 1;
        let expected: &[&str] = if is_part { &[WHOLE, LEFT] } else { &[] };
        assert_eq!(broken, expected);
        is_part
    });
}

/// A group that is not short without any one of its panes. It may hold all panes that have 0.
#[test]
fn the_smallest_short_group() {
    is_found("a smallest short group", 2, |file| {
        let found = breaks(file, &least(file), &[WHOLE, LEFT]);
        assert_eq!(found, file.roof.shortage() > 1);
        found
    });
    is_found("a smallest short group with all that have 0", 100, |file| {
        file.broken_by(&least(file)) == [WHOLE]
    });
}

/// Leaves out panes from the first one on, while the group stays short.
fn least(file: &ShortFile) -> Vec<usize> {
    let whole = smallest(file.roof, file.answers);
    let mut group = whole.clone();
    for pane in whole {
        let fewer: Vec<usize> = group
            .iter()
            .copied()
            .filter(|&other| other != pane)
            .collect();
        if fewer.len() > file.roof.sheets(&fewer) {
            group = fewer;
        }
    }
    group
}

/// The panes that share a glass with one that has 0, or with a pane that does, and so on.
#[test]
fn one_of_several_places() {
    is_found("one of several places", 2, |file| {
        let found = breaks(file, &first_place(file), &[WHOLE, LEFT]);
        assert_eq!(found, places(file.roof) > 1);
        found
    });
}

/// The place of the first pane of the group.
fn first_place(file: &ShortFile) -> Vec<usize> {
    let mut others = smallest(file.roof, file.answers);
    let mut place = vec![others.remove(0)];
    let mut at = 0;
    while at < place.len() {
        let shares = |pane: &usize| {
            let mut passing = file.roof.passing(place[at]);
            passing.any(|glass| file.roof.passing(*pane).any(|other| other == glass))
        };
        let (shared, rest): (Vec<usize>, Vec<usize>) = others.into_iter().partition(shares);
        place.extend(shared);
        others = rest;
        at += 1;
    }
    place
}

/// With panes that have sheets to spare.
#[test]
fn all_panes() {
    is_found("all panes", 8, |file| {
        let all: Vec<usize> = (0..file.answers.len()).collect();
        let found = breaks(file, &all, &[SHORT, WHOLE]);
        assert_eq!(found, largest(file.roof, file.answers) != all);
        found
    });
}

#[test]
fn only_panes_that_have_0() {
    is_found("only panes that have 0", 8, |file| {
        breaks(file, &without_glass(file.answers), &[SHORT, WHOLE])
    });
}

/// A pane for which no glass passes is taken for a fault of its own, or for the only shortage.
#[test]
fn panes_without_a_passing_glass() {
    let split = |file: &ShortFile| -> (Vec<usize>, Vec<usize>) {
        let group = smallest(file.roof, file.answers).into_iter();
        group.partition(|&pane| file.roof.passing(pane).next().is_none())
    };
    is_found("without them", 8, |file| {
        breaks(file, &split(file).1, &[GROUP, WHOLE, LEFT])
    });
    is_found("only them", 8, |file| {
        breaks(file, &split(file).0, &[GROUP, WHOLE, LEFT])
    });
}

/// Any one pane less than the smallest right group, or one more than the largest.
#[test]
fn one_pane_too_few_or_too_many() {
    for file in small_files() {
        let group = smallest(file.roof, file.answers);
        for at in 0..group.len() {
            let mut fewer = group.clone();
            let pane = fewer.remove(at);
            let broken = file.broken_by(&fewer);
            let expected = if fewer.is_empty() { GROUP } else { WHOLE };
            assert!(broken.contains(&expected));
            let is_left = !fewer.is_empty() && file.answers[pane] == 0;
            assert_eq!(broken.contains(&LEFT), is_left);
        }
        let group = largest(file.roof, file.answers);
        for pane in (0..file.answers.len()).filter(|pane| !group.contains(pane)) {
            let more = [&group[..], &[pane]].concat();
            assert!(breaks(&file, &more, &[SHORT, WHOLE]));
        }
    }
}

/// Both choices are right, on every file.
#[test]
fn right_groups() {
    for choice in [smallest, largest] {
        for file in short_files(choice) {
            assert_eq!(file.broken(file.answers, &file.sorted_ids()), [""; 0]);
        }
    }
}

fn small_files() -> impl Iterator<Item = ShortFile> {
    let files = short_files(smallest).into_iter();
    files.filter(|file| file.answers.len() <= 48)
}
