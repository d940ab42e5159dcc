//! That the generator draws ids by which the order of a short group shows (document 02, 2026-04), and
//! groups of one pane, of some and of all.

use crate::groups::{largest, short_files, smallest, ShortFile};
use crate::pairs::not_few;
use compare::generator::Kind;
use compare::job::LARGEST_ID;

/// A case, and whether a file is one.
type Case = (&'static str, fn(&ShortFile) -> bool);

/// Each case comes up, whichever group is listed.
fn each_comes_up(cases: &[Case]) {
    for choice in [smallest, largest] {
        let files = short_files(choice);
        for (name, holds) in cases {
            not_few(name, files.iter().filter(|file| holds(file)).count());
        }
    }
}

/// In more than half of the short files, plausible or hard, the ids of the smallest group do not rise
/// in file order, and in some they do.
#[test]
fn mostly_not_in_file_order() {
    let files = short_files(smallest);
    for kind in [Kind::Honest, Kind::Hard] {
        let short: Vec<&ShortFile> = files.iter().filter(|file| file.kind == kind).collect();
        let rising = short.iter().filter(|file| file.rises_in_file_order());
        let (rising, short) = (rising.count(), short.len());
        println!("{kind:?}: {rising} of {short} groups rise in file order");
        assert!(2 * rising < short);
        assert!(10 * rising > short);
    }
}

#[test]
fn groups_of_every_size() {
    each_comes_up(&[
        ("one pane of several", |file| {
            file.group.len() == 1 && file.answers.len() > 1
        }),
        ("one pane alone", |file| file.answers.len() == 1),
        ("two panes", |file| file.group.len() == 2),
        ("some panes", |file| is_long(file) && !is_all(file)),
        ("all panes", |file| is_long(file) && is_all(file)),
        ("over 100 panes", |file| file.group.len() > 100),
    ]);
}

#[test]
fn every_order_in_the_file() {
    each_comes_up(&[
        ("rising", |file| is_long(file) && falls(file) == 0),
        ("falling", |file| {
            is_long(file) && falls(file) == file.group.len() - 1
        }),
        ("one lower than the one before", |file| {
            is_long(file) && falls(file) == 1
        }),
        ("the lowest last", |file| {
            is_long(file) && file.ids().last() == file.sorted_ids().first()
        }),
        ("the highest first", |file| {
            is_long(file) && file.ids().first() == file.sorted_ids().last()
        }),
    ]);
}

#[test]
fn ids_from_end_to_end() {
    each_comes_up(&[
        ("1, not first in the file", |file| {
            has(file, 1) && file.ids().first() != Some(&1)
        }),
        ("9999, not last in the file", |file| {
            has(file, LARGEST_ID) && file.ids().last() != Some(&LARGEST_ID)
        }),
        ("1 and 9999", |file| has(file, 1) && has(file, LARGEST_ID)),
        ("neighbours", |file| {
            let ids = file.sorted_ids();
            ids.windows(2).any(|pair| pair[0] + 1 == pair[1])
        }),
        ("9 and 10, 99 and 100 or 999 and 1000", |file| {
            let mut powers = [10, 100, 1_000].iter();
            powers.any(|&power| has(file, power - 1) && has(file, power))
        }),
    ]);
}

/// Whether a group has three panes or more.
fn is_long(file: &ShortFile) -> bool {
    file.group.len() > 2
}

/// Whether all panes of the file are in the group.
fn is_all(file: &ShortFile) -> bool {
    file.group.len() == file.answers.len()
}

/// How often an id is lower than the one before it in the file.
fn falls(file: &ShortFile) -> usize {
    let ids = file.ids();
    ids.windows(2).filter(|pair| pair[0] > pair[1]).count()
}

fn has(file: &ShortFile, id: u32) -> bool {
    file.ids().contains(&id)
}
