//! That the generator draws roofs that are short by more than one pane and in several places, and roofs on
//! which moves are needed though some panes cannot be served (document 02, 2026-05).

use crate::chains::longest_chain;
use crate::groups::{largest, short_files, smallest, ShortFile};
use crate::pairs::not_few;
use compare::shortage::{first_fit, places};

/// A case, and whether a file is one.
type Case = (&'static str, fn(&ShortFile) -> bool);

fn each_comes_up(cases: &[Case]) {
    let files = short_files(smallest);
    for (name, holds) in cases {
        not_few(name, files.iter().filter(|file| holds(file)).count());
    }
}

#[test]
fn shortages_of_every_size() {
    each_comes_up(&[
        ("1", |file| file.roof.shortage() == 1),
        ("2 to 5", |file| (2..=5).contains(&file.roof.shortage())),
        ("6 to 20", |file| (6..=20).contains(&file.roof.shortage())),
        ("over 20", |file| file.roof.shortage() > 20),
    ]);
}

#[test]
fn several_places() {
    each_comes_up(&[
        ("two that share no glass", |file| places(file.roof) == 2),
        ("three or more", |file| places(file.roof) > 2),
        ("two crowds that share no glass", |file| {
            has_crowds(file, |one, other| one & other == 0)
        }),
        ("two crowds that share some glasses", |file| {
            has_crowds(file, |one, other| {
                one & other != 0 && one & !other != 0 && other & !one != 0
            })
        }),
        ("a crowd within another", |file| {
            has_crowds(file, |one, other| one != other && one & !other == 0)
        }),
    ]);
}

#[test]
fn panes_and_stocks_of_every_sort() {
    each_comes_up(&[
        ("no passing glass, beside other shortages", |file| {
            let bare = bare(file);
            bare > 0 && bare < file.roof.shortage()
        }),
        ("no passing glass, and no other shortage", |file| {
            bare(file) == file.roof.shortage()
        }),
        ("a passing glass without sheets", |file| {
            let mut passing = file
                .roof
                .flow
                .group
                .iter()
                .flat_map(|&pane| file.roof.passing(pane));
            passing.any(|glass| file.roof.job.glasses()[glass].stock == 0)
        }),
        ("all panes are a right group", |file| {
            largest(file.roof, file.answers).len() == file.answers.len()
        }),
        ("all panes are no right group", |file| {
            largest(file.roof, file.answers).len() < file.answers.len()
        }),
        ("several right groups", |file| {
            largest(file.roof, file.answers).len() > file.group.len()
        }),
    ]);
}

#[test]
fn moves_on_a_short_roof() {
    each_comes_up(&[
        ("fewer by first fit", |file| fewer(file) > 0),
        ("fewer by two or more", |file| fewer(file) > 1),
        ("fewer, and short in several places", |file| {
            fewer(file) > 0 && places(file.roof) > 1
        }),
        ("a chain of two moves", |file| longest_chain(file.roof) > 1),
        ("a chain of four moves", |file| longest_chain(file.roof) > 3),
    ]);
}

/// How many panes fewer first fit serves.
fn fewer(file: &ShortFile) -> usize {
    file.roof.flow.most_served - first_fit(file.roof)
}

/// The panes for which no glass passes.
fn bare(file: &ShortFile) -> usize {
    let panes = 0..file.answers.len();
    panes
        .filter(|&pane| file.roof.passing(pane).next().is_none())
        .count()
}

/// Whether two crowds have such glasses, as bits. A crowd has the glasses of one of its panes, and some
/// sheets, but more panes for which no other glass passes.
fn has_crowds(file: &ShortFile, holds: fn(u64, u64) -> bool) -> bool {
    let rows: Vec<u64> = (0..file.answers.len())
        .map(|pane| {
            file.roof
                .passing(pane)
                .fold(0, |row, glass| row | 1 << glass)
        })
        .collect();
    let stock = |glass: usize| usize::from(file.roof.job.glasses()[glass].stock);
    let is_crowd = |row: u64| {
        let panes = rows
            .iter()
            .filter(|&&other| other != 0 && other & !row == 0);
        let glasses = (0..64).filter(|glass| row >> glass & 1 == 1);
        let sheets: usize = glasses.map(stock).sum();
        0 < sheets && sheets < panes.count()
    };
    let mut crowds: Vec<u64> = rows.iter().copied().filter(|&row| is_crowd(row)).collect();
    crowds.sort();
    crowds.dedup();
    let mut pairs = crowds
        .iter()
        .flat_map(|&one| crowds.iter().map(move |&other| (one, other)));
    pairs.any(|(one, other)| holds(one, other))
}
