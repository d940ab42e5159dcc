//! Likely misreadings of document 02, 2026-04. Each case is a generated file on which the misreading gives
//! another list or text, so that a library with it is found.

use crate::groups::{ids, largest, short_files, smallest, ShortFile};
use crate::pairs::not_few;
use compare::job::{Pane, Wind};
use compare::rules::RISING;
use compare::text::{check_text, PANES};
use std::cmp::Reverse;

/// Puts the panes of a group, which come in file order, in the order of a misreading.
type Order = fn(&ShortFile, &mut [Pane]);

/// Each order is found in a fair share of the short files, whichever group is listed.
fn each_is_found(orders: &[(&str, Order)]) {
    for choice in [smallest, largest] {
        let files = short_files(choice);
        for (name, order) in orders {
            let found = files.iter().filter(|file| is_found(file, order)).count();
            println!("{name}: {found} of {} short files", files.len());
            assert!(8 * found >= files.len(), "{name}: {found}");
        }
    }
}

/// Whether a group is listed otherwise in this order. If so, no other rule is broken.
fn is_found(file: &ShortFile, order: &Order) -> bool {
    let mut group = file.group.clone();
    order(file, &mut group);
    let group = ids(&group);
    let is_wrong = group != file.sorted_ids();
    let expected: &[&str] = if is_wrong { &[RISING] } else { &[] };
    assert_eq!(file.broken(file.answers, &group), expected);
    is_wrong
}

/// Panes are numbered as their lines come, and the group is listed by that number.
#[test]
fn by_place_in_the_file() {
    each_is_found(&[
        ("first line first", |_, _| {}),
        ("last line first", |_, panes| panes.reverse()),
    ]);
}

#[test]
fn falling_ids() {
    each_is_found(&[("highest first", |_, panes| {
        panes.sort_by_key(|pane| Reverse(pane.id));
    })]);
}

/// As text, 10 comes before 9.
#[test]
fn ids_taken_otherwise() {
    each_is_found(&[
        ("as text", |_, panes| {
            panes.sort_by_key(|pane| pane.id.to_string());
        }),
        ("in 8 bits", |_, panes| {
            panes.sort_by_key(|pane| pane.id as u8);
        }),
    ]);
}

#[test]
fn sorted_in_part() {
    each_is_found(&[
        ("all but the first", |_, panes| sort(&mut panes[1..])),
        ("all but the last", |_, panes| {
            let last = panes.len() - 1;
            sort(&mut panes[..last]);
        }),
        ("one round of exchanges", |_, panes| {
            for at in 1..panes.len() {
                if panes[at - 1].id > panes[at].id {
                    panes.swap(at - 1, at);
                }
            }
        }),
    ]);
}

/// The ids rise only among panes that have something else in common.
#[test]
fn something_else_first() {
    each_is_found(&[
        ("panes with a glass first", |file, panes| {
            panes.sort_by_key(|pane| (!file.is_served(pane), pane.id));
        }),
        ("panes without a glass first", |file, panes| {
            panes.sort_by_key(|pane| (file.is_served(pane), pane.id));
        }),
        ("P lines first", |_, panes| {
            panes.sort_by_key(|pane| (!is_by_pressures(pane), pane.id));
        }),
        ("Q lines first", |_, panes| {
            panes.sort_by_key(|pane| (is_by_pressures(pane), pane.id));
        }),
    ]);
}

fn sort(panes: &mut [Pane]) {
    panes.sort_by_key(|pane| pane.id);
}

fn is_by_pressures(pane: &Pane) -> bool {
    matches!(pane.wind, Wind::Pressures { .. })
}

/// The answers too in the order of ids, where only the group is listed so.
#[test]
fn answers_by_id() {
    let files = short_files(smallest);
    let found = files.iter().filter(|file| {
        let answers: Vec<u32> = by_id(file).into_iter().map(|(_, answer)| answer).collect();
        !file.broken(&answers, &file.sorted_ids()).is_empty()
    });
    not_few("answers by id", found.count());
}

/// The lines of panes too in the order of ids.
#[test]
fn lines_of_panes_by_id() {
    let files = short_files(smallest);
    let found = files.iter().filter(|file| {
        let lines = by_id(file).into_iter();
        let mut text: String = lines
            .map(|(id, answer)| format!("{id} {answer}\n"))
            .collect();
        let ids: String = file
            .sorted_ids()
            .iter()
            .map(|id| format!(" {id}"))
            .collect();
        text += &format!(
            "{} {}\nshort{ids}\n",
            file.roof.flow.most_served,
            file.answers.len()
        );
        let broken = check_text(Ok(file.roof), text.as_bytes());
        broken.iter().any(|broken| broken.rule == PANES)
    });
    not_few("lines of panes by id", found.count());
}

/// Pane ids with their answers, rising.
fn by_id(file: &ShortFile) -> Vec<(u32, u32)> {
    let ids = file.roof.job.panes().iter().map(|pane| pane.id.into());
    let mut lines: Vec<(u32, u32)> = ids.zip(file.answers.iter().copied()).collect();
    lines.sort();
    lines
}
