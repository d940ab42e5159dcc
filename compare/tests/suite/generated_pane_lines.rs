//! That the generator draws faults of the letters (document 02, 2026-03): letters in the wrong part,
//! small letters, and letters exchanged, so that pressures become a class and a zone or the other way
//! round.

use crate::pairs::not_few;
use crate::refused_lines::{files_with_faults, refused_lines, RefusedLine};
use compare::generator::Kind;
use compare::job::Job;
use compare::reader::read;
use compare::refusal::{FORM, VALUE};

/// The fields of a whole line: the letter, and eight numbers of a glass or nine of a pane.
const OF_A_GLASS: usize = 9;
const OF_A_PANE: usize = 10;

/// A case, and whether a refused line is one.
type Case = (&'static str, fn(&RefusedLine) -> bool);

fn each_comes_up(cases: &[Case]) {
    let lines: Vec<RefusedLine> = refused_lines().collect();
    for (name, holds) in cases {
        not_few(name, lines.iter().filter(|line| holds(line)).count());
    }
}

#[test]
fn letters_in_the_wrong_part() {
    each_comes_up(&[
        ("glass part, a pane by class", |line| {
            line.is_in_the_glass_part() && is_unread(line, "Q", OF_A_PANE)
        }),
        ("glass part, Q for G", |line| {
            line.is_in_the_glass_part() && is_unread(line, "Q", OF_A_GLASS)
        }),
        ("glass part, q for G", |line| {
            line.is_in_the_glass_part() && is_unread(line, "q", OF_A_GLASS)
        }),
        ("pane part, a glass", |line| {
            !line.is_in_the_glass_part() && is_unread(line, "G", OF_A_GLASS)
        }),
        ("pane part, G for P or Q", |line| {
            !line.is_in_the_glass_part() && is_unread(line, "G", OF_A_PANE)
        }),
        ("pane part, q for Q", |line| {
            !line.is_in_the_glass_part() && is_unread(line, "q", OF_A_PANE)
        }),
    ]);
}

/// Whether a line is refused for its form, and has this letter and so many fields.
fn is_unread(line: &RefusedLine, letter: &str, count: usize) -> bool {
    let fields = line.fields();
    line.number() == FORM && fields[0] == letter && fields.len() == count
}

#[test]
fn pressures_on_a_q_line() {
    each_comes_up(&[("pressures", |line| {
        let fields = line.fields();
        let numbers: Vec<u32> = fields.iter().flat_map(|field| field.parse()).collect();
        line.number() == VALUE
            && fields[0] == "Q"
            && matches!(numbers[..], [.., 13..=1_000, 13..=1_000])
    })]);
}

/// Files that are accepted with a `P` in place of a `Q`, among others.
#[test]
fn a_class_and_a_zone_on_a_p_line() {
    let damaged = files_with_faults().filter(|(kind, _)| *kind == Kind::DamagedLine);
    let accepted = damaged.filter_map(|(_, file)| read(&file).ok());
    let such = accepted.filter(|job: &Job| {
        let mut winds = job.panes().iter().map(|pane| pane.wind.pressures());
        winds.any(|pressures| matches!(pressures, (1..=10, 1..=2)))
    });
    not_few("the numbers of a class on a P line", such.count());
}
