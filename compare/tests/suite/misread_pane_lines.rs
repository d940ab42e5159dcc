//! Likely misreadings of document 02, 2026-03, in the lines of the pane part. Each case is a generated
//! file that a library with the misreading takes otherwise, so that it is found.

use crate::pairs::{jobs, not_few};
use crate::refused_lines::{refused_lines, RefusedLine};
use crate::table_a2::classes_and_zones;
use compare::job::{Job, Wind};
use compare::refusal::REPEATED_ID;

/// The places of the class and the zone among the fields of a line.
const CLASS: usize = 8;
const ZONE: usize = 9;

/// Turns the fields of a line into those for which they are taken, and tells whether the line is such.
type Misreading = fn(&mut [&str]) -> bool;

/// Counts the files that are not refused as they are when their line is misread.
fn each_is_found(misreadings: &[(&str, Misreading)]) {
    let lines: Vec<RefusedLine> = refused_lines().collect();
    for (name, misread) in misreadings {
        let found = lines.iter().filter(|line| {
            let mut fields = line.fields();
            misread(&mut fields) && line.differs_with(&fields)
        });
        not_few(name, found.count());
    }
}

/// Takes one field for another one, where it is that.
fn takes(fields: &mut [&str], at: usize, field: &str, taken_for: &'static str) -> bool {
    let such = fields.get(at) == Some(&field);
    if such {
        fields[at] = taken_for;
    }
    such
}

fn takes_class(fields: &mut [&str], class: &str, taken_for: &'static str) -> bool {
    fields[0] == "Q" && takes(fields, CLASS, class, taken_for)
}

fn takes_zone(fields: &mut [&str], zone: &str, taken_for: &'static str) -> bool {
    fields[0] == "Q" && takes(fields, ZONE, zone, taken_for)
}

#[test]
fn classes_outside_taken() {
    each_is_found(&[
        ("class 0", |fields| takes_class(fields, "0", "1")),
        ("class 11", |fields| takes_class(fields, "11", "10")),
        ("class 12", |fields| takes_class(fields, "12", "10")),
        ("class 99999", |fields| takes_class(fields, "99999", "10")),
        ("class in 8 bits", |fields| takes_class(fields, "257", "1")),
        ("class in 16 bits", |fields| {
            takes_class(fields, "65537", "1")
        }),
    ]);
}

#[test]
fn zones_outside_taken() {
    each_is_found(&[
        ("zone 0", |fields| takes_zone(fields, "0", "1")),
        ("zone 3", |fields| takes_zone(fields, "3", "2")),
        ("zone in 8 bits", |fields| takes_zone(fields, "258", "2")),
        ("zone in 16 bits", |fields| takes_zone(fields, "65537", "1")),
    ]);
}

#[test]
fn letters_taken_for_others() {
    each_is_found(&[
        ("q for Q", |fields| takes(fields, 0, "q", "Q")),
        ("q for P", |fields| takes(fields, 0, "q", "P")),
        ("Q for P", |fields| takes(fields, 0, "Q", "P")),
    ]);
}

/// The earlier line with the id has the other letter, so that telling the letters apart would let this
/// one pass.
#[test]
fn ids_told_apart_by_letter() {
    for (earlier_letter, letter) in [("P", "Q"), ("Q", "P")] {
        let count = refused_lines().filter(|line| {
            let fields = line.fields();
            let repeats =
                |earlier: &Vec<&str>| earlier[0] == earlier_letter && earlier[1] == fields[1];
            line.number() == REPEATED_ID
                && fields[0] == letter
                && line.earlier_panes().iter().any(repeats)
        });
        not_few(
            &format!("id of a {earlier_letter} on a {letter}"),
            count.count(),
        );
    }
}

/// Files in which a line would be refused by too strict a reading.
#[test]
fn right_lines_refused() {
    let accepted: Vec<Job> = jobs().map(|(_, job)| job).collect();
    let with = |holds: &dyn Fn(&Job) -> bool| accepted.iter().filter(|job| holds(job)).count();
    for (class, zone) in classes_and_zones() {
        let wind = Wind::Class { class, zone };
        let count = with(&|job| job.panes().iter().any(|pane| pane.wind == wind));
        not_few(&format!("class {class} in zone {zone}"), count);
    }
    for (first, then) in [("P", "Q"), ("Q", "P")] {
        let count = with(&|job| {
            let letters = || job.panes().iter().map(|pane| letter(pane.wind));
            letters().next() == Some(first) && letters().any(|letter| letter == then)
        });
        not_few(&format!("first {first}, then {then}"), count);
    }
}

fn letter(wind: Wind) -> &'static str {
    match wind {
        Wind::Pressures { .. } => "P",
        Wind::Class { .. } => "Q",
    }
}
