//! Compares one file from disk, and prints what each call gave.

use crate::program::Canopy;
use compare::bordavina;
use compare::calls::Bordavina;
use compare::comparison::compare;
use compare::job::{Job, MOST_PANES};
use compare::random::Random;
use compare::reader::read;

/// Gives whether the file differs.
pub fn run(file: &[u8], canopy: &Canopy) -> bool {
    println!("check: {:?}", bordavina::check(file));
    if let Ok(job) = read(file) {
        print_verdicts(file, &job);
    }
    print_placing(file);

    let mut outcome = compare(&Bordavina, file, &mut Random::of_file(0, 0));
    canopy.compare(file, &mut outcome);
    println!("report:\n{}", String::from_utf8_lossy(&outcome.text));
    println!("canopy: {:.1?}", outcome.tally.slowest_program);
    for finding in &outcome.findings {
        println!("{}", finding.call);
        println!("    expected: {}", finding.expected);
        println!("    came: {}", finding.came);
    }
    println!("{} findings", outcome.finding_count);
    outcome.finding_count > 0
}

/// One line for each pane: each glass with the first clause that fails, or 0.
fn print_verdicts(file: &[u8], job: &Job) {
    for pane in job.panes() {
        print!("verdicts on pane {}, glass:clause", pane.id);
        for glass in job.glasses() {
            let answer = bordavina::verdict(file, pane.id.into(), glass.id.into());
            match answer.number {
                0 => print!(" {}:{}", glass.id, answer.clause),
                number => print!(" {}:refused {number} {}", glass.id, answer.offset),
            }
        }
        println!();
    }
}

fn print_placing(file: &[u8]) {
    let mut answers = [0; MOST_PANES];
    let mut group = [0; MOST_PANES];
    let answer = bordavina::place(file, &mut answers, &mut group);
    println!("place: {answer:?}");
    println!("answers: {:?}", &answers[..answer.wanted.min(MOST_PANES)]);
    println!("short group: {:?}", &group[..answer.group.min(MOST_PANES)]);
}
