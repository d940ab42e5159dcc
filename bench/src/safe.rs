//! The three calls in safe Rust, with the results of the C interface.

use compare::bordavina::{CheckResult, PlaceResult, VerdictResult};
use compare::clauses;
use compare::reader::read;

use crate::place;

pub fn check(file: &[u8]) -> CheckResult {
    match read(file) {
        Ok(job) => CheckResult {
            glasses: job.glasses().len(),
            panes: job.panes().len(),
            ..CheckResult::default()
        },
        Err(refusal) => refusal.into(),
    }
}

pub fn verdict(file: &[u8], pane: u32, glass: u32) -> VerdictResult {
    match clauses::verdict(file, pane, glass) {
        Ok(clause) => VerdictResult {
            clause,
            ..VerdictResult::default()
        },
        Err(refusal) => refusal.into(),
    }
}

pub fn place(file: &[u8], answers: &mut [u32], group: &mut [u32]) -> PlaceResult {
    match place::place(file, answers, group) {
        Ok(counts) => PlaceResult {
            wanted: counts.wanted,
            placed: counts.placed,
            group: counts.group,
            ..PlaceResult::default()
        },
        Err(refusal) => refusal.into(),
    }
}
