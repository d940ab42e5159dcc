//! Constants that are the least to bear a pane, or 1 less: document 01, "The four clauses", clause 4, with
//! document 02, 2026-06.

use super::reading::{Verdict, CONSTANT_EDGE};
use super::{crossed, Lines, Reading, Section};
use crate::clauses::{ANNEALED, PASSES};
use std::cmp::Ordering;

pub const SECTION: Section = Section {
    title: "clause 4 at its edge",
    unit: Some("verdicts"),
    names,
    count,
};

const GOVERNS: [&str; 3] = ["down governs", "up governs", "down and up alike"];

const KINDS: [&str; 2] = ["kind 1", "kinds 2 to 4"];

const CONSTANTS: [&str; 3] = ["two", "four", "four of a ribbon"];

/// By what governs, kind, constant and side of the edge. Then where K times K is exactly B times B times P.
fn names() -> Vec<String> {
    let constants = crossed(&crossed(&GOVERNS, &KINDS), &CONSTANTS);
    let mut names = crossed(&constants, &CONSTANT_EDGE);
    names.extend(crossed(&["K*K is B*B*P"], &KINDS));
    names
}

fn count(reading: &Reading, lines: &mut Lines) {
    for verdict in &reading.verdicts {
        let Some(edge) = verdict.constant_edge() else {
            continue;
        };
        let kind = usize::from(verdict.glass.kind != ANNEALED);
        let by_kind = KINDS.len() * governs(verdict) + kind;
        let by_constant = CONSTANTS.len() * by_kind + constant(verdict);
        lines.meet(CONSTANT_EDGE.len() * by_constant + edge);
        let first_exact = GOVERNS.len() * KINDS.len() * CONSTANTS.len() * CONSTANT_EDGE.len();
        lines.meet_if(first_exact + kind, is_exact(verdict));
    }
}

fn governs(verdict: &Verdict) -> usize {
    let (downward, upward) = verdict.pressures();
    match downward.cmp(&upward) {
        Ordering::Greater => 0,
        Ordering::Less => 1,
        Ordering::Equal => 2,
    }
}

fn constant(verdict: &Verdict) -> usize {
    match verdict.pane.edges {
        2 => 0,
        _ => 1 + usize::from(verdict.pane.is_ribbon()),
    }
}

fn is_exact(verdict: &Verdict) -> bool {
    let k = u64::from(verdict.loads.constant(verdict.glass));
    verdict.clause == PASSES && verdict.loads.bbp(verdict.glass) == k * k
}
