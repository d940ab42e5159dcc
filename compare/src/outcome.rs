//! What the comparison of one file found.

use crate::rules::Broken;
use crate::tally::Tally;

/// Findings kept of one file. The others are only counted.
const MOST_KEPT: usize = 5;

/// A difference: which call, what was expected, and what came.
#[derive(Clone, Debug)]
pub struct Finding {
    pub call: String,
    pub expected: String,
    pub came: String,
}

#[derive(Clone, Debug, Default)]
pub struct Outcome {
    pub findings: Vec<Finding>,
    pub finding_count: usize,
    pub tally: Tally,
    /// The numbers with which verdicts and placings were to be refused.
    pub refused_calls: Vec<usize>,
    /// The text that the library gave.
    pub text: Vec<u8>,
}

impl Outcome {
    pub fn find(&mut self, call: &str, expected: impl Into<String>, came: impl Into<String>) {
        self.finding_count += 1;
        if self.findings.len() < MOST_KEPT {
            self.findings.push(Finding {
                call: call.to_string(),
                expected: expected.into(),
                came: came.into(),
            });
        }
    }

    pub fn find_broken(&mut self, call: &str, broken: Vec<Broken>) {
        for Broken { rule, came } in broken {
            self.find(call, rule, came);
        }
    }
}
