//! The second implementation's reading of a file, and what it says of a pane and a glass.

use crate::clauses::{bbp, Loads, FAILS_POINT_LOAD, FAILS_UNIFORM_LOAD, PASSES};
use crate::job::{Glass, Pane};
use crate::refusal::Refusal;
use crate::roof::Roof;

pub struct Reading<'a> {
    pub file: &'a [u8],
    pub roof: Result<&'a Roof, Refusal>,
    /// The numbers with which calls on the file were to be refused.
    pub refused_calls: &'a [usize],
    /// The verdict on every pair, pane by pane.
    pub verdicts: Vec<Verdict<'a>>,
}

impl<'a> Reading<'a> {
    pub fn of(
        file: &'a [u8],
        roof: Result<&'a Roof, Refusal>,
        refused_calls: &'a [usize],
    ) -> Reading<'a> {
        Reading {
            file,
            roof,
            refused_calls,
            verdicts: roof.map_or(Vec::new(), verdicts),
        }
    }

    pub fn panes(&self) -> &'a [Pane] {
        self.roof.map_or(&[], |roof| roof.job.panes())
    }

    pub fn glasses(&self) -> &'a [Glass] {
        self.roof.map_or(&[], |roof| roof.job.glasses())
    }
}

fn verdicts(roof: &Roof) -> Vec<Verdict<'_>> {
    let (panes, glasses) = (roof.job.panes(), roof.job.glasses());
    let mut verdicts = Vec::with_capacity(panes.len() * glasses.len());
    for ((pane, loads), clauses) in panes.iter().zip(&roof.loads).zip(&roof.clauses) {
        verdicts.extend(glasses.iter().zip(clauses).map(|(glass, &clause)| Verdict {
            pane,
            loads,
            glass,
            clause,
        }));
    }
    verdicts
}

/// The verdict on a pane and a glass.
pub struct Verdict<'a> {
    pub pane: &'a Pane,
    pub loads: &'a Loads,
    pub glass: &'a Glass,
    /// The first clause that fails, or `PASSES`.
    pub clause: usize,
}

/// The names of the two sides of an edge, that which passes first.
pub const SPAN_EDGE: [&str; 2] = ["span at the entry", "1 mm above"];
pub const CONSTANT_EDGE: [&str; 2] = ["least constant", "1 less"];

impl Verdict<'_> {
    /// On which side of the edge of clause 3 the span is: 0 at the entry, and 1 just above it.
    pub fn span_edge(&self) -> Option<usize> {
        let entry = self.loads.entry(self.glass);
        let span = self.loads.span;
        match self.clause {
            PASSES | FAILS_UNIFORM_LOAD if span == entry => Some(0),
            FAILS_POINT_LOAD if entry > 0 && span == entry + 1 => Some(1),
            _ => None,
        }
    }

    /// On which side of the edge of clause 4 the constant is: 0 for the least one that passes, and 1 for
    /// 1 less.
    pub fn constant_edge(&self) -> Option<usize> {
        let k = u64::from(self.loads.constant(self.glass));
        let square = |k: u64| k * k;
        match self.clause {
            PASSES if self.loads.bbp(self.glass) > square(k - 1) => Some(0),
            FAILS_UNIFORM_LOAD if self.loads.bbp(self.glass) <= square(k + 1) => Some(1),
            _ => None,
        }
    }

    /// The pressures downward and upward. The larger one governs.
    pub fn pressures(&self) -> (u32, u32) {
        self.loads.pressures(self.glass.kind, self.glass.thick)
    }

    /// Whether the constant bears this pressure.
    pub fn bears(&self, pressure: u32) -> bool {
        let k = u64::from(self.loads.constant(self.glass));
        bbp(self.loads.span, pressure) <= k * k
    }

    /// Whether no other clause than that of the size fails.
    pub fn passes_on_a_large_sheet(&self) -> bool {
        let large = Glass {
            w: 9_999,
            h: 9_999,
            ..*self.glass
        };
        self.loads.judge(&large) == PASSES
    }
}
