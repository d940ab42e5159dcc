//! Counts of what was compared, and of what the files tried, for the tables at the end of a run.

use crate::generator::Kind;
use crate::tried::{Table, Tried};
use std::fmt::{self, Display, Formatter};
use std::time::Duration;

#[derive(Clone, Debug, Default)]
pub struct Tally {
    pub kinds: [u64; Kind::ALL.len()],
    pub accepted: u64,
    pub full_placings: u64,
    pub short_placings: u64,
    /// Files with a short group of the library whose ids do not rise in file order, so that listing it in
    /// file order is found.
    pub reordered_groups: u64,
    pub programs_run: u64,
    pub slowest_program: Duration,
    pub tried: Tried,
}

impl Tally {
    pub fn add(&mut self, other: &Tally) {
        for (to, from) in self.kinds.iter_mut().zip(&other.kinds) {
            *to += from;
        }
        self.accepted += other.accepted;
        self.full_placings += other.full_placings;
        self.short_placings += other.short_placings;
        self.reordered_groups += other.reordered_groups;
        self.programs_run += other.programs_run;
        self.slowest_program = self.slowest_program.max(other.slowest_program);
        self.tried.add(&other.tried);
    }

    /// The table of what the files tried.
    pub fn table(&self) -> Table<'_> {
        Table {
            tried: &self.tried,
            files: self.kinds.iter().sum(),
        }
    }
}

impl Display for Tally {
    fn fmt(&self, out: &mut Formatter) -> fmt::Result {
        write!(out, "{}", self.table())?;
        writeln!(out, "\nwhat was compared")?;
        let mut row = |name: &str, count: u64| writeln!(out, "  {name:<66}{count:>10}");
        for (kind, count) in Kind::ALL.iter().zip(self.kinds) {
            row(&format!("files, {}", kind.name()), count)?;
        }
        row("accepted files", self.accepted)?;
        row("placings, full", self.full_placings)?;
        row("placings, short", self.short_placings)?;
        row("groups not in file order", self.reordered_groups)?;
        row("runs of canopy", self.programs_run)?;
        let slowest = self.slowest_program.as_secs_f64() * 1_000.0;
        writeln!(out, "  {:<66}{slowest:>7.1} ms", "slowest run of canopy")
    }
}
