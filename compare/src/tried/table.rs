//! The table of what a run has tried: for each line its name, the files that met it, their rate, and how
//! often it was met in all.

use super::refused_files::NO_CAUSE;
use super::{Count, Section, Tried, NAMES, SECTIONS};
use std::fmt::{self, Display, Formatter};

/// A line that is met in less than one of so many files is rare.
pub const RARE: u64 = 10_000;

/// The table of a run over so many files.
pub struct Table<'a> {
    pub tried: &'a Tried,
    pub files: u64,
}

impl Display for Table<'_> {
    fn fmt(&self, out: &mut Formatter) -> fmt::Result {
        for ((section, names), counts) in SECTIONS.iter().zip(NAMES.iter()).zip(&self.tried.0) {
            write_head(section, out)?;
            for (name, count) in names.iter().zip(counts) {
                writeln!(out, "{}", self.line(name, count, section).trim_end())?;
            }
        }
        let (rare, all) = (self.rare_lines().len(), NAMES.iter().flatten().count());
        writeln!(
            out,
            "\n{rare} of {all} lines rare, met in less than one of {RARE} files"
        )
    }
}

fn write_head(section: &Section, out: &mut Formatter) -> fmt::Result {
    let unit = section.unit.unwrap_or_default();
    let head = format!(
        "{:<68}{:>10}{:>10}{unit:>12}",
        section.title, "files", "one in"
    );
    writeln!(out, "\n{}", head.trim_end())
}

impl Table<'_> {
    /// The names of the rare lines.
    pub fn rare_lines(&self) -> Vec<&'static str> {
        let lines = NAMES.iter().flatten().zip(self.tried.0.iter().flatten());
        let rare = lines.filter(|(name, count)| self.mark(name, count) == "rare");
        rare.map(|(name, _)| name.as_str()).collect()
    }

    fn line(&self, name: &str, count: &Count, section: &Section) -> String {
        let Count { files, times } = count;
        let times = section.unit.map_or(String::new(), |_| times.to_string());
        let (rate, mark) = (self.rate(count), self.mark(name, count));
        format!("  {name:<66}{files:>10}{rate:>10}{times:>12}  {mark}")
    }

    /// One in how many files.
    fn rate(&self, count: &Count) -> String {
        match count.files {
            0 => "-".to_string(),
            met => format!("{:.1}", self.files as f64 / met as f64),
        }
    }

    fn mark(&self, name: &str, count: &Count) -> &'static str {
        if name == NO_CAUSE {
            "has to be 0"
        } else if count.files * RARE < self.files {
            "rare"
        } else {
            ""
        }
    }
}
