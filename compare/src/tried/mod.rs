//! What the files of a run have tried: the lines of a table, and how often each was met. All is counted
//! from the second implementation's own reading of a file, and nothing from an answer of the library.

mod clause_1;
mod clause_2;
mod clause_3;
mod clause_4;
mod dead_loads;
mod first_clauses;
mod full_placings;
mod glasses;
mod groups;
mod other_readings;
mod panes;
mod placings;
mod reading;
mod refused_calls;
mod refused_files;
mod refused_values;
mod ribbons_by_class;
mod sides;
mod table;
mod tempered;
mod wind_classes;

pub use reading::Reading;
pub use refused_files::NO_CAUSE;
use std::sync::LazyLock;
pub use table::Table;

/// Lines of one idea.
pub struct Section {
    pub title: &'static str,
    /// What is counted beside the files, if anything is.
    pub unit: Option<&'static str>,
    pub names: fn() -> Vec<String>,
    pub count: fn(&Reading, &mut Lines),
}

const SECTIONS: [&Section; 20] = [
    &refused_files::SECTION,
    &refused_values::SECTION,
    &refused_calls::SECTION,
    &first_clauses::SECTION,
    &clause_1::SECTION,
    &clause_2::SECTION,
    &clause_3::SECTION,
    &clause_4::SECTION,
    &dead_loads::SECTION,
    &wind_classes::SECTION,
    &wind_classes::AT_THE_EDGE,
    &panes::SECTION,
    &sides::SECTION,
    &glasses::SECTION,
    &placings::SECTION,
    &groups::SECTION,
    &ribbons_by_class::SECTION,
    &tempered::SECTION,
    &full_placings::SECTION,
    &other_readings::SECTION,
];

/// The names of the lines, by section.
static NAMES: LazyLock<[Vec<String>; SECTIONS.len()]> =
    LazyLock::new(|| SECTIONS.map(|section| (section.names)()));

/// How often a line was met.
#[derive(Clone, Copy, Debug, Default, PartialEq, Eq)]
pub struct Count {
    pub files: u64,
    /// Verdicts, panes or what else the section counts.
    pub times: u64,
}

/// The counts of a section's lines, in one file.
pub struct Lines<'a>(&'a mut [Count]);

impl Lines<'_> {
    pub fn meet(&mut self, line: usize) {
        let count = &mut self.0[line];
        count.files = 1;
        count.times += 1;
    }

    pub fn meet_if(&mut self, line: usize, met: bool) {
        if met {
            self.meet(line);
        }
    }

    /// Meets those of the lines from the first one on that are met.
    pub fn meet_each<const N: usize>(&mut self, first: usize, met: [bool; N]) {
        for (at, met) in met.into_iter().enumerate() {
            self.meet_if(first + at, met);
        }
    }
}

/// The counts of all lines, by section.
#[derive(Clone, Debug)]
pub struct Tried([Vec<Count>; SECTIONS.len()]);

impl Default for Tried {
    fn default() -> Tried {
        Tried(
            NAMES
                .each_ref()
                .map(|names| vec![Count::default(); names.len()]),
        )
    }
}

impl Tried {
    /// What one file tries.
    pub fn by(reading: &Reading) -> Tried {
        let mut tried = Tried::default();
        for (section, counts) in SECTIONS.iter().zip(&mut tried.0) {
            (section.count)(reading, &mut Lines(counts));
        }
        tried
    }

    pub fn add(&mut self, other: &Tried) {
        for (to, from) in self.0.iter_mut().flatten().zip(other.0.iter().flatten()) {
            to.files += from.files;
            to.times += from.times;
        }
    }

    /// The lines of the section of this title, with their counts.
    pub fn lines(&self, title: &str) -> Vec<(&'static str, Count)> {
        let mut sections = SECTIONS.iter();
        let at = sections
            .position(|section| section.title == title)
            .expect("a section of this title");
        let names = NAMES[at].iter().map(String::as_str);
        names.zip(self.0[at].iter().copied()).collect()
    }
}

/// Names for every pair of one of each list, those of the last list in turn.
fn crossed(firsts: &[impl AsRef<str>], seconds: &[impl AsRef<str>]) -> Vec<String> {
    let with = |first| {
        let seconds = seconds.iter();
        seconds.map(move |second| format!("{first}, {}", second.as_ref()))
    };
    firsts
        .iter()
        .flat_map(|first| with(first.as_ref()))
        .collect()
}

/// These names, as those of a section.
fn named(names: &[&str]) -> Vec<String> {
    names.iter().map(|name| name.to_string()).collect()
}

#[cfg(test)]
mod tests {
    use super::*;
    use std::collections::BTreeSet;

    #[test]
    fn titles_and_names_differ() {
        let titles: BTreeSet<&str> = SECTIONS.iter().map(|section| section.title).collect();
        assert_eq!(titles.len(), SECTIONS.len());
        for names in NAMES.iter() {
            let different: BTreeSet<&String> = names.iter().collect();
            assert_eq!(different.len(), names.len(), "{names:?}");
        }
    }

    #[test]
    fn names_of_pairs() {
        let expected = ["a, 1", "a, 2", "b, 1", "b, 2"];
        assert_eq!(crossed(&["a", "b"], &["1", "2"]), expected);
    }
}
