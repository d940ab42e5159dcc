//! The table of what a run has tried: its rates, its word for rare lines, and that no line is rare in the
//! generated files.

use crate::jobs::EXAMPLE_J;
use crate::pairs::files;
use crate::tried::tried;
use compare::reader::read;
use compare::roof::Roof;
use compare::tried::{Reading, Table, Tried};

/// The words of the line of this name, in a run of so many files that tried this.
fn words(name: &str, tried: &Tried, files: u64) -> Vec<String> {
    let table = Table { tried, files }.to_string();
    let mut lines = table.lines();
    let line = lines.find_map(|line| line.trim_start().strip_prefix(name));
    let words = line.expect("a line of this name").split_whitespace();
    words.map(str::to_string).collect()
}

/// Example (j) has one full placing, by moving panes, and 3 pairs that pass.
#[test]
fn rates_and_rare_lines() {
    let mut example = tried(EXAMPLE_J);
    let full = "full only by moving panes";
    assert_eq!(words(full, &example, 1), ["1", "1.0"]);
    assert_eq!(words(full, &example, 10_000), ["1", "10000.0"]);
    assert_eq!(words(full, &example, 10_001), ["1", "10001.0", "rare"]);
    assert_eq!(words("none, passes", &example, 3), ["1", "3.0", "3"]);
    assert_eq!(words("short by 1", &example, 1), ["0", "-", "rare"]);
    example.add(&tried(EXAMPLE_J));
    assert_eq!(words(full, &example, 3), ["2", "1.5"]);
    assert_eq!(words("none, passes", &example, 3), ["2", "1.5", "6"]);
}

/// No cause has number 7, which is no fault of the files.
#[test]
fn number_7() {
    let example = tried(EXAMPLE_J);
    let words = words("7, which no cause has", &example, 1);
    assert_eq!(words.join(" "), "0 - has to be 0");
}

#[test]
fn no_line_is_rare() {
    const FILES: u64 = 20_000;
    let mut all = Tried::default();
    for (_, file) in files(FILES) {
        let roof = read(&file).map(Roof::of);
        let roof = roof.as_ref().map_err(|refusal| *refusal);
        // The numbers of calls that are refused on every file, or nearly so.
        all.add(&Tried::by(&Reading::of(&file, roof, &[9, 10, 11])));
    }
    let table = Table {
        tried: &all,
        files: FILES,
    };
    assert_eq!(table.rare_lines(), [""; 0], "{table}");
}
