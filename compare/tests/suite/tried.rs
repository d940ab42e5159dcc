//! The counts of what a file tries.

use crate::jobs::file;
use crate::reference::Reference;
use compare::comparison::compare;
use compare::random::Random;
use compare::tried::Tried;

pub fn tried(file: &[u8]) -> Tried {
    let outcome = compare(&Reference, file, &mut Random::of_file(1, 1));
    assert_eq!(outcome.finding_count, 0, "{:?}", outcome.findings);
    outcome.tally.tried
}

/// The lines of a section that a file meets, and how often.
pub fn met(title: &str, file: &[u8]) -> Vec<(&'static str, u64)> {
    let lines = tried(file).lines(title).into_iter();
    let met = lines.filter(|(_, count)| count.files > 0);
    met.map(|(name, count)| {
        assert_eq!(count.files, 1);
        (name, count.times)
    })
    .collect()
}

/// A file of these glass lines and pane lines meets these lines of a section, so often, and no others.
pub fn meets(title: &str, [glasses, panes]: [&str; 2], expected: &[(&str, u64)]) {
    assert_eq!(
        met(title, &file(glasses, panes)),
        expected,
        "{glasses}{panes}"
    );
}
