//! The generator, and the max flow on its files, which is held to the rules as well.

use crate::reference::Reference;
use compare::comparison::compare;
use compare::generator::{generate, Kind};
use compare::random::Random;
use compare::tally::Tally;
use compare::tried::NO_CAUSE;

#[test]
fn a_file_is_given_by_seed_and_index() {
    let file = |seed, index| generate(&mut Random::of_file(seed, index)).1;
    assert_eq!(file(3, 5), file(3, 5));
    assert_ne!(file(3, 5), file(3, 6));
    assert_ne!(file(3, 5), file(4, 5));
}

/// On generated files a right library is found right, and all that can happen happens.
#[test]
fn every_case_is_generated() {
    let mut tally = Tally::default();
    let mut largest = 0;
    for index in 0..2_000 {
        let mut random = Random::of_file(1, index);
        let (kind, file) = generate(&mut random);
        let outcome = compare(&Reference, &file, &mut random);
        assert_eq!(outcome.finding_count, 0, "{index}: {:?}", outcome.findings);
        tally.add(&outcome.tally);
        tally.kinds[kind as usize] += 1;
        largest = largest.max(outcome.text.len());
    }
    let few = 10;
    let counts = [
        tally.accepted,
        tally.full_placings,
        tally.short_placings,
        tally.reordered_groups,
    ];
    let counts: Vec<u64> = counts.into_iter().chain(tally.kinds).collect();
    assert_eq!(counts.len(), 4 + Kind::ALL.len());
    assert!(counts.iter().all(|&count| count >= few), "{tally}");
    for title in ["refused files", "first clause that fails"] {
        for (name, count) in tally.tried.lines(title) {
            let expected = if name == NO_CAUSE { 0..=0 } else { few..=2_000 };
            assert!(expected.contains(&count.files), "{name}: {tally}");
        }
    }
    for (name, count) in tally.tried.lines("placings") {
        let on_purpose = name.starts_with("short") || name.starts_with("full");
        assert!(!on_purpose || count.files >= few, "{name}: {tally}");
    }
    assert!(
        largest > 2_000,
        "no text of a large roof, at most {largest}"
    );
}
