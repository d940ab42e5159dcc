//! The generated files, the pairs of a pane and a glass in them, and which cases come up among them.

use compare::clauses::{Loads, FAILS_UNIFORM_LOAD, PASSES};
use compare::generator::{generate, Kind};
use compare::job::{Glass, Job, Pane, Wind};
use compare::random::Random;
use compare::reader::read;

/// A case that is generated on purpose comes up at least so many times.
pub const FEW: usize = 10;

/// The kinds of glass.
pub const KINDS: [u8; 4] = [1, 2, 3, 4];

/// A case, and whether a pair is one.
pub type Case = (&'static str, fn(&Pane, &Glass) -> bool);

/// The first files of seed 1.
pub fn files(count: u64) -> impl Iterator<Item = (Kind, Vec<u8>)> {
    (0..count).map(|index| generate(&mut Random::of_file(1, index)))
}

/// The accepted files among the first 3,000 of seed 1.
pub fn jobs() -> impl Iterator<Item = (Kind, Job)> {
    files(3_000).filter_map(|(kind, file)| Some((kind, read(&file).ok()?)))
}

/// Hands on every pair of the files.
pub fn for_each_pair(mut take: impl FnMut(&Pane, &Glass)) {
    for (_, job) in jobs() {
        for pane in job.panes() {
            for glass in job.glasses() {
                take(pane, glass);
            }
        }
    }
}

/// Counts the files in which each case comes up, and fails where they are few.
pub fn each_comes_up(cases: &[Case]) {
    let counts = files_with(cases.len(), |at, pane, glass| (cases[at].1)(pane, glass));
    for ((name, _), count) in cases.iter().zip(counts) {
        not_few(name, count);
    }
}

/// Fails where the files of a case are few.
pub fn not_few(name: &str, count: usize) {
    println!("{name}: {count} files");
    assert!(count >= FEW, "{name}: {count} files");
}

/// For each of so many cases, in how many files a pair is one.
pub fn files_with(cases: usize, holds: impl Fn(usize, &Pane, &Glass) -> bool) -> Vec<usize> {
    let mut counts = vec![0; cases];
    for (_, job) in jobs() {
        for (case, count) in counts.iter_mut().enumerate() {
            let holds_of = |pane| job.glasses().iter().any(|glass| holds(case, pane, glass));
            *count += usize::from(job.panes().iter().any(holds_of));
        }
    }
    counts
}

pub fn judge(pane: &Pane, glass: &Glass) -> usize {
    Loads::of(pane).judge(glass)
}

/// Whether the constant of the glass is just enough for the pane.
pub fn just_bears(pane: &Pane, glass: &Glass) -> bool {
    let weaker = with_constant(pane, glass, |k| k - 1);
    judge(pane, glass) == PASSES && judge(pane, &weaker) == FAILS_UNIFORM_LOAD
}

/// Whether the constant of the glass is one too small for the pane.
pub fn just_fails(pane: &Pane, glass: &Glass) -> bool {
    let stronger = with_constant(pane, glass, |k| k + 1);
    judge(pane, glass) == FAILS_UNIFORM_LOAD && judge(pane, &stronger) == PASSES
}

/// The glass with its constant for this pane changed.
fn with_constant(pane: &Pane, glass: &Glass, change: impl Fn(u32) -> u32) -> Glass {
    let mut glass = *glass;
    let k = match pane.edges {
        2 => &mut glass.two,
        _ => &mut glass.four,
    };
    *k = change(*k);
    glass
}

/// The constant of the glass for this pane.
pub fn constant(pane: &Pane, glass: &Glass) -> u32 {
    match pane.edges {
        2 => glass.two,
        _ => glass.four,
    }
}

/// Whether a constant bears the pressure P on a pane.
pub fn bears(pane: &Pane, k: u32, p: u32) -> bool {
    let b = u64::from(Loads::of(pane).span);
    b * b * u64::from(p) <= u64::from(k) * u64::from(k)
}

/// The glass with the constant "two" for both.
pub fn two_for_four(glass: &Glass) -> Glass {
    Glass {
        four: glass.two,
        ..*glass
    }
}

/// The pressure P on a pane with a glass of this kind and thickness.
pub fn p(pane: &Pane, kind: u8, thick: u8) -> u32 {
    Loads::of(pane).pressure(kind, thick)
}

/// Whether P is more than it would be without the pressure down.
pub fn down_governs(pane: &Pane, kind: u8, thick: u8) -> bool {
    let (_, up) = pane.wind.pressures();
    let wind = Wind::Pressures { down: 0, up };
    p(pane, kind, thick) > p(&Pane { wind, ..*pane }, kind, thick)
}

/// Whether P is more than it would be without the pressure up.
pub fn up_governs(pane: &Pane, kind: u8, thick: u8) -> bool {
    let (down, _) = pane.wind.pressures();
    let wind = Wind::Pressures { down, up: 0 };
    p(pane, kind, thick) > p(&Pane { wind, ..*pane }, kind, thick)
}
