//! The calls that are measured. Before a call is timed, both sides must give the same for it.

use std::fmt::Debug;
use std::hint::black_box;

use compare::bordavina;
use compare::job::MOST_PANES;
use compare::reader::read;

use crate::safe;
use crate::timing::{time_both, Times};

#[derive(Clone, Copy, Debug, PartialEq, Eq)]
pub enum Call {
    Check,
    Verdict,
    Place,
}

impl Call {
    pub const ALL: [Call; 3] = [Call::Check, Call::Verdict, Call::Place];

    pub fn name(self) -> &'static str {
        match self {
            Call::Check => "check",
            Call::Verdict => "verdict",
            Call::Place => "place",
        }
    }

    /// The time of the call with a file, or what the two sides differ in.
    pub fn time(self, file: &[u8]) -> Result<Times, String> {
        match self {
            Call::Check => time_check(file),
            Call::Verdict => time_verdict(file),
            Call::Place => time_place(file),
        }
    }
}

fn time_check(file: &[u8]) -> Result<Times, String> {
    agree(bordavina::check(file), safe::check(file))?;
    Ok(time_both(
        1,
        || {
            black_box(bordavina::check(black_box(file)));
        },
        || {
            black_box(safe::check(black_box(file)));
        },
    ))
}

fn time_verdict(file: &[u8]) -> Result<Times, String> {
    let pairs = pairs(file)?;
    for &(pane, glass) in &pairs {
        agree(
            bordavina::verdict(file, pane, glass),
            safe::verdict(file, pane, glass),
        )?;
    }
    Ok(time_both(
        pairs.len(),
        || {
            for &(pane, glass) in black_box(&pairs) {
                black_box(bordavina::verdict(black_box(file), pane, glass));
            }
        },
        || {
            for &(pane, glass) in black_box(&pairs) {
                black_box(safe::verdict(black_box(file), pane, glass));
            }
        },
    ))
}

/// The ids that are asked for: the first, the middle and the last pane with the first, the middle
/// and the last glass; and an id that no line has, as the pane's and as the glass's.
fn pairs(file: &[u8]) -> Result<Vec<(u32, u32)>, String> {
    const NO_ID: u32 = 10_000;
    let job = read(file).map_err(|refusal| format!("safe Rust gives {refusal:?}"))?;
    let panes = spread(job.panes()).map(|pane| u32::from(pane.id));
    let glasses = spread(job.glasses()).map(|glass| u32::from(glass.id));
    let mut pairs = vec![(NO_ID, glasses[0]), (panes[0], NO_ID)];
    for pane in panes {
        pairs.extend(glasses.map(|glass| (pane, glass)));
    }
    Ok(pairs)
}

fn spread<T>(list: &[T]) -> [&T; 3] {
    [&list[0], &list[list.len() / 2], &list[list.len() - 1]]
}

/// Lists that are lent to `place`.
#[derive(PartialEq, Debug)]
struct Lent {
    answers: [u32; MOST_PANES],
    group: [u32; MOST_PANES],
}

impl Lent {
    /// With entries that are no ids, by which an untouched one is known.
    fn new() -> Lent {
        Lent {
            answers: [u32::MAX; MOST_PANES],
            group: [u32::MAX; MOST_PANES],
        }
    }
}

fn time_place(file: &[u8]) -> Result<Times, String> {
    let mut left = Lent::new();
    let mut right = Lent::new();
    agree(
        bordavina::place(file, &mut left.answers, &mut left.group),
        safe::place(file, &mut right.answers, &mut right.group),
    )?;
    agree(&left, &right)?;
    Ok(time_both(
        1,
        || {
            let Lent { answers, group } = black_box(&mut left);
            black_box(bordavina::place(black_box(file), answers, group));
        },
        || {
            let Lent { answers, group } = black_box(&mut right);
            black_box(safe::place(black_box(file), answers, group));
        },
    ))
}

fn agree<T: PartialEq + Debug>(library: T, safe: T) -> Result<(), String> {
    if library == safe {
        return Ok(());
    }
    Err(format!(
        "this library gives {library:?}\nsafe Rust gives {safe:?}"
    ))
}
