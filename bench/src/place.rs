//! The placing in safe Rust: document 01, "The placing", and document 02, 2026-04 and 2026-05.

use compare::clauses::{Loads, PASSES};
use compare::job::{Glass, Job, Pane, LARGEST_ID, MOST_GLASSES, MOST_PANES};
use compare::reader::read;
use compare::refusal::{Refusal, SHORT_LIST};

use crate::search::{match_panes, NO_GLASS};

/// Words enough for a bit of each id.
const ID_WORDS: usize = LARGEST_ID as usize / 64 + 1;

/// How many panes the file has, how many were given a glass and how many the short group has.
pub struct Counts {
    pub wanted: usize,
    pub placed: usize,
    pub group: usize,
}

/// Writes the id of a glass, or 0, for each pane of a file, and the ids of a short group, from the
/// lowest up, where a pane is left with 0. A refused call writes nothing.
pub fn place(file: &[u8], answers: &mut [u32], group: &mut [u32]) -> Result<Counts, Refusal> {
    let job = read(file)?;
    let wanted = job.panes().len();
    if answers.len() < wanted || group.len() < wanted {
        return Err(Refusal::new(SHORT_LIST, 0));
    }
    Ok(place_panes(&job, answers, group))
}

fn place_panes(job: &Job, answers: &mut [u32], group: &mut [u32]) -> Counts {
    let wanted = job.panes().len();
    let mut rows = [0; MOST_PANES];
    let rows = &mut rows[..wanted];
    for (row, pane) in rows.iter_mut().zip(job.panes()) {
        *row = row_of(pane, job.glasses());
    }
    let mut held = [NO_GLASS; MOST_PANES];
    let held = &mut held[..wanted];
    let tight = match_panes(rows, sheets_of(job.glasses()), held);
    let placed = write_answers(held, job.glasses(), answers);
    let group = if placed == wanted {
        0
    } else {
        write_group(rows, tight, job.panes(), group)
    };
    Counts {
        wanted,
        placed,
        group,
    }
}

/// One bit for each glass, set where the verdict is "passes".
fn row_of(pane: &Pane, glasses: &[Glass]) -> u64 {
    let loads = Loads::of(pane);
    let mut row = 0;
    for (number, glass) in glasses.iter().enumerate() {
        row |= u64::from(loads.judge(glass) == PASSES) << number;
    }
    row
}

/// The stock of each glass, and 0 past the last.
fn sheets_of(glasses: &[Glass]) -> [u32; MOST_GLASSES] {
    let mut sheets = [0; MOST_GLASSES];
    for (count, glass) in sheets.iter_mut().zip(glasses) {
        *count = u32::from(glass.stock);
    }
    sheets
}

/// Writes the id of each pane's glass, or 0, and counts the panes that have one.
fn write_answers(held: &[usize], glasses: &[Glass], answers: &mut [u32]) -> usize {
    let mut placed = 0;
    for (answer, &number) in answers.iter_mut().zip(held) {
        *answer = match glasses.get(number) {
            Some(glass) => {
                placed += 1;
                u32::from(glass.id)
            }
            None => 0,
        };
    }
    placed
}

/// Writes the ids of the panes that can have no glass but tight ones, from the lowest up, and
/// counts them: document 02, 2026-04.
fn write_group(rows: &[u64], tight: u64, panes: &[Pane], group: &mut [u32]) -> usize {
    let mut ids = [0u64; ID_WORDS];
    for (row, pane) in rows.iter().zip(panes) {
        if row & !tight == 0 {
            ids[usize::from(pane.id / 64)] |= 1 << (pane.id % 64);
        }
    }
    let mut count = 0;
    for (first, &word) in (0..).step_by(64).zip(&ids) {
        let mut rest = word;
        while rest != 0 {
            group[count] = first + rest.trailing_zeros();
            count += 1;
            rest &= rest - 1;
        }
    }
    count
}

#[cfg(test)]
mod tests {
    use super::*;
    use compare::refusal::TRAILER;

    /// The example of document 01, "The program `canopy`".
    const CANOPY: &[u8] = b"G 9 1 12 2400 3600 21304 23857 1\n\
        G 7 1 10 2400 3600 17976 20130 1\n\
        P 1 4 30 0 3000 900 1500 60 95\n\
        P 2 4 10 0 3000 500 1000 60 95\n\
        T 00000 00066\n";

    #[test]
    fn a_pane_yields_its_glass() {
        let (mut answers, mut group) = ([5; 3], [5; 3]);
        let counts = place(CANOPY, &mut answers, &mut group).expect("an accepted file");
        assert_eq!((counts.wanted, counts.placed, counts.group), (2, 2, 0));
        assert_eq!((answers, group), ([7, 9, 5], [5, 5, 5]));
    }

    #[test]
    fn a_refused_call_writes_nothing() {
        let (mut answers, mut group) = ([5; 2], [5; 1]);
        let short = place(CANOPY, &mut answers, &mut group).err();
        assert_eq!(short, Some(Refusal::new(SHORT_LIST, 0)));
        let cut = &CANOPY[..CANOPY.len() - 1];
        let refused = place(cut, &mut answers, &mut group).err();
        assert_eq!(refused, Some(Refusal::new(TRAILER, cut.len() - 14)));
        assert_eq!((answers, group), ([5; 2], [5; 1]));
    }
}
