//! That each shape is what it is said to be.

use compare::clauses::{Loads, PASSES};
use compare::job::{Job, Wind, MOST_PANES};
use compare::reader::read;

use super::Shape;
use crate::place::{place, Counts};

const SIZES: [(usize, usize); 7] = [
    (8, 16),
    (32, 64),
    (64, 16),
    (64, 64),
    (8, 256),
    (32, 256),
    (64, 256),
];

/// Hands on each job of a shape, with its number of panes, its verdicts and its placing.
fn for_each_job(shape: Shape, test: impl Fn(&Job, &[Vec<usize>], &Placing)) {
    for (glasses, panes) in SIZES {
        let file = shape.file(glasses, panes);
        let job = read(&file).expect("an accepted file");
        assert_eq!(job.glasses().len(), glasses);
        assert_eq!(job.panes().len(), panes);
        test(&job, &verdicts(&job), &Placing::of(&file, &job));
    }
}

/// The verdicts of each pane on the glasses in file order.
fn verdicts(job: &Job) -> Vec<Vec<usize>> {
    let panes = job.panes().iter().map(Loads::of);
    panes
        .map(|loads| {
            job.glasses()
                .iter()
                .map(|glass| loads.judge(glass))
                .collect()
        })
        .collect()
}

struct Placing {
    counts: Counts,
    /// The number of each pane's glass.
    held: Vec<Option<usize>>,
}

impl Placing {
    fn of(file: &[u8], job: &Job) -> Placing {
        let mut answers = [0; MOST_PANES];
        let mut group = [0; MOST_PANES];
        let counts = place(file, &mut answers, &mut group).expect("an accepted file");
        let number = |&id: &u32| {
            let mut glasses = job.glasses().iter();
            glasses.position(|glass| u32::from(glass.id) == id)
        };
        let held = answers[..job.panes().len()].iter().map(number).collect();
        Placing { counts, held }
    }
}

fn sheets(job: &Job) -> usize {
    let stocks = job.glasses().iter().map(|glass| usize::from(glass.stock));
    stocks.sum()
}

#[test]
fn a_file_is_the_same_each_time() {
    for shape in Shape::ALL {
        assert_eq!(shape.file(64, 256), shape.file(64, 256));
    }
}

#[test]
fn every_glass_passes_where_all_suit_all() {
    for_each_job(Shape::AllSuitAll, |job, verdicts, placing| {
        assert!(verdicts.iter().flatten().all(|&verdict| verdict == PASSES));
        assert!(sheets(job) >= placing.counts.wanted);
        assert_eq!(placing.counts.placed, placing.counts.wanted);
    });
}

#[test]
fn a_link_of_a_chain_suits_two_neighbours() {
    for_each_job(Shape::Chain, |job, verdicts, _| {
        let links = job.glasses().len().min(job.panes().len());
        for (pane, row) in verdicts.iter().enumerate() {
            let suited = match pane * links / job.panes().len() {
                link if link == links - 1 => vec![0],
                link => vec![link, link + 1],
            };
            assert_eq!(passing(row), suited);
        }
    });
}

/// First fit gives the panes of link n the glass n and leaves the panes of the last link with none.
/// In the end those of link n all have the glass n + 1: each of the last panes moved one of every
/// link.
#[test]
fn a_chain_moves_the_panes_of_every_link() {
    for_each_job(Shape::Chain, |job, _, placing| {
        let links = job.glasses().len().min(job.panes().len());
        let panes_a_link = job.panes().len() / links;
        for (pane, &held) in placing.held.iter().enumerate() {
            assert_eq!(held, Some((pane / panes_a_link + 1) % links));
        }
        assert_eq!(placing.counts.placed, placing.counts.wanted);
    });
}

/// By the order of the sheets from the least wide on, each pane's glasses stand side by side.
#[test]
fn random_intervals_are_intervals() {
    for_each_job(Shape::RandomIntervals, |job, verdicts, placing| {
        let mut order: Vec<usize> = (0..job.glasses().len()).collect();
        order.sort_by_key(|&glass| job.glasses()[glass].w);
        for row in verdicts {
            let ordered: Vec<usize> = order.iter().map(|&glass| row[glass]).collect();
            let suited = passing(&ordered);
            assert_eq!(suited.len(), suited[suited.len() - 1] - suited[0] + 1);
        }
        assert_eq!(sheets(job), placing.counts.wanted);
        assert_eq!(placing.counts.placed, placing.counts.wanted);
    });
}

#[test]
fn few_panes_are_placed_in_a_heavy_shortage() {
    for_each_job(Shape::HeavyShortage, |job, _, placing| {
        assert_eq!(sheets(job), placing.counts.wanted / 8);
        assert!(placing.counts.placed <= sheets(job));
        assert!(placing.counts.placed > 0);
        assert!(placing.counts.group > 0);
    });
}

#[test]
fn a_house_roof_has_every_pane_by_class() {
    for_each_job(Shape::HouseRoof, |job, _, placing| {
        let mut winds = job.panes().iter().map(|pane| pane.wind);
        assert!(winds.all(|wind| matches!(wind, Wind::Class { .. })));
        assert_eq!(sheets(job), placing.counts.wanted / 2);
        assert!(placing.counts.placed > 0);
    });
}

#[test]
fn the_largest_real_roofs_have_every_verdict() {
    for shape in [Shape::HeavyShortage, Shape::HouseRoof] {
        let job = read(&shape.file(64, 256)).expect("an accepted file");
        let mut counts = [0; 5];
        for verdict in verdicts(&job).into_iter().flatten() {
            counts[verdict] += 1;
        }
        // a pass and each of the four clauses, each in over 1 of 32
        assert!(
            counts.iter().all(|&count| count > 64 * 256 / 32),
            "{}: {counts:?}",
            shape.name()
        );
    }
}

/// The numbers of the glasses that pass, in order.
fn passing(row: &[usize]) -> Vec<usize> {
    let glasses = row.iter().enumerate();
    glasses
        .filter(|(_, &verdict)| verdict == PASSES)
        .map(|(glass, _)| glass)
        .collect()
}
