//! The max flow, and that a flow which serves too few panes or too many would be noticed.

use crate::jobs::{EXAMPLE_J, TWO_PLACES_JOB};
use crate::pairs::jobs;
use compare::flow::Flow;
use compare::reader::read;
use compare::roof::Roof;
use compare::rules::{check_flow, GREATEST, GROUP, LEFT, PASSING, PLACED, STOCK, WHOLE};

fn most_served(passing: &[Vec<usize>], stocks: &[u16]) -> usize {
    Flow::of(passing, stocks).most_served
}

#[test]
fn max_flow() {
    assert_eq!(most_served(&[], &[]), 0);
    assert_eq!(most_served(&[vec![]], &[5]), 0);
    assert_eq!(most_served(&[vec![0]], &[0]), 0);
    assert_eq!(most_served(&[vec![0], vec![0], vec![0]], &[2]), 2);
    // Example (j): the second pane needs the glass that first fit gives to the first.
    assert_eq!(most_served(&[vec![0, 1], vec![0]], &[1, 1]), 2);
    // A chain in which all have to move for the last.
    let mut chain: Vec<Vec<usize>> = (0..63).map(|at| vec![at, at + 1]).collect();
    chain.push(vec![0]);
    assert_eq!(most_served(&chain, &[1; 64]), 64);
    chain.push(vec![7, 8]);
    assert_eq!(most_served(&chain, &[1; 64]), 64);
    chain.push(vec![0, 64]);
    assert_eq!(most_served(&chain, &[1; 65]), 65);
}

/// The placing of the flow, and the panes on the source's side of the cut.
#[test]
fn placing_and_group() {
    let flow = Flow::of(&[vec![0, 1], vec![0], vec![]], &[1, 1]);
    assert_eq!(flow.glass_of, [Some(1), Some(0), None]);
    assert_eq!(flow.group, [2]);
    let flow = Flow::of(&[vec![0], vec![1], vec![0], vec![1, 2]], &[1, 1, 5]);
    assert_eq!(flow.group, [0, 2]);
    assert_eq!(Flow::of(&[vec![0]], &[1]).group, [0; 0]);
}

/// On every group of the small roofs: none is short by more than the panes that cannot be served, and the
/// group of the cut is short by as many.
#[test]
fn no_group_is_short_by_more() {
    let roofs = jobs().map(|(_, job)| Roof::of(job));
    let small = roofs.filter(|roof| roof.job.panes().len() <= 8);
    let mut short = 0;
    for roof in small {
        let most = every_group(&roof)
            .map(|group| shortage(&roof, &group))
            .max();
        assert_eq!(most, Some(roof.shortage()));
        assert_eq!(shortage(&roof, &roof.flow.group), roof.shortage());
        short += usize::from(roof.shortage() > 1);
    }
    println!("{short} roofs with more than one pane that cannot be served");
    assert!(short > 100);
}

/// Every group of panes, also the one without panes.
fn every_group(roof: &Roof) -> impl Iterator<Item = Vec<usize>> {
    let panes = roof.job.panes().len();
    let is_in = |group: usize, pane: usize| group >> pane & 1 == 1;
    (0..1 << panes).map(move |group| (0..panes).filter(|&pane| is_in(group, pane)).collect())
}

fn shortage(roof: &Roof, group: &[usize]) -> usize {
    group.len().saturating_sub(roof.sheets(group))
}

fn roof(file: &[u8]) -> Roof {
    Roof::of(read(file).expect("an accepted file"))
}

/// The rules that a flow breaks.
fn broken(roof: &Roof) -> Vec<&'static str> {
    let broken = check_flow(roof).into_iter();
    broken.map(|broken| broken.rule).collect()
}

/// Panes 1, 3, 4, 6 and 5, and glasses 9, 7 and 8.
#[test]
fn right_flow() {
    let roof = roof(TWO_PLACES_JOB);
    assert_eq!(roof.flow.most_served, 3);
    assert_eq!(roof.flow.group, [1, 2, 3, 4]);
    assert_eq!(broken(&roof), [""; 0]);
}

/// Pane 1 has the glass of panes 3 and 4, and all else is legal. No group makes up for it.
#[test]
fn too_small_a_flow() {
    let mut roof = roof(TWO_PLACES_JOB);
    roof.flow.most_served = 2;
    roof.flow.glass_of = vec![Some(0), None, None, Some(1), None];
    for group in every_group(&roof) {
        let rule = if group.is_empty() { GROUP } else { WHOLE };
        roof.flow.group = group;
        assert!(broken(&roof).contains(&rule), "{:?}", roof.flow.group);
    }
}

/// A flow that ends before it serves all.
#[test]
fn too_small_a_flow_on_a_full_roof() {
    let mut roof = roof(EXAMPLE_J);
    roof.flow.most_served = 1;
    roof.flow.glass_of = vec![Some(0), None];
    for group in every_group(&roof) {
        roof.flow.group = group;
        assert_ne!(broken(&roof), [""; 0], "{:?}", roof.flow.group);
    }
}

/// A number, a sheet or a glass too much. The group 3, 4 and 6 would be right for it.
#[test]
fn too_large_a_flow() {
    let mut roof = roof(TWO_PLACES_JOB);
    roof.flow.most_served = 4;
    roof.flow.group = vec![1, 2, 3];
    roof.flow.glass_of = vec![Some(2), Some(0), None, Some(1), None];
    assert_eq!(broken(&roof), [PLACED, GREATEST, LEFT]);
    roof.flow.glass_of = vec![Some(2), Some(0), None, Some(1), Some(1)];
    assert_eq!(broken(&roof), [STOCK]);
    roof.flow.glass_of = vec![Some(2), Some(0), None, Some(1), Some(2)];
    assert_eq!(broken(&roof), [PASSING]);
}

/// All panes are said to be served, so that there is no group.
#[test]
fn a_full_flow_on_a_short_roof() {
    let mut roof = roof(TWO_PLACES_JOB);
    roof.flow.most_served = 5;
    roof.flow.group = Vec::new();
    assert_eq!(broken(&roof), [PLACED, GREATEST]);
    roof.flow.glass_of = vec![Some(2), Some(0), Some(0), Some(1), Some(1)];
    assert_eq!(broken(&roof), [STOCK, STOCK]);
}

/// A right placing with a group that is not the one of a minimum cut.
#[test]
fn a_wrong_cut() {
    let mut roof = roof(TWO_PLACES_JOB);
    for group in every_group(&roof).filter(|group| *group != [1, 2, 3, 4]) {
        roof.flow.group = group;
        assert_ne!(broken(&roof), [""; 0], "{:?}", roof.flow.group);
    }
}
