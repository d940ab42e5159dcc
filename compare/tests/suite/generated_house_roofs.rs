//! That the generator draws house roofs by wind class (document 02, 2026-03): plausible ones, ones that
//! are hard to place, and in every class and zone constants that just bear a pane or just do not.

use crate::pairs::{
    down_governs, files_with, for_each_pair, jobs, judge, just_bears, just_fails, not_few,
    up_governs, FEW,
};
use crate::table_a2::{
    classes_and_zones, right_pressures, DOWN_CAN_GOVERN, DOWN_CAN_GOVERN_ON_ALL,
};
use compare::generator::Kind;
use compare::job::{Glass, Job, Pane, Wind};
use compare::roof::Roof;

/// Panes by class and all panes of a job.
fn by_class(job: &Job) -> (usize, usize) {
    let panes = job.panes();
    let count = panes.iter().filter(|pane| is_by_class(pane)).count();
    (count, panes.len())
}

fn is_by_class(pane: &Pane) -> bool {
    matches!(pane.wind, Wind::Class { .. })
}

fn is_mixed(job: &Job) -> bool {
    let (by_class, panes) = by_class(job);
    (1..panes).contains(&by_class)
}

fn is_by_class_alone(job: &Job) -> bool {
    let (by_class, panes) = by_class(job);
    panes > 0 && by_class == panes
}

#[test]
fn a_fair_share_of_plausible_roofs() {
    let honest = jobs().filter(|(kind, _)| *kind == Kind::Honest);
    let roofs: Vec<Job> = honest.map(|(_, job)| job).collect();
    let by_class = roofs.iter().filter(|job| is_by_class_alone(job)).count();
    let mixed = roofs.iter().filter(|job| is_mixed(job)).count();
    println!("{by_class} by class and {mixed} mixed of {}", roofs.len());
    assert!(10 * by_class > roofs.len());
    assert!(10 * mixed > roofs.len());
    assert!(2 * (by_class + mixed) < roofs.len());
}

/// On plausible roofs and others.
#[test]
fn full_and_short_placings() {
    for kind in [Kind::Honest, Kind::Hard] {
        let roofs = jobs().filter(|(of, _)| *of == kind);
        let roofs: Vec<Roof> = roofs.map(|(_, job)| Roof::of(job)).collect();
        for (name, some_or_all) in [
            ("some", is_mixed as fn(&Job) -> bool),
            ("all", is_by_class_alone),
        ] {
            for full in [true, false] {
                let such = roofs.iter().filter(|roof| some_or_all(&roof.job));
                let such = such.filter(|roof| is_full(roof) == full);
                let name = format!("{kind:?}, {name} by class, full {full}");
                not_few(&name, such.count());
            }
        }
    }
}

fn is_full(roof: &Roof) -> bool {
    roof.flow.most_served == roof.job.panes().len()
}

#[test]
fn every_verdict() {
    let mut counts = [0; 5];
    for_each_pair(|pane, glass| {
        if is_by_class(pane) {
            counts[judge(pane, glass)] += 1;
        }
    });
    println!("panes by class, by verdict: {counts:?}");
    assert!(counts.iter().all(|&count| count >= FEW));
}

/// Whether the constant is just enough, or one too small.
const AT_THE_BOUNDARY: [fn(&Pane, &Glass) -> bool; 2] = [just_bears, just_fails];

#[test]
fn the_boundaries_where_down_governs() {
    check_boundaries(&[1], &DOWN_CAN_GOVERN, down_governs);
    check_boundaries(&[2, 3, 4], &DOWN_CAN_GOVERN_ON_ALL, down_governs);
}

#[test]
fn the_boundaries_where_up_governs() {
    let rows: Vec<(u16, u16)> = classes_and_zones().collect();
    check_boundaries(&[1], &rows, up_governs);
    check_boundaries(&[2, 3, 4], &rows, up_governs);
}

/// Both sides of the boundary come up with glass of these kinds in each of these classes and zones
/// where this pressure governs.
fn check_boundaries(kinds: &[u8], rows: &[(u16, u16)], governs: fn(&Pane, u8, u8) -> bool) {
    for at_the_boundary in AT_THE_BOUNDARY {
        let counts = files_with(rows.len(), |at, pane, glass| {
            let (class, zone) = rows[at];
            pane.wind == Wind::Class { class, zone }
                && kinds.contains(&glass.kind)
                && governs(pane, glass.kind, glass.thick)
                && at_the_boundary(pane, glass)
        });
        println!("kinds {kinds:?}, files by class and zone: {counts:?}");
        assert!(counts.iter().all(|&count| count >= FEW));
    }
}

/// With two edges and with four.
#[test]
fn the_boundaries_by_edges() {
    for edges in [2, 4] {
        let counts = files_with(2, |at, pane, glass| {
            is_by_class(pane) && pane.edges == edges && AT_THE_BOUNDARY[at](pane, glass)
        });
        println!("{edges} edges: {counts:?} files");
        assert!(counts.iter().all(|&count| count >= FEW));
    }
}

#[test]
fn judged_as_a_pane_with_the_pressures() {
    for_each_pair(|pane, glass| {
        if let Wind::Class { class, zone } = pane.wind {
            let wind = right_pressures(class, zone);
            let expected = judge(&Pane { wind, ..*pane }, glass);
            assert_eq!(judge(pane, glass), expected, "{pane:?} and {glass:?}");
        }
    });
}
