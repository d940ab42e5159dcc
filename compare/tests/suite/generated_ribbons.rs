//! That the generator draws ribbons (document 02, 2026-01) of every verdict, of the utmost sides and
//! at the boundaries, and that each is judged as its two-edge column and the constant "four" say.

use crate::pairs::{
    each_comes_up, for_each_pair, jobs, judge, just_bears, just_fails, two_for_four, FEW,
};
use compare::clauses::{thickness_index, Loads, FAILS_POINT_LOAD, FAILS_UNIFORM_LOAD, PASSES};
use compare::generator::Kind;
use compare::job::{Glass, Pane};
use compare::tables::{SPANS, TWO_EDGE};

#[test]
fn a_fair_share_of_plausible_roofs() {
    let honest = jobs().filter(|(kind, _)| *kind == Kind::Honest);
    let panes = honest.flat_map(|(_, job)| job.panes().to_vec());
    let four_edges: Vec<Pane> = panes.filter(|pane| pane.edges == 4).collect();
    let ribbons = four_edges.iter().filter(|pane| pane.is_ribbon()).count();
    println!("{ribbons} ribbons of {} four-edge panes", four_edges.len());
    assert!(5 * ribbons > four_edges.len());
    assert!(2 * ribbons < four_edges.len());
}

#[test]
fn every_verdict_either_way_round() {
    let mut counts = [[0; 5]; 2];
    for_each_pair(|pane, glass| {
        if pane.is_ribbon() {
            let w_longer = usize::from(pane.w > pane.h);
            counts[w_longer][judge(pane, glass)] += 1;
        }
    });
    println!("by verdict, h longer and w longer: {counts:?}");
    assert!(counts.iter().flatten().all(|&count| count >= FEW));
}

#[test]
fn the_utmost_sides() {
    each_comes_up(&[
        ("5000 by 1 passes", |pane, glass| {
            is_ribbon_of(pane, 5_000, 1) && judge(pane, glass) == PASSES
        }),
        ("5000 by 1 fails by clause 3", |pane, glass| {
            is_ribbon_of(pane, 5_000, 1) && judge(pane, glass) == FAILS_POINT_LOAD
        }),
        ("1 by 5000 passes", |pane, glass| {
            is_ribbon_of(pane, 1, 5_000) && judge(pane, glass) == PASSES
        }),
        ("1 by 5000 fails by clause 3", |pane, glass| {
            is_ribbon_of(pane, 1, 5_000) && judge(pane, glass) == FAILS_POINT_LOAD
        }),
    ]);
}

#[test]
fn the_boundaries() {
    each_comes_up(&[
        ("span at the entry passes", |pane, glass| {
            pane.is_ribbon()
                && Loads::of(pane).span == entry(pane, glass)
                && judge(pane, glass) == PASSES
        }),
        ("span one above the entry fails", |pane, glass| {
            pane.is_ribbon()
                && Loads::of(pane).span == entry(pane, glass) + 1
                && judge(pane, glass) == FAILS_POINT_LOAD
        }),
        ("four is just enough, two is not", |pane, glass| {
            pane.is_ribbon()
                && just_bears(pane, glass)
                && judge(pane, &two_for_four(glass)) == FAILS_UNIFORM_LOAD
        }),
        ("four is one too small, two is not", |pane, glass| {
            pane.is_ribbon()
                && just_fails(pane, glass)
                && judge(pane, &two_for_four(glass)) == PASSES
        }),
    ]);
}

/// A ribbon has the verdict of the two-edge pane that spans its shorter side, if that pane's glass
/// has the constant "four" for both.
#[test]
fn judged_as_a_two_edge_pane_with_the_constant_four() {
    for_each_pair(|pane, glass| {
        if pane.is_ribbon() {
            let two_edge = Pane {
                edges: 2,
                w: pane.shorter_side(),
                h: pane.longer_side(),
                ..*pane
            };
            let four_for_two = Glass {
                two: glass.four,
                ..*glass
            };
            let expected = judge(&two_edge, &four_for_two);
            assert_eq!(judge(pane, glass), expected, "{pane:?} and {glass:?}");
        }
    });
}

fn is_ribbon_of(pane: &Pane, w: u16, h: u16) -> bool {
    pane.is_ribbon() && (pane.w, pane.h) == (w, h)
}

/// The two-edge entry of a glass for the live load of a pane.
fn entry(pane: &Pane, glass: &Glass) -> u16 {
    let kind = usize::from(glass.kind) - 1;
    SPANS[kind][Loads::of(pane).live_load][thickness_index(glass.thick)][TWO_EDGE]
}
