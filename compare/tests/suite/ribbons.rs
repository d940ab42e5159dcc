//! Ribbons, the four-edge panes over 3 times as long as wide: document 02, 2026-01. The figures were
//! read from the documents and from Tables 6.1 to 6.5 of AS 1288 by hand.

use crate::jobs::{glass, RIBBON_JOB};
use compare::clauses::{
    verdict, Loads, FAILS_KIND, FAILS_POINT_LOAD, FAILS_SIZE, FAILS_UNIFORM_LOAD, PASSES,
};
use compare::job::{Glass, Pane, Wind};
use compare::reader::read;
use compare::roof::Roof;

/// Angle and awning, for a live load of 0.5, 1.1 and 1.8 kN.
const STEEP: (u8, bool) = (30, false);
const FLAT: (u8, bool) = (29, false);
const AWNING: (u8, bool) = (45, true);

/// Kind, live load and the spans of the two-edge column for 6, 8, 10 and 12 mm, a dash as 0.
const TWO_EDGE_COLUMN: [(u8, (u8, bool), [u16; 4]); 12] = [
    (1, STEEP, [0, 0, 250, 700]),
    (1, FLAT, [0, 0, 0, 0]),
    (1, AWNING, [0, 0, 0, 0]),
    (2, STEEP, [0, 800, 1600, 1950]),
    (2, FLAT, [0, 0, 250, 800]),
    (2, AWNING, [0, 0, 0, 0]),
    (3, STEEP, [650, 1800, 2000, 2000]),
    (3, FLAT, [0, 250, 850, 1900]),
    (3, AWNING, [0, 0, 0, 700]),
    (4, STEEP, [700, 1800, 2000, 2000]),
    (4, FLAT, [0, 400, 1000, 1950]),
    (4, AWNING, [0, 0, 300, 700]),
];

/// A four-edge pane with a live load of 0.5 kN and no wind.
fn pane(w: u16, h: u16) -> Pane {
    Pane {
        id: 1,
        edges: 4,
        angle: 30,
        w,
        h,
        ..Pane::default()
    }
}

/// The verdict on a pane, which has to be the same the other way round.
fn judge(pane: Pane, glass: Glass) -> usize {
    let turned = Pane {
        w: pane.h,
        h: pane.w,
        ..pane
    };
    let verdict = Loads::of(&pane).judge(&glass);
    assert_eq!(Loads::of(&turned).judge(&glass), verdict);
    verdict
}

#[test]
fn clause_1_kind() {
    let judge = |top, kind| {
        let pane = Pane {
            top,
            ..pane(500, 2000)
        };
        judge(pane, Glass { kind, ..glass() })
    };
    assert_eq!(judge(2999, 4), PASSES);
    assert_eq!(judge(3000, 4), FAILS_KIND);
    assert_eq!(judge(3000, 3), PASSES);
}

/// 12 mm has an edge cover of 9.
#[test]
fn clause_2_size() {
    let judge = |w, h| {
        let sheet = Glass {
            w: 618,
            h: 3018,
            ..glass()
        };
        judge(pane(w, h), sheet)
    };
    assert_eq!(judge(600, 3000), PASSES);
    assert_eq!(judge(601, 3000), FAILS_SIZE);
    assert_eq!(judge(600, 3001), FAILS_SIZE);
    assert_eq!(judge(1, 5000), FAILS_SIZE);
}

#[test]
fn clause_3_reads_the_two_edge_column() {
    // No ribbon is wider: 3 times 1666 is 4998, and 3 times 1667 is 5001.
    let widest = 1666;
    for (kind, (angle, awning), spans) in TWO_EDGE_COLUMN {
        for (thick, span) in [6, 8, 10, 12].into_iter().zip(spans) {
            let judge = |shorter, longer| {
                let pane = Pane {
                    angle,
                    awning,
                    ..pane(shorter, longer)
                };
                let glass = Glass {
                    kind,
                    thick,
                    ..glass()
                };
                judge(pane, glass)
            };
            let at_most = span.min(widest);
            if at_most > 0 {
                assert_eq!(judge(at_most, 3 * at_most + 1), PASSES);
                assert_eq!(judge(at_most, 5000), PASSES);
            }
            let above = span + 1;
            if above <= widest {
                assert_eq!(judge(above, 3 * above + 1), FAILS_POINT_LOAD);
                assert_eq!(judge(above, 5000), FAILS_POINT_LOAD);
            }
        }
    }
}

/// Laminated annealed, 12 mm, 0.5 kN: AR=3 spans 1900, two edges 700.
#[test]
fn a_ribbon_begins_over_3_times() {
    let annealed = Glass { kind: 1, ..glass() };
    let judge = |shorter, longer| judge(pane(shorter, longer), annealed);
    assert_eq!(judge(701, 2102), PASSES);
    assert_eq!(judge(701, 2103), PASSES);
    assert_eq!(judge(701, 2104), FAILS_POINT_LOAD);
    assert_eq!(judge(700, 2101), PASSES);
    assert_eq!(judge(1000, 3000), PASSES);
    assert_eq!(judge(1000, 3001), FAILS_POINT_LOAD);
    assert_eq!(judge(1666, 4998), PASSES);
    assert_eq!(judge(1666, 4999), FAILS_POINT_LOAD);
}

/// Laminated annealed, 8 mm, 0.5 kN: AR=3 spans 800, and two edges have a dash.
#[test]
fn a_dash_passes_no_ribbon() {
    let thin = Glass {
        kind: 1,
        thick: 8,
        ..glass()
    };
    let judge = |shorter, longer| judge(pane(shorter, longer), thin);
    assert_eq!(judge(800, 2400), PASSES);
    assert_eq!(judge(800, 2401), FAILS_POINT_LOAD);
    assert_eq!(judge(1, 3), PASSES);
    assert_eq!(judge(1, 4), FAILS_POINT_LOAD);
    assert_eq!(judge(1, 5000), FAILS_POINT_LOAD);
}

/// A two-edge pane spans its w, a ribbon its shorter side.
#[test]
fn the_span_is_the_shorter_side() {
    let judge = |edges, w, h| {
        Loads::of(&Pane {
            edges,
            ..pane(w, h)
        })
        .judge(&glass())
    };
    assert_eq!(judge(4, 1000, 4000), PASSES);
    assert_eq!(judge(4, 4000, 1000), PASSES);
    assert_eq!(judge(2, 1000, 4000), PASSES);
    assert_eq!(judge(2, 4000, 1000), FAILS_POINT_LOAD);
}

#[test]
fn clause_4_has_the_constant_four() {
    // At 0 degrees, toughened glass of 12 mm has a maximum dead load of 71. With 73 of wind, P is 144.
    for longer in [301, 400, 500, 5000] {
        let pane = Pane {
            angle: 0,
            wind: Wind::Pressures { down: 73, up: 0 },
            ..pane(100, longer)
        };
        let judge = |two, four| {
            let glass = Glass {
                two,
                four,
                ..glass()
            };
            judge(pane, glass)
        };
        assert_eq!(judge(1, 1200), PASSES);
        assert_eq!(judge(99_999, 1200), PASSES);
        assert_eq!(judge(1, 1199), FAILS_UNIFORM_LOAD);
        assert_eq!(judge(99_999, 1199), FAILS_UNIFORM_LOAD);
    }
}

/// The ribbon is cut to 713 by 3517 from 6 mm, and to 717 by 3521 from 8 mm.
#[test]
fn the_first_clause_that_fails() {
    let ribbon = Pane {
        top: 3000,
        ..pane(701, 3505)
    };
    let worst = Glass {
        kind: 4,
        thick: 6,
        w: 712,
        h: 3600,
        four: 1,
        ..glass()
    };
    assert_eq!(judge(ribbon, worst), FAILS_KIND);
    let ribbon = Pane { top: 0, ..ribbon };
    assert_eq!(judge(ribbon, worst), FAILS_SIZE);
    let wider = Glass { w: 717, ..worst };
    assert_eq!(judge(ribbon, wider), FAILS_POINT_LOAD);
    let thicker = Glass { thick: 8, ..wider };
    assert_eq!(judge(ribbon, thicker), FAILS_UNIFORM_LOAD);
    let stronger = Glass {
        four: 99_999,
        ..thicker
    };
    assert_eq!(judge(ribbon, stronger), PASSES);
}

#[test]
fn a_job_of_ribbons() {
    assert_eq!(verdict(RIBBON_JOB, 3, 9), Ok(PASSES));
    assert_eq!(verdict(RIBBON_JOB, 3, 7), Ok(PASSES));
    assert_eq!(verdict(RIBBON_JOB, 1, 9), Ok(PASSES));
    assert_eq!(verdict(RIBBON_JOB, 1, 7), Ok(FAILS_POINT_LOAD));
    let job = read(RIBBON_JOB).expect("an accepted file");
    assert_eq!(Roof::of(job).flow.most_served, 2);
}
