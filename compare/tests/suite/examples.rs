//! The bench examples (a) to (j) of document 01 on the second implementation, with the last size of
//! (c) by document 02, 2026-01, and the dead loads by 2026-06.

use crate::jobs::{accepted, glass, EXAMPLE_J};
use compare::clauses::{verdict, Loads, FAILS_KIND, FAILS_POINT_LOAD, FAILS_UNIFORM_LOAD, PASSES};
use compare::job::{Glass, Pane, Wind};
use compare::reader::read;
use compare::refusal::Refusal;
use compare::roof::Roof;
use compare::tables::SPANS;

/// A square four-edge pane with no wind.
fn pane() -> Pane {
    Pane {
        id: 1,
        edges: 4,
        w: 1000,
        h: 1000,
        ..Pane::default()
    }
}

#[test]
fn a_live_load() {
    let live_load = |angle, awning| {
        Loads::of(&Pane {
            angle,
            awning,
            ..pane()
        })
        .live_load
    };
    assert_eq!(live_load(29, false), 1);
    assert_eq!(live_load(30, false), 0);
    assert_eq!(live_load(45, true), 2);
    assert_eq!(live_load(0, true), 2);
}

#[test]
fn b_kind() {
    let judge = |top, kind| Loads::of(&Pane { top, ..pane() }).judge(&Glass { kind, ..glass() });
    assert_eq!(judge(2999, 4), PASSES);
    assert_eq!(judge(3000, 4), FAILS_KIND);
    assert_eq!(judge(3000, 3), PASSES);
}

#[test]
fn c_column() {
    let column = |h| {
        let job = accepted("", &format!("P 1 4 0 0 0 1000 {h} 0 0\n"));
        Loads::of(&job.panes()[0]).column
    };
    assert_eq!([1000, 1001, 2000, 2001, 3000].map(column), [0, 1, 1, 2, 2]);
    assert_eq!(column(3001), 3);
}

#[test]
fn d_the_heavier_load_may_have_the_longer_span() {
    let judge = |angle, w| {
        let pane = Pane {
            angle,
            w,
            h: 4_500,
            ..pane()
        };
        let glass = Glass {
            kind: 2,
            thick: 10,
            ..glass()
        };
        assert_eq!(Loads::of(&pane).column, 2);
        Loads::of(&pane).judge(&glass)
    };
    assert_eq!(judge(30, 1800), PASSES);
    assert_eq!(judge(30, 1801), FAILS_POINT_LOAD);
    assert_eq!(judge(29, 2000), PASSES);
    assert_eq!(judge(29, 2001), FAILS_POINT_LOAD);
}

#[test]
fn e_rows_of_32_degrees() {
    let pressure = |angle, down, up| {
        let pane = Pane {
            angle,
            wind: Wind::Pressures { down, up },
            ..pane()
        };
        Loads::of(&pane).pressure(1, 6)
    };
    // The figures of the rows are those of annealed glass of 6 mm.
    assert_eq!(pressure(32, 0, 0), 49);
    assert_eq!(pressure(32, 0, 1000), 1000 - 11);
    assert_eq!(pressure(32, 100, 5), 149);
    // Angles at which another row would give another load.
    assert_eq!(pressure(20, 0, 0), 54);
    assert_eq!(pressure(19, 0, 0), 55);
    assert_eq!(pressure(20, 0, 1000), 1000 - 12);
    assert_eq!(pressure(21, 0, 1000), 1000 - 12);
    assert_eq!(pressure(74, 0, 0), 19);
    assert_eq!(pressure(74, 0, 1000), 1000 - 3);
}

#[test]
fn f_rounding_at_10_degrees_and_8_mm() {
    let pressure = |up| {
        let pane = Pane {
            angle: 10,
            wind: Wind::Pressures { down: 0, up },
            ..pane()
        };
        Loads::of(&pane).pressure(1, 8)
    };
    assert_eq!(pressure(0), 75);
    assert_eq!(pressure(1000), 1000 - 17);
}

#[test]
fn g_uniform_load() {
    // At 0 degrees, toughened glass of 12 mm has a maximum dead load of 71.
    let pane = Pane {
        w: 100,
        h: 100,
        wind: Wind::Pressures { down: 73, up: 0 },
        ..pane()
    };
    assert_eq!(Loads::of(&pane).pressure(3, 12), 144);
    let four = |four| Loads::of(&pane).judge(&Glass { four, ..glass() });
    assert_eq!(four(1200), PASSES);
    assert_eq!(four(1199), FAILS_UNIFORM_LOAD);
    let pane = Pane { edges: 2, ..pane };
    let two = |two| Loads::of(&pane).judge(&Glass { two, ..glass() });
    assert_eq!(two(1200), PASSES);
    assert_eq!(two(1199), FAILS_UNIFORM_LOAD);
}

#[test]
fn h_trailer_alone() {
    let job = read(b"T 00000 00000\n").unwrap();
    assert_eq!((job.glasses().len(), job.panes().len()), (0, 0));
    assert_eq!(Roof::of(job).flow.most_served, 0);
}

#[test]
fn i_thirteen_bytes() {
    assert_eq!(read(b"T 0000 00000\n").unwrap_err(), Refusal::new(1, 0));
}

#[test]
fn j_the_job_of_the_program() {
    let job = read(EXAMPLE_J).unwrap();
    assert_eq!((job.glasses().len(), job.panes().len()), (2, 2));
    assert_eq!(Roof::of(job).flow.most_served, 2);
    assert_eq!(verdict(EXAMPLE_J, 1, 9), Ok(PASSES));
    assert_eq!(verdict(EXAMPLE_J, 1, 7), Ok(PASSES));
    assert_eq!(verdict(EXAMPLE_J, 2, 9), Ok(PASSES));
    assert_eq!(verdict(EXAMPLE_J, 2, 7), Ok(FAILS_POINT_LOAD));
    assert_eq!(verdict(EXAMPLE_J, 3, 8), Err(Refusal::new(10, 0)));
    assert_eq!(verdict(EXAMPLE_J, 65_537, 9), Err(Refusal::new(10, 0)));
    assert_eq!(verdict(EXAMPLE_J, 1, 8), Err(Refusal::new(11, 0)));
    assert_eq!(verdict(b"", 1, 8), Err(Refusal::new(1, 0)));
}

#[test]
fn spans_are_ordered() {
    for loads in &SPANS {
        for rows in loads {
            for column in 0..4 {
                assert!(rows
                    .windows(2)
                    .all(|pair| pair[0][column] <= pair[1][column]));
            }
            assert!(rows
                .iter()
                .all(|row| row.windows(2).all(|pair| pair[0] >= pair[1])));
        }
    }
}
