//! Cut sizes: document 02, 2026-02. The figures were read from the documents, from Table 5 of NZS
//! 4223.1 and from Tables 6.1 to 6.5 of AS 1288 by hand.

use crate::jobs::{glass, CUT_JOB};
use compare::clauses::{verdict, Loads, FAILS_POINT_LOAD, FAILS_SIZE, FAILS_UNIFORM_LOAD, PASSES};
use compare::job::{Glass, Pane, Wind};
use compare::reader::read;
use compare::roof::Roof;

/// A pane with a live load of 0.5 kN and no wind.
fn pane(edges: u8, w: u16, h: u16) -> Pane {
    Pane {
        id: 1,
        edges,
        angle: 30,
        w,
        h,
        ..Pane::default()
    }
}

/// A sheet of laminated toughened glass.
fn sheet(thick: u8, w: u16, h: u16) -> Glass {
    Glass {
        thick,
        w,
        h,
        ..glass()
    }
}

/// The verdict on a pane and a sheet, which has to be the same with the sheet turned.
fn judge(pane: Pane, sheet: Glass) -> usize {
    let turned = Glass {
        w: sheet.h,
        h: sheet.w,
        ..sheet
    };
    let verdict = Loads::of(&pane).judge(&sheet);
    assert_eq!(Loads::of(&pane).judge(&turned), verdict);
    verdict
}

/// A pane of 500 by 640, with two edges and with four, either way round. It passes in every
/// thickness, for two edges of 6 mm span 650.
fn panes_of_500_by_640() -> [Pane; 4] {
    [
        pane(2, 500, 640),
        pane(2, 640, 500),
        pane(4, 500, 640),
        pane(4, 640, 500),
    ]
}

/// Thickness, and the cut size of a pane of 500 by 640.
const CUT_SIZES: [(u8, u16, u16); 4] =
    [(6, 512, 652), (8, 516, 656), (10, 516, 656), (12, 518, 658)];

#[test]
fn sheets_of_the_cut_size_and_one_mm_off() {
    for (thick, w, h) in CUT_SIZES {
        for pane in panes_of_500_by_640() {
            let judge = |w, h| judge(pane, sheet(thick, w, h));
            assert_eq!(judge(w, h), PASSES);
            assert_eq!(judge(w + 1, h + 1), PASSES);
            assert_eq!(judge(w - 1, h), FAILS_SIZE);
            assert_eq!(judge(w, h - 1), FAILS_SIZE);
            assert_eq!(judge(w - 1, h - 1), FAILS_SIZE);
            assert_eq!(judge(w - 1, 9999), FAILS_SIZE);
            assert_eq!(judge(h - 1, h - 1), FAILS_SIZE);
        }
    }
}

#[test]
fn sheets_of_the_sight_size() {
    for thick in [6, 8, 10, 12] {
        for pane in panes_of_500_by_640() {
            assert_eq!(judge(pane, sheet(thick, 500, 640)), FAILS_SIZE);
            assert_eq!(judge(pane, sheet(thick, 500, 9999)), FAILS_SIZE);
            assert_eq!(judge(pane, sheet(thick, 640, 640)), FAILS_SIZE);
        }
    }
}

/// The sight size lies within the first two sheets either way round, the cut size only one way.
#[test]
fn almost_square() {
    for pane in [pane(4, 1000, 1010), pane(4, 1010, 1000)] {
        assert_eq!(judge(pane, sheet(12, 1018, 1028)), PASSES);
        assert_eq!(judge(pane, sheet(6, 1012, 1022)), PASSES);
        assert_eq!(judge(pane, sheet(12, 1027, 1027)), FAILS_SIZE);
        assert_eq!(judge(pane, sheet(6, 1021, 1021)), FAILS_SIZE);
    }
}

/// The span of 5000 fails by clause 3 where the sheet is large enough.
#[test]
fn the_largest_pane() {
    for (thick, side) in [(6, 5012), (8, 5016), (10, 5016), (12, 5018)] {
        for edges in [2, 4] {
            let judge = |w, h| judge(pane(edges, 5000, 5000), sheet(thick, w, h));
            assert_eq!(judge(side, side), FAILS_POINT_LOAD);
            assert_eq!(judge(side - 1, side), FAILS_SIZE);
            assert_eq!(judge(side - 1, 9999), FAILS_SIZE);
            assert_eq!(judge(5000, 5000), FAILS_SIZE);
        }
    }
}

/// Laminated toughened, 12 mm, 0.5 kN spans 2000 in every column.
#[test]
fn the_largest_pane_that_passes() {
    for pane in [pane(2, 2000, 5000), pane(4, 2000, 5000)] {
        let judge = |w, h| judge(pane, sheet(12, w, h));
        assert_eq!(judge(2018, 5018), PASSES);
        assert_eq!(judge(2017, 5018), FAILS_SIZE);
        assert_eq!(judge(2018, 5017), FAILS_SIZE);
    }
}

#[test]
fn sheets_of_hardly_more_than_the_covers() {
    for (thick, covers) in [(6, 12), (8, 16), (10, 16), (12, 18)] {
        for edges in [2, 4] {
            let judge = |w, h| judge(pane(edges, 1, 1), sheet(thick, w, h));
            assert_eq!(judge(covers + 1, covers + 1), PASSES);
            assert_eq!(judge(covers, 9999), FAILS_SIZE);
            assert_eq!(judge(covers - 1, 9999), FAILS_SIZE);
            assert_eq!(judge(1, 9999), FAILS_SIZE);
            assert_eq!(judge(1, 1), FAILS_SIZE);
        }
    }
}

/// A pane at the entry passes in a sheet of its cut size: the span has no cover.
#[test]
fn clause_3_reads_the_sight_size() {
    let judge = |edges, (w, h), (kind, thick, sheet_w, sheet_h)| {
        let sheet = sheet(thick, sheet_w, sheet_h);
        judge(pane(edges, w, h), Glass { kind, ..sheet })
    };
    // Laminated annealed, two edges: 12 mm spans 700.
    assert_eq!(judge(2, (700, 900), (1, 12, 718, 918)), PASSES);
    assert_eq!(judge(2, (701, 900), (1, 12, 719, 918)), FAILS_POINT_LOAD);
    // Laminated heat-strengthened, AR=3: 10 mm spans 1800.
    assert_eq!(judge(4, (1800, 4500), (2, 10, 1816, 4516)), PASSES);
    let one_more = judge(4, (1801, 4500), (2, 10, 1817, 4516));
    assert_eq!(one_more, FAILS_POINT_LOAD);
    // Laminated heat-strengthened, AR=2: 8 mm spans 1800.
    assert_eq!(judge(4, (3000, 1800), (2, 8, 3016, 1816)), PASSES);
    let one_more = judge(4, (3000, 1801), (2, 8, 3016, 1817));
    assert_eq!(one_more, FAILS_POINT_LOAD);
    // Laminated annealed, AR=1: 6 mm spans 400.
    assert_eq!(judge(4, (400, 400), (1, 6, 412, 412)), PASSES);
    assert_eq!(judge(4, (401, 401), (1, 6, 413, 413)), FAILS_POINT_LOAD);
}

/// With the covers, these panes would be of a smaller ratio, and the longer span of its column would
/// let them pass.
#[test]
fn the_column_is_by_the_sight_size() {
    // Laminated heat-strengthened, 10 mm: AR=2 spans 2000 and AR=3 spans 1800. The cut size is 1817
    // by 3619.
    let sheet_10 = Glass {
        kind: 2,
        ..sheet(10, 1817, 3619)
    };
    assert_eq!(judge(pane(4, 1801, 3602), sheet_10), PASSES);
    assert_eq!(judge(pane(4, 1801, 3603), sheet_10), FAILS_POINT_LOAD);
    // Laminated annealed, 12 mm: AR=3 spans 1900 and two edges span 700. The cut size is 1018 by
    // 3019.
    let sheet_12 = Glass {
        kind: 1,
        ..sheet(12, 1018, 3019)
    };
    assert_eq!(judge(pane(4, 1000, 3000), sheet_12), PASSES);
    assert_eq!(judge(pane(4, 1000, 3001), sheet_12), FAILS_POINT_LOAD);
}

/// B is 100 and P is 144, so that K is to be 1200. At 0 degrees the maximum dead loads of toughened
/// glass are 36, 48, 59 and 71, and the wind is what 144 leaves.
#[test]
fn clause_4_reads_the_sight_size() {
    for (thick, down, side) in [(6, 108, 112), (8, 96, 116), (10, 85, 116), (12, 73, 118)] {
        let pane = Pane {
            angle: 0,
            wind: Wind::Pressures { down, up: 0 },
            ..pane(4, 100, 100)
        };
        let four = |four| {
            let sheet = sheet(thick, side, side);
            judge(pane, Glass { four, ..sheet })
        };
        assert_eq!(four(1200), PASSES);
        assert_eq!(four(1199), FAILS_UNIFORM_LOAD);
    }
    let two_edge = Pane {
        angle: 0,
        wind: Wind::Pressures { down: 73, up: 0 },
        ..pane(2, 100, 300)
    };
    let two = |two| {
        let sheet = sheet(12, 118, 318);
        judge(two_edge, Glass { two, ..sheet })
    };
    assert_eq!(two(1200), PASSES);
    assert_eq!(two(1199), FAILS_UNIFORM_LOAD);
}

#[test]
fn a_job_of_cut_sizes() {
    for pane in [1, 2] {
        assert_eq!(verdict(CUT_JOB, pane, 9), Ok(PASSES));
        assert_eq!(verdict(CUT_JOB, pane, 7), Ok(FAILS_SIZE));
    }
    let job = read(CUT_JOB).expect("an accepted file");
    assert_eq!(Roof::of(job).flow.most_served, 1);
}
