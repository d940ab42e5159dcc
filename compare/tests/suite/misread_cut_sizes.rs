//! Likely misreadings of document 02, 2026-02, in clause 2. Each case is a generated pair of a pane and
//! a glass on which the misreading gives another verdict, so that a library with it is found.

use crate::pairs::{each_comes_up, files_with, judge, FEW};
use compare::clauses::{cut_size, edge_cover, FAILS_KIND, FAILS_SIZE, THICKNESSES};
use compare::job::{Glass, Pane};

/// Sides in mm, w and h.
type Sides = (u16, u16);

/// The largest number in Table 5 for 12 mm, and the largest edge cover for any thickness.
const LARGEST_COVER: usize = 15;

/// Every other cover for every thickness: none, that of another thickness, the thickness itself, and
/// the edge clearances and rebate depths of the table.
#[test]
fn another_cover() {
    for thick in THICKNESSES {
        let counts = files_with(LARGEST_COVER + 1, |cover, pane, glass| {
            let covered = with_sides_more(pane, 2 * cover as u16);
            glass.thick == thick && differs(pane, glass, lies_within(covered, glass))
        });
        println!("{thick} mm, files by cover from 0: {counts:?}");
        for (cover, count) in counts.into_iter().enumerate() {
            if cover == usize::from(edge_cover(thick)) {
                assert_eq!(count, 0);
            } else {
                assert!(count >= FEW, "a cover of {cover} for {thick} mm: {count}");
            }
        }
    }
}

#[test]
fn too_few_covers() {
    each_comes_up(&[
        ("one cover on each side", |pane, glass| {
            let covered = with_sides_more(pane, edge_cover(glass.thick));
            differs(pane, glass, lies_within(covered, glass))
        }),
        ("w alone covered", differs_with_w_alone),
        ("h alone covered", differs_with_h_alone),
        ("two edges, w alone covered", |pane, glass| {
            pane.edges == 2 && differs_with_w_alone(pane, glass)
        }),
        ("two edges, h alone covered", |pane, glass| {
            pane.edges == 2 && differs_with_h_alone(pane, glass)
        }),
        ("two edges, no cover", |pane, glass| {
            pane.edges == 2 && differs(pane, glass, lies_within(sight(pane), glass))
        }),
    ]);
}

#[test]
fn one_way_round() {
    each_comes_up(&[
        ("the cover upright only", |pane, glass| {
            let fits = upright(cut(pane, glass), glass) || turned(sight(pane), glass);
            differs(pane, glass, fits)
        }),
        ("the cover turned only", |pane, glass| {
            let fits = upright(sight(pane), glass) || turned(cut(pane, glass), glass);
            differs(pane, glass, fits)
        }),
        ("upright only", |pane, glass| {
            differs(pane, glass, upright(cut(pane, glass), glass))
        }),
        ("turned only", |pane, glass| {
            differs(pane, glass, turned(cut(pane, glass), glass))
        }),
        ("upright where the sight size fits so", |pane, glass| {
            let fits = if upright(sight(pane), glass) {
                upright(cut(pane, glass), glass)
            } else {
                turned(cut(pane, glass), glass)
            };
            differs(pane, glass, fits)
        }),
        ("turned where the sight size fits so", |pane, glass| {
            let fits = if turned(sight(pane), glass) {
                turned(cut(pane, glass), glass)
            } else {
                upright(cut(pane, glass), glass)
            };
            differs(pane, glass, fits)
        }),
    ]);
}

#[test]
fn another_comparison() {
    each_comes_up(&[
        ("equal sides fail", |pane, glass| {
            let (w, h) = cut(pane, glass);
            differs(pane, glass, lies_within((w + 1, h + 1), glass))
        }),
        ("an equal w fails", |pane, glass| {
            let (w, h) = cut(pane, glass);
            differs(pane, glass, lies_within((w + 1, h), glass))
        }),
        ("an equal h fails", |pane, glass| {
            let (w, h) = cut(pane, glass);
            differs(pane, glass, lies_within((w, h + 1), glass))
        }),
        ("the covers added to the sheet", |pane, glass| {
            let covers = 2 * edge_cover(glass.thick);
            let larger = Glass {
                w: glass.w + covers,
                h: glass.h + covers,
                ..*glass
            };
            differs(pane, glass, lies_within(sight(pane), &larger))
        }),
        (
            "the covers taken off the sheet, wrapped under 0",
            |pane, glass| {
                let covers = 2 * edge_cover(glass.thick);
                let smaller = Glass {
                    w: glass.w.wrapping_sub(covers),
                    h: glass.h.wrapping_sub(covers),
                    ..*glass
                };
                differs(pane, glass, lies_within(sight(pane), &smaller))
            },
        ),
    ]);
}

fn differs_with_w_alone(pane: &Pane, glass: &Glass) -> bool {
    let (w, _) = cut(pane, glass);
    differs(pane, glass, lies_within((w, pane.h), glass))
}

fn differs_with_h_alone(pane: &Pane, glass: &Glass) -> bool {
    let (_, h) = cut(pane, glass);
    differs(pane, glass, lies_within((pane.w, h), glass))
}

/// Whether the verdict is another one where clause 2 is read as passed, or as failed.
fn differs(pane: &Pane, glass: &Glass, passed: bool) -> bool {
    match judge(pane, glass) {
        FAILS_KIND => false,
        FAILS_SIZE => passed,
        _ => !passed,
    }
}

fn sight(pane: &Pane) -> Sides {
    (pane.w, pane.h)
}

fn cut(pane: &Pane, glass: &Glass) -> Sides {
    cut_size(pane, glass.thick)
}

fn with_sides_more(pane: &Pane, more: u16) -> Sides {
    (pane.w + more, pane.h + more)
}

fn upright((w, h): Sides, sheet: &Glass) -> bool {
    w <= sheet.w && h <= sheet.h
}

fn turned((w, h): Sides, sheet: &Glass) -> bool {
    upright((h, w), sheet)
}

fn lies_within(sides: Sides, sheet: &Glass) -> bool {
    upright(sides, sheet) || turned(sides, sheet)
}
