//! Sheets of just the cut size or 1 mm short of it, by edge cover: document 01, "The four clauses", clause
//! 2, with document 02, 2026-02.

use super::reading::Verdict;
use super::{crossed, Lines, Reading, Section};
use crate::clauses::{cut_size, edge_cover, lies_within, FAILS_KIND, FAILS_SIZE};
use crate::job::{Glass, Pane};

pub const SECTION: Section = Section {
    title: "clause 2 at its edge",
    unit: Some("verdicts"),
    names,
    count,
};

/// Edge covers in mm.
const COVERS: [u16; 3] = [6, 8, 9];

const CASES: [&str; 6] = [
    "sheet of the cut size",
    "sheet of the cut size, turned",
    "1 mm short in the sheet's w",
    "1 mm short in the sheet's h",
    "1 mm short in both",
    "only the sight size fits",
];

fn names() -> Vec<String> {
    crossed(&COVERS.map(|cover| format!("cover {cover}")), &CASES)
}

fn count(reading: &Reading, lines: &mut Lines) {
    for verdict in &reading.verdicts {
        let Verdict { pane, glass, .. } = verdict;
        let cover = edge_cover(glass.thick);
        let cover = COVERS.iter().position(|&of_line| of_line == cover);
        let first = CASES.len() * cover.expect("a cover of the table");
        match verdict.clause {
            FAILS_KIND => {}
            FAILS_SIZE => count_short(pane, glass, first, lines),
            _ => {
                let cut = cut_size(pane, glass.thick);
                let turned = cut.0 != cut.1 && cut == (glass.h, glass.w);
                lines.meet_if(first, cut == (glass.w, glass.h));
                lines.meet_if(first + 1, turned);
            }
        }
    }
}

/// The lines of a sheet that is too small, from this one on.
fn count_short(pane: &Pane, glass: &Glass, first: usize, lines: &mut Lines) {
    if lacks(pane, glass, (1, 1)) {
        let [in_w, in_h] = [(1, 0), (0, 1)].map(|more| lacks(pane, glass, more));
        lines.meet_if(first + 2, in_w);
        lines.meet_if(first + 3, in_h);
        lines.meet_if(first + 4, !in_w && !in_h);
    }
    lines.meet_if(first + 5, lies_within((pane.w, pane.h), glass));
}

/// Whether a sheet would cover the cut size if it had so many mm more in w and h.
pub fn lacks(pane: &Pane, glass: &Glass, (w, h): (u16, u16)) -> bool {
    let larger = Glass {
        w: glass.w + w,
        h: glass.h + h,
        ..*glass
    };
    lies_within(cut_size(pane, glass.thick), &larger)
}
