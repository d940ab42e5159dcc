//! The greatest matching of panes and glasses by augmenting paths: the search of `crates/matching`
//! in safe Rust, with the same steps in the same order.
//!
//! A set of glasses is a word of 64 bits; bit g is for the glass with number g.

use compare::job::MOST_GLASSES;

/// What a pane holds where it has no glass; the glasses are numbered from 0.
pub const NO_GLASS: usize = MOST_GLASSES;

/// The glass whose spare sheet was taken at the end of a chain of moves; or no chain, and all the
/// glasses that were seen.
enum Search {
    Moved(usize),
    Stuck(u64),
}

/// Gives each pane the number of a glass of its row, or `NO_GLASS`, so that no way to give them
/// serves more. The answer is the set of tight glasses: the panes that can have none but these are
/// more than their sheets, where a pane has no glass.
pub fn match_panes(rows: &[u64], sheets: [u32; MOST_GLASSES], held: &mut [usize]) -> u64 {
    held.fill(NO_GLASS);
    let mut left = sheets;
    let mut spare = spare_glasses(&sheets);
    let mut tight = 0;
    for pane in 0..rows.len() {
        match serve(rows, held, pane, spare, tight) {
            Search::Moved(last) => {
                left[last] -= 1;
                if left[last] == 0 {
                    spare &= !(1 << last);
                }
            }
            Search::Stuck(grown) => tight = grown,
        }
    }
    tight
}

/// The glasses of which there is a sheet.
fn spare_glasses(sheets: &[u32; MOST_GLASSES]) -> u64 {
    let mut spare = 0;
    for (glass, &count) in sheets.iter().enumerate() {
        if count > 0 {
            spare |= 1 << glass;
        }
    }
    spare
}

/// Gives a pane a glass that is not in `seen`: one with a sheet to spare, or else one that another
/// pane can leave.
fn serve(rows: &[u64], held: &mut [usize], pane: usize, spare: u64, seen: u64) -> Search {
    let row = rows[pane];
    let at_hand = row & spare & !seen;
    if at_hand != 0 {
        let glass = first(at_hand);
        held[pane] = glass;
        return Search::Moved(glass);
    }
    let mut seen = seen;
    loop {
        let rest = row & !seen;
        if rest == 0 {
            return Search::Stuck(seen);
        }
        let glass = first(rest);
        match free(rows, held, glass, spare, seen | 1 << glass) {
            Search::Moved(last) => {
                held[pane] = glass;
                return Search::Moved(last);
            }
            Search::Stuck(grown) => seen = grown,
        }
    }
}

/// Takes one of the panes that hold a glass over to another glass, which is not in `seen`.
fn free(rows: &[u64], held: &mut [usize], glass: usize, spare: u64, seen: u64) -> Search {
    let mut seen = seen;
    for pane in 0..rows.len() {
        if held[pane] == glass {
            match serve(rows, held, pane, spare, seen) {
                Search::Moved(last) => return Search::Moved(last),
                Search::Stuck(grown) => seen = grown,
            }
        }
    }
    Search::Stuck(seen)
}

/// The first glass of a set that is not empty.
fn first(set: u64) -> usize {
    set.trailing_zeros() as usize
}
