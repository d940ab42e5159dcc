//! What a short roof tries of document 02, 2026-05, for the table at the end of a run.

use crate::roof::Roof;

/// In how many places a roof is short: the parts of its group that share no glass. A pane for which no
/// glass passes is a place of its own.
pub fn places(roof: &Roof) -> usize {
    // The glasses of each place, as bits.
    let mut places: Vec<u64> = Vec::new();
    for &pane in &roof.flow.group {
        let row = roof.passing(pane).fold(0, |row, glass| row | 1 << glass);
        let (shared, mut others): (Vec<u64>, Vec<u64>) =
            places.into_iter().partition(|place| place & row != 0);
        others.push(shared.into_iter().fold(row, |row, place| row | place));
        places = others;
    }
    places.len()
}

/// How many panes are served if each in file order takes the first passing glass with a sheet left.
pub fn first_fit(roof: &Roof) -> usize {
    let glasses = roof.job.glasses().iter();
    let mut left: Vec<u16> = glasses.map(|glass| glass.stock).collect();
    let panes = 0..roof.job.panes().len();
    let served = panes.filter(|&pane| {
        let glass = roof.passing(pane).find(|&glass| left[glass] > 0);
        glass.inspect(|&glass| left[glass] -= 1).is_some()
    });
    served.count()
}
