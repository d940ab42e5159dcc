//! The glasses and panes of a job before they are written as lines.

use super::ids::ids;
use crate::job::{Glass, Pane, MOST_GLASSES, MOST_PANES};
use crate::random::Random;

#[derive(Default)]
pub struct Plan {
    pub glasses: Vec<Glass>,
    pub panes: Vec<Pane>,
}

impl Plan {
    /// Gives the glasses and the panes ids.
    pub fn number(&mut self, random: &mut Random) {
        let glass_ids = ids(self.glasses.len(), random);
        for (glass, id) in self.glasses.iter_mut().zip(glass_ids) {
            glass.id = id;
        }
        let pane_ids = ids(self.panes.len(), random);
        for (pane, id) in self.panes.iter_mut().zip(pane_ids) {
            pane.id = id;
        }
    }
}

/// The numbers of glasses and panes of a job: mostly small, at times the largest.
pub fn sizes(random: &mut Random) -> (usize, usize) {
    match random.below(100) {
        0..=74 => (random.draw(0..=8), random.draw(0..=12)),
        75..=91 => (random.draw(8..=24), random.draw(12..=48)),
        92..=95 => (random.draw(32..=64), random.draw(128..=256)),
        _ => (MOST_GLASSES, MOST_PANES),
    }
}

/// Sides in either order.
pub fn either_way_round((one, other): (u16, u16), random: &mut Random) -> (u16, u16) {
    if random.one_in(2) {
        (one, other)
    } else {
        (other, one)
    }
}
