//! How the panes of a roof give the wind: document 02, 2026-03.

use crate::job::Wind;
use crate::random::Random;

/// Pressures on every pane, the class of the house on every pane, or some of each.
#[derive(Clone, Copy)]
pub enum Winds {
    Pressures,
    Class(u16),
    Mixed(u16),
}

impl Winds {
    /// One roof in two has pressures alone.
    pub fn draw(random: &mut Random) -> Winds {
        let class = random.draw(1..=10);
        random.pick(&[
            Winds::Pressures,
            Winds::Pressures,
            Winds::Class(class),
            Winds::Mixed(class),
        ])
    }

    /// The winds that a pane may have: these pressures, the class in either zone, or all of these.
    pub fn choices(self, pressures: Wind) -> Vec<Wind> {
        let zones = |class| [1, 2].map(|zone| Wind::Class { class, zone });
        match self {
            Winds::Pressures => vec![pressures],
            Winds::Class(class) => zones(class).to_vec(),
            Winds::Mixed(class) => [[pressures; 2], zones(class)].concat(),
        }
    }
}
