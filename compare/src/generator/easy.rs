//! A glass and panes for which it passes, to be brought to a boundary.

use super::plan::either_way_round;
use crate::job::{Glass, Pane, Wind};
use crate::random::Random;

/// A glass that passes for every pane with a span up to 2000 that is no awning and has 30 degrees
/// or more.
pub fn strong_glass() -> Glass {
    Glass {
        id: 1,
        kind: 3,
        thick: 12,
        w: 9_999,
        h: 9_999,
        two: 99_999,
        four: 99_999,
        stock: 1,
    }
}

/// A four-edge pane for which the strong glass passes. One in two is a ribbon.
pub fn easy_pane(random: &mut Random) -> Pane {
    let shorter = random.draw(1..=1_600u16);
    let longer = if random.one_in(2) {
        random.draw(shorter..=3 * shorter)
    } else {
        random.draw(3 * shorter + 1..=5_000)
    };
    let (w, h) = either_way_round((shorter, longer), random);
    Pane {
        id: 0,
        edges: 4,
        angle: random.draw(30..=74),
        awning: false,
        top: random.pick(&[0, 2_500, 2_999, 3_000, 7_000]),
        w,
        h,
        wind: Wind::Pressures {
            down: random.draw(0..=200),
            up: random.draw(0..=200),
        },
    }
}

/// A two-edge pane for which the strong glass passes.
pub fn easy_two_edge_pane(random: &mut Random) -> Pane {
    Pane {
        edges: 2,
        w: random.draw(1..=1_600),
        h: random.draw(1..=5_000),
        ..easy_pane(random)
    }
}
