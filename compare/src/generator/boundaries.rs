//! Panes and glasses on either side of every boundary in document 01, "The four clauses", and
//! document 02, 2026-01 to 2026-03 and 2026-06.

use super::easy::{easy_pane, strong_glass};
use super::plan::{sizes, Plan};
use super::{cut_sizes, house_roofs, pressures, spans};
use crate::job::{Glass, Pane, Wind};
use crate::random::Random;

/// Pairs of a pane and a glass at some boundary. Every other pair of the job is judged as well.
pub fn plan(random: &mut Random) -> Plan {
    let (glasses, panes) = sizes(random);
    let mut plan = Plan::default();
    for at in 0..glasses.max(panes) {
        let (pane, glass) = match random.below(12) {
            0 => kind(random),
            1..=4 => cut_sizes::size(random),
            5 | 6 => spans::entry(random),
            7 => spans::three_times(random),
            8 | 9 => pressures::pressure(random),
            10 => house_roofs::pair(random),
            _ => allowed_extremes(random),
        };
        if at < panes {
            plan.panes.push(pane);
        }
        if at < glasses {
            let stock = random.pick(&[0, 1, 1, 2, 5, 999]);
            plan.glasses.push(Glass { stock, ..glass });
        }
    }
    random.shuffle(&mut plan.glasses);
    plan.number(random);
    plan
}

/// Tops about 3000.
fn kind(random: &mut Random) -> (Pane, Glass) {
    let pane = Pane {
        top: random.pick(&[0, 2_999, 3_000, 3_001, 99_999]),
        ..easy_pane(random)
    };
    let glass = Glass {
        kind: random.pick(&[4, 4, 3, 2]),
        ..strong_glass()
    };
    (pane, glass)
}

/// Numbers at the ends of their allowed values.
fn allowed_extremes(random: &mut Random) -> (Pane, Glass) {
    let w = random.pick(&[1, 2, 1_666, 1_667, 5_000]);
    let h = random.pick(&[1, w, 2 * w, 3 * w, 3 * w + 1, 5_000]);
    let pressures = Wind::Pressures {
        down: random.pick(&[0, 1_000]),
        up: random.pick(&[0, 1_000]),
    };
    let class = Wind::Class {
        class: random.pick(&[1, 10]),
        zone: random.draw(1..=2),
    };
    let pane = Pane {
        id: 0,
        edges: random.pick(&[2, 4]),
        angle: random.pick(&[0, 74]),
        awning: random.one_in(2),
        top: random.pick(&[0, 99_999]),
        w,
        h: h.min(5_000),
        wind: random.pick(&[pressures, class]),
    };
    let glass = Glass {
        id: 0,
        kind: random.pick(&[1, 4]),
        thick: random.pick(&[6, 12]),
        w: random.pick(&[1, 9_999]),
        h: random.pick(&[1, 9_999]),
        two: random.pick(&[1, 99_999]),
        four: random.pick(&[1, 99_999]),
        stock: 0,
    };
    (pane, glass)
}
