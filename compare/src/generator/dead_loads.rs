//! Panes at the rows of Table 6.1, and constants of every kind that just bear them or do not:
//! document 01, "The four clauses", clause 4, and document 02, 2026-06.

use super::plan::Plan;
use super::pressures::{angle_of_row, just_about, kinds, p, windless, ROWS};
use crate::clauses::{maximum_dead_load, minimum_dead_load, KINDS_BY_DEAD_LOAD, THICKNESSES};
use crate::job::{Pane, Wind};
use crate::random::Random;

/// With two glasses of each kind for a row, so many rows fill a rack.
const ROWS_A_JOB: usize = 8;

/// With this pressure down, the pressure up that gives the same P is still an allowed one.
const MOST_DOWN: u16 = 860;

pub fn plan(random: &mut Random) -> Plan {
    let mut rows: Vec<u8> = (0..ROWS).collect();
    random.shuffle(&mut rows);
    let mut plan = Plan::default();
    for &row in &rows[..ROWS_A_JOB] {
        add_row(&mut plan, row, random);
    }
    random.shuffle(&mut plan.glasses);
    random.shuffle(&mut plan.panes);
    plan.number(random);
    plan
}

/// Panes that are alike but for the wind. For each kind that clauses 1 to 3 allow them there is the
/// glass that just bears the first one, on which the pressure down governs, and one whose constant is
/// 1 less. On two panes the pressure up gives the same P, with the dead load of annealed glass and with
/// the lesser one; it governs, or at times down gives the same P too. On the last, it depends on the dead
/// load which of the two governs.
fn add_row(plan: &mut Plan, row: u8, random: &mut Random) {
    let angle = angle_of_row(row, random);
    let thick = random.pick(&THICKNESSES);
    let like = windless(angle, thick, random);
    let with = |down, up| Pane {
        wind: Wind::Pressures { down, up },
        ..like
    };

    let down = random.draw(0..=MOST_DOWN);
    let by_down = with(down, random.draw(0..=10));
    let minimum = minimum_dead_load(angle, thick);
    for kind in kinds(&like, thick) {
        plan.glasses
            .extend(just_about(&by_down, kind, thick, random));
    }
    plan.panes.push(by_down);
    for kind in KINDS_BY_DEAD_LOAD {
        let up = p(&by_down, kind, thick) + minimum;
        let down = if random.one_in(6) { down } else { 0 };
        plan.panes.push(with(down, up as u16));
    }
    let loads = KINDS_BY_DEAD_LOAD.map(|kind| maximum_dead_load(kind, angle, thick));
    let [most, least] = loads;
    let up = random.draw(least..=most) + minimum;
    plan.panes.push(with(down, down + up as u16));
}
