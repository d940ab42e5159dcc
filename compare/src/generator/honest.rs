//! Plausible roofs and racks, in ranges where every verdict occurs, on ribbons and by wind class too.

use super::plan::{either_way_round, sizes, Plan};
use super::winds::Winds;
use crate::clauses::{edge_cover, THICKNESSES};
use crate::job::{Glass, Pane, Wind, MOST_GLASSES, MOST_PANES};
use crate::random::Random;

/// Sheets that a rack may hold, in mm.
const SHEETS: [(u16, u16); 6] = [
    (1_200, 2_400),
    (1_500, 3_000),
    (2_100, 3_300),
    (2_400, 3_600),
    (2_250, 3_210),
    (3_210, 6_000),
];

pub fn plan(random: &mut Random) -> Plan {
    let (glasses, panes) = sizes(random);
    plan_of(glasses, panes, random)
}

/// A mostly small job with at least one glass and one pane, as a base for damage.
pub fn small_plan(random: &mut Random) -> Plan {
    let (glasses, panes) = if random.one_in(20) {
        (MOST_GLASSES, MOST_PANES)
    } else {
        (6, 6)
    };
    plan_of(random.draw(1..=glasses), random.draw(1..=panes), random)
}

pub fn plan_of(glasses: usize, panes: usize, random: &mut Random) -> Plan {
    let plenty = random.pick(&[1, 2, 8, 16]);
    let most_sheets = (plenty * panes / glasses.max(1) + 1).min(999) as u16;
    let winds = Winds::draw(random);
    let styles = 0..random.draw(1..=5);
    let styles: Vec<Pane> = styles.map(|_| style(winds, random)).collect();
    let mut plan = Plan {
        glasses: (0..glasses).map(|_| glass(most_sheets, random)).collect(),
        panes: (0..panes).map(|_| random.pick(&styles)).collect(),
    };
    for pane in &mut plan.panes {
        vary(pane, random);
    }
    plan.number(random);
    plan
}

fn glass(most_sheets: u16, random: &mut Random) -> Glass {
    let kind = random.draw(1..=4u8);
    let thick = random.pick(&THICKNESSES);
    let (w, h) = random.pick(&SHEETS);
    // About the constants of the figures: tenths of k1 for each mm, more for heat treatment.
    let for_each_mm = [1_775, 2_250, 2_900, 2_900][usize::from(kind) - 1];
    let two = for_each_mm * u32::from(thick) + random.draw(0..=400u32);
    Glass {
        id: 0,
        kind,
        thick,
        w,
        h,
        two,
        four: two * 28 / 25,
        stock: random.draw(0..=most_sheets),
    }
}

/// A pane as it is repeated on a roof.
fn style(winds: Winds, random: &mut Random) -> Pane {
    let (edges, (w, h)) = match random.below(8) {
        0 | 1 => (2, (50 * random.draw(5..=14), 50 * random.draw(10..=60))),
        2 | 3 => (4, ribbon(random)),
        4 => (4, whole_sheet(random)),
        _ => (4, rectangle(random)),
    };
    let pressures = Wind::Pressures {
        down: random.draw(30..=150),
        up: random.draw(40..=300),
    };
    Pane {
        id: 0,
        edges,
        angle: random.pick(&[3, 5, 10, 15, 22, 30, 32, 35, 45, 60]),
        awning: random.one_in(10),
        top: random.draw(24..=80u32) * 100,
        w,
        h,
        wind: random.pick(&winds.choices(pressures)),
    }
}

/// Sides of a ratio up to 3.
fn rectangle(random: &mut Random) -> (u16, u16) {
    let w = 50 * random.draw(5..=36);
    let h = w + 50 * random.draw(0..=w / 25);
    (w, h.min(3_600))
}

/// Sides whose cut size is a whole sheet, where that is at most 5000 long.
fn whole_sheet(random: &mut Random) -> (u16, u16) {
    let (w, h) = random.pick(&SHEETS);
    let covers = 2 * edge_cover(random.pick(&THICKNESSES));
    either_way_round((w - covers, (h - covers).min(5_000)), random)
}

/// Sides of a ratio of 4 or 5, as is usual for ribbons, and at times of 8.
fn ribbon(random: &mut Random) -> (u16, u16) {
    let shorter = 50 * random.draw(3..=20);
    let longer = shorter * random.pick(&[4, 4, 5, 5, 8]);
    either_way_round((shorter, longer.min(5_000)), random)
}

/// One pane of a style: at times cut smaller, or in a corner with more wind.
fn vary(pane: &mut Pane, random: &mut Random) {
    if random.one_in(4) {
        pane.h -= random.draw(0..=pane.h / 20);
    }
    if random.one_in(4) {
        pane.wind = windier(pane.wind, random);
    }
}

/// More pressure, or the zone along the edges.
fn windier(wind: Wind, random: &mut Random) -> Wind {
    match wind {
        Wind::Pressures { down, up } => Wind::Pressures {
            down: down + random.draw(0..=100u16),
            up: up + random.draw(0..=200u16),
        },
        Wind::Class { class, .. } => Wind::Class { class, zone: 2 },
    }
}
