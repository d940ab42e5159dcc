//! Panes by wind class, and constants that just bear them or do not: document 02, 2026-03.

use super::plan::Plan;
use super::pressures::{just_about, kinds, near_glass, windless};
use crate::clauses::{ANNEALED, THICKNESSES};
use crate::job::{Glass, Pane, Wind};
use crate::random::Random;

/// A pane of every class and zone, all alike but for the wind, and for each the glass of its least
/// constant and one whose constant is 1 less, all of one kind. Some panes are there again by pressures.
pub fn plan(random: &mut Random) -> Plan {
    let (like, kind, thick) = pane_and_glass(random);
    let mut plan = Plan::default();
    for class in 1..=10 {
        for zone in [1, 2] {
            let wind = Wind::Class { class, zone };
            let pane = Pane { wind, ..like };
            plan.glasses.extend(just_about(&pane, kind, thick, random));
            plan.panes.push(pane);
            if random.one_in(4) {
                let wind = by_pressures(class, zone, random);
                plan.panes.push(Pane { wind, ..like });
            }
        }
    }
    random.shuffle(&mut plan.glasses);
    random.shuffle(&mut plan.panes);
    plan.number(random);
    plan
}

/// A pane by class, or at times by the numbers of a class or its pressures, and a glass near its least
/// constant.
pub fn pair(random: &mut Random) -> (Pane, Glass) {
    let (like, kind, thick) = pane_and_glass(random);
    let (class, zone) = (random.draw(1..=10), random.draw(1..=2));
    let wind = if random.one_in(4) {
        by_pressures(class, zone, random)
    } else {
        Wind::Class { class, zone }
    };
    let pane = Pane { wind, ..like };
    let glass = near_glass(&pane, kind, thick, random);
    (pane, glass)
}

/// The pressures of a class and a zone, or its numbers taken as pressures.
fn by_pressures(class: u16, zone: u16, random: &mut Random) -> Wind {
    let (down, up) = if random.one_in(2) {
        Wind::Class { class, zone }.pressures()
    } else {
        (class, zone)
    };
    Wind::Pressures { down, up }
}

/// A pane without its wind, and the kind and the thickness of a glass with which clauses 1 to 3 let
/// it pass. With 12 mm up to 30 degrees, the pressure down governs in every class and zone in which
/// it can, in some with annealed glass alone. With 6 mm from 70 degrees, the pressure up governs in
/// all, which on annealed glass it does nowhere else. So annealed glass is drawn often.
fn pane_and_glass(random: &mut Random) -> (Pane, u8, u8) {
    let (thick, angle) = match random.below(8) {
        0..=2 => (12, random.draw(0..=30)),
        3..=5 => (6, random.draw(70..=74)),
        _ => (random.pick(&THICKNESSES), random.draw(0..=74)),
    };
    let pane = windless(angle, thick, random);
    let kinds = kinds(&pane, thick);
    let kind = if !kinds.contains(&ANNEALED) || random.one_in(3) {
        random.pick(&kinds)
    } else {
        ANNEALED
    };
    (pane, kind, thick)
}
