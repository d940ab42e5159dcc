//! Constants about the least one that bears a pane: document 01, "The four clauses", clause 4, and
//! document 02, 2026-06.

use super::easy::strong_glass;
use super::spans;
use crate::clauses::{Loads, ANNEALED, PASSES, THICKNESSES};
use crate::job::{Glass, Pane, Wind};
use crate::random::Random;

/// The rows of Table 6.1 that an angle can be at or next above, counted from 0.
pub const ROWS: u8 = 15;

/// A pane at the rows of the dead loads, where its pressure down or up governs, and a glass near the
/// least constant of its kind.
pub fn pressure(random: &mut Random) -> (Pane, Glass) {
    let upward = random.one_in(2);
    let (down, up) = match upward {
        true => (0, random.draw(200..=900)),
        false => (random.draw(0..=900), random.draw(0..=30)),
    };
    let thick = random.pick(&THICKNESSES);
    let angle = angle_of_row(random.draw(0..=ROWS - 1), random);
    let pane = Pane {
        wind: Wind::Pressures { down, up },
        ..windless(angle, thick, random)
    };
    let kind = random.pick(&kinds(&pane, thick));
    let more = if random.one_in(2) {
        up_to_a_square(p(&pane, kind, thick))
    } else {
        0
    };
    let wind = match upward {
        true => Wind::Pressures {
            down,
            up: up + more,
        },
        false => Wind::Pressures {
            down: down + more,
            up,
        },
    };
    let pane = Pane { wind, ..pane };
    let glass = near_glass(&pane, kind, thick, random);
    (pane, glass)
}

/// An angle at a row of Table 6.1, or next to it or the row after it.
pub fn angle_of_row(row: u8, random: &mut Random) -> u8 {
    5 * row + random.pick(&[0, 0, 1, 4])
}

/// A pane that clauses 1 to 3 let pass with some kind of this thickness. The wind is still to be set.
/// About one in two is within the spans of annealed glass, which are the shortest.
pub fn windless(angle: u8, thick: u8, random: &mut Random) -> Pane {
    let kind = random.pick(&[1, 1, 1, 2, 3, 4]);
    let pane = (kind..=4).find_map(|kind| spans::within(kind, thick, angle, random));
    pane.expect("spans of toughened glass in every thickness")
}

/// The kinds of this thickness with which clauses 1 to 3 let a pane pass.
pub fn kinds(pane: &Pane, thick: u8) -> Vec<u8> {
    let loads = Loads::of(pane);
    let passes = |&kind: &u8| {
        let glass = Glass {
            kind,
            thick,
            ..strong_glass()
        };
        loads.judge(&glass) == PASSES
    };
    (1..=4).filter(passes).collect()
}

/// So much more wind that P is a square, and B times B times P is one too.
fn up_to_a_square(p: u32) -> u16 {
    let root = p.isqrt() + 1;
    (root * root - p) as u16
}

/// The pressure P on a pane with a glass of this kind and thickness.
pub fn p(pane: &Pane, kind: u8, thick: u8) -> u32 {
    Loads::of(pane).pressure(kind, thick)
}

fn bbp(pane: &Pane, kind: u8, thick: u8) -> u64 {
    let b = u64::from(Loads::of(pane).span);
    b * b * u64::from(p(pane, kind, thick))
}

/// The least constant K of a glass of this kind and thickness with K times K at least B times B times
/// P.
pub fn least_constant(pane: &Pane, kind: u8, thick: u8) -> u32 {
    let bbp = bbp(pane, kind, thick);
    let root = bbp.isqrt();
    let least = root + u64::from(root * root < bbp);
    least as u32
}

/// The glass that just bears a pane, and one that just does not.
pub fn just_about(pane: &Pane, kind: u8, thick: u8, random: &mut Random) -> [Glass; 2] {
    let least = least_constant(pane, kind, thick);
    [least, least - 1].map(|k| Glass {
        stock: random.pick(&[0, 1, 1, 2]),
        ..glass_of_constant(pane, kind, thick, k)
    })
}

/// A glass with K times K at B times B times P or beside it, or with a constant between those that
/// the two dead loads ask for.
pub fn near_glass(pane: &Pane, kind: u8, thick: u8, random: &mut Random) -> Glass {
    let k = if random.one_in(4) {
        between(pane, thick, random)
    } else {
        let root = bbp(pane, kind, thick).isqrt() as u32;
        (root + random.pick(&[0, 1, 1, 2])).max(2) - 1
    };
    glass_of_constant(pane, kind, thick, k)
}

/// A constant that bears a pane with the lesser dead load and not with that of annealed glass. Where
/// both come to the same, the least one.
fn between(pane: &Pane, thick: u8, random: &mut Random) -> u32 {
    let lesser = least_constant(pane, 2, thick);
    let annealed = least_constant(pane, ANNEALED, thick);
    random.draw(lesser..=lesser.max(annealed - 1))
}

/// A glass with this constant for the pane. Its other constant would turn the answer.
fn glass_of_constant(pane: &Pane, kind: u8, thick: u8, k: u32) -> Glass {
    let other = if k < least_constant(pane, kind, thick) {
        99_999
    } else {
        1
    };
    let k = k.min(99_999);
    let (two, four) = match pane.edges {
        2 => (k, other),
        _ => (other, k),
    };
    Glass {
        kind,
        thick,
        two,
        four,
        ..strong_glass()
    }
}
