//! Files with faults in their lines under a right trailer: document 01, "What each cause gives",
//! numbers 4 to 6.

use super::draft::Draft;
use super::fields::{edit, fields, set};
use super::{damaged_winds, honest, NEAR_BYTES};
use crate::random::Random;

/// Numbers next to the allowed values of each field, or allowed ones plus a power of 256. Some
/// have six digits.
const OUTSIDE_GLASS: [&[u32]; 8] = [
    &[0, 10_000, 65_537],
    &[0, 5, 257, 65_537],
    &[0, 5, 7, 9, 11, 13, 14, 262, 65_542],
    &[0, 10_000, 65_537, 70_000],
    &[0, 10_000, 65_537, 70_000],
    &[0, 100_000],
    &[0, 100_000],
    &[1_000, 65_536, 65_537],
];
const OUTSIDE_PANE: [&[u32]; 9] = [
    &[0, 10_000, 65_537],
    &[0, 1, 3, 5, 6, 258, 260, 65_540],
    &[75, 90, 256, 300, 65_566],
    &[2, 256, 257, 65_536],
    &[100_000, 103_000],
    &[0, 5_001, 66_036],
    &[0, 5_001, 66_036],
    &[1_001, 65_596],
    &[1_001, 65_596],
];

/// Lines that are of no part's form.
const STRAY_LINES: [&str; 6] = ["\n", " \n", "G\n", "P 1\n", "Q\n", "T 00000 00000\n"];

/// A line of a draft.
#[derive(Clone, Copy)]
struct Spot {
    glass: bool,
    at: usize,
}

impl Spot {
    fn draw(draft: &Draft, random: &mut Random) -> Spot {
        let glass = random.one_in(2);
        let lines = if glass {
            &draft.glass_lines
        } else {
            &draft.pane_lines
        };
        Spot {
            glass,
            at: random.below(lines.len()),
        }
    }
}

/// One or two faults in lines. With two, in one line or not, the order of the causes shows.
pub fn file(random: &mut Random) -> Vec<u8> {
    let mut draft = Draft::of(&honest::small_plan(random), random);
    let spot = Spot::draw(&draft, random);
    damage_line(&mut draft, spot, random);
    match random.below(4) {
        0 => damage_line(&mut draft, spot, random),
        1 => {
            let spot = Spot::draw(&draft, random);
            damage_line(&mut draft, spot, random);
        }
        _ => {}
    }
    draft.bytes()
}

fn damage_line(draft: &mut Draft, Spot { glass, at }: Spot, random: &mut Random) {
    if !glass && random.one_in(3) {
        damaged_winds::damage(&mut draft.pane_lines, at, random);
        return;
    }
    let Draft {
        glass_lines,
        pane_lines,
        ..
    } = draft;
    let (lines, other_part, outside): (_, _, &[&[u32]]) = if glass {
        (glass_lines, pane_lines, &OUTSIDE_GLASS)
    } else {
        (pane_lines, glass_lines, &OUTSIDE_PANE)
    };
    let field = random.draw(1..=outside.len());
    match random.below(18) {
        0 => drop(lines.last_mut().and_then(Vec::pop)),
        1 => lines.insert(at, random.pick(&STRAY_LINES).into()),
        2 | 3 => lines[at][0] = random.pick(b"GPQgpqTt "),
        4 => lines[at] = other_part[random.below(other_part.len())].clone(),
        5..=7 => {
            let other = random.below(lines.len());
            let id = fields(&lines[other]).swap_remove(1);
            edit(&mut lines[at], |fields| fields[1] = id);
        }
        8..=13 => {
            let number = random.pick(outside[field - 1]);
            edit(&mut lines[at], |fields| set(fields, field, number));
        }
        14 | 15 => edit(&mut lines[at], |fields| {
            damage_fields(fields, field, random)
        }),
        _ => edit_bytes(&mut lines[at], random),
    }
}

fn damage_fields(fields: &mut Vec<Vec<u8>>, at: usize, random: &mut Random) {
    let at = at.min(fields.len() - 1);
    match random.below(5) {
        0 => drop(fields.remove(at)),
        1 => fields.insert(at, random.below(3).to_string().into_bytes()),
        2 => fields[at].insert(0, b'0'),
        3 => fields[at].resize(6, b'0'),
        _ => fields[at].resize(5, b'9'),
    }
}

/// One byte of a line changed, added or removed.
fn edit_bytes(line: &mut Vec<u8>, random: &mut Random) {
    let at = random.below(line.len());
    let next_space = line[at..].iter().position(|&byte| byte == b' ');
    let space = at + next_space.unwrap_or(0);
    match random.below(7) {
        0 => line[at] = random.byte(),
        1 => line[at] = random.pick(NEAR_BYTES),
        2 => line.insert(at, random.pick(NEAR_BYTES)),
        3 => drop(line.remove(at)),
        4 => line.insert(line.len() - 1, random.pick(b"\r \t\0")),
        5 => line.insert(space, b' '),
        _ => line[space] = b'\t',
    }
}
