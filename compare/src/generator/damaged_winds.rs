//! Pane lines with faults about the letter and the wind: document 02, 2026-03.

use super::fields::{edit, set};
use crate::random::Random;

/// Numbers next to the allowed values, allowed ones plus a power of 256, and for a class the largest
/// number.
const OUTSIDE_CLASSES: [u32; 8] = [0, 0, 11, 11, 12, 257, 65_537, 99_999];
const OUTSIDE_ZONES: [u32; 6] = [0, 0, 3, 3, 258, 65_537];

pub fn damage(lines: &mut Vec<Vec<u8>>, at: usize, random: &mut Random) {
    let line = &mut lines[at];
    let (class, zone) = (random.draw(1..=10), random.draw(1..=2));
    match random.below(9) {
        0..=2 => by_wind(line, b'Q', [random.pick(&OUTSIDE_CLASSES), zone]),
        3 | 4 => by_wind(line, b'Q', [class, random.pick(&OUTSIDE_ZONES)]),
        5 => by_wind(line, random.pick(b"qqG"), [class, zone]),
        6 | 7 => line[0] = other_letter(line[0]),
        _ => repeat_by_other_letter(lines, at, [class, zone], random),
    }
}

/// Makes a line one of this letter, with these as its last two numbers.
fn by_wind(line: &mut Vec<u8>, letter: u8, [first, second]: [u32; 2]) {
    edit(line, |fields| {
        fields[0] = vec![letter];
        set(fields, 8, first);
        set(fields, 9, second);
    });
}

/// With its letter alone changed, a line has pressures as its class and zone, or the other way round.
fn other_letter(letter: u8) -> u8 {
    match letter {
        b'P' => b'Q',
        _ => b'P',
    }
}

/// The pane of a line by one letter, and somewhere after it again by the other. As pressures, the
/// numbers of a class are allowed too.
fn repeat_by_other_letter(
    lines: &mut Vec<Vec<u8>>,
    at: usize,
    class: [u32; 2],
    random: &mut Random,
) {
    let letter = random.pick(b"PQ");
    by_wind(&mut lines[at], letter, class);
    let mut again = lines[at].clone();
    again[0] = other_letter(letter);
    lines.insert(random.draw(at + 1..=lines.len()), again);
}
