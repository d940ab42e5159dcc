//! Random bytes, and files at and beyond the limits on bytes and lines: document 01, "What each
//! cause gives", numbers 1 and 8.

use super::draft::{trailer, Draft};
use super::{honest, NEAR_BYTES};
use crate::job::{MOST_GLASSES, MOST_PANES};
use crate::random::Random;
use crate::reader::{MOST_BYTES, TRAILER_BYTES};

/// What a line too many may begin with, for it need not be a line.
const MALFORMED: [&str; 6] = ["?", "\n", "G", "P ", "Q", "T 00000 00000\n"];

/// Any bytes, or bytes that lines are made of, with or without a trailer of some offsets.
pub fn random_bytes(random: &mut Random) -> Vec<u8> {
    let length = random.below(200);
    let plain = random.one_in(2);
    let mut file: Vec<u8> = (0..length).map(|_| random.byte()).collect();
    if !plain {
        file.fill_with(|| random.pick(NEAR_BYTES));
    }
    if random.one_in(2) {
        let most = if random.one_in(2) { length } else { 99_999 };
        let (glass_offset, pane_offset) = (random.draw(0..=most), random.draw(0..=most));
        file.extend(trailer(glass_offset, pane_offset));
    }
    file
}

pub fn length(random: &mut Random) -> Vec<u8> {
    if random.one_in(2) {
        short_file(random)
    } else {
        long_file(random)
    }
}

/// About as long as a trailer, and mostly a piece of one.
fn short_file(random: &mut Random) -> Vec<u8> {
    let length = random.pick(&[0, 1, 12, 13, 13, 14, 14, 15, 16]);
    let mut file = vec![b'0'; length];
    let trailer = trailer(random.pick(&[0, 1, 2]), random.pick(&[0, 1, 2]));
    for (to, from) in file.iter_mut().rev().zip(trailer.iter().rev()) {
        *to = *from;
    }
    if random.one_in(4) {
        file.reverse();
    }
    file
}

/// A job that notes make about as long as is allowed, or much longer.
fn long_file(random: &mut Random) -> Vec<u8> {
    let mut draft = Draft::of(&honest::small_plan(random), random);
    draft.notes.clear();
    let job = draft.bytes().len();
    let length = match random.below(8) {
        0..=2 => MOST_BYTES,
        3 => MOST_BYTES - 1,
        4 | 5 => MOST_BYTES + 1,
        6 => MOST_BYTES + 1 + TRAILER_BYTES + random.below(2),
        _ => MOST_BYTES + 1 + job,
    };
    draft.notes = vec![random.pick(b"\n G"); length - job];
    draft.bytes()
}

/// More glass lines or pane lines than allowed. The first line too many may be of any form, and
/// an earlier line may be faulty.
pub fn too_many_lines(random: &mut Random) -> Vec<u8> {
    let more = random.draw(1..=4);
    let (glasses, panes) = match random.below(5) {
        0 => (MOST_GLASSES + more, random.below(5)),
        1 => (random.below(5), MOST_PANES + more),
        2 => (MOST_GLASSES + more, MOST_PANES + more),
        3 => (MOST_GLASSES, MOST_PANES + more),
        _ => (MOST_GLASSES + more, MOST_PANES),
    };
    let mut draft = Draft::of(&honest::plan_of(glasses, panes, random), random);
    replace(&mut draft.glass_lines, MOST_GLASSES, random);
    replace(&mut draft.pane_lines, MOST_PANES, random);
    if random.one_in(4) {
        let at = random.below(MOST_PANES);
        replace(&mut draft.glass_lines, at, random);
        replace(&mut draft.pane_lines, at, random);
    }
    draft.bytes()
}

/// Leaves the line, or sets a malformed one, a repeated one or one with values not allowed.
fn replace(lines: &mut [Vec<u8>], at: usize, random: &mut Random) {
    if at >= lines.len() {
        return;
    }
    match random.below(6) {
        0 => lines[at] = random.pick(&MALFORMED).into(),
        1 => lines[at] = lines[0].clone(),
        2 => lines[at] = b"G 0 0 0 0 0 0 0 0\n".to_vec(),
        3 => lines[at] = b"P 0 0 0 0 0 0 0 0 0\n".to_vec(),
        4 => lines[at] = b"Q 0 0 0 0 0 0 0 0 0\n".to_vec(),
        _ => {}
    }
}
