//! Files with faults anywhere, the trailer included: document 01, "What each cause gives".

use super::draft::{trailer, Draft};
use super::{honest, NEAR_BYTES};
use crate::random::Random;
use crate::reader::TRAILER_BYTES;

/// Offsets of the trailer shifted, or bytes of the file changed, added, removed or cut off.
pub fn file(random: &mut Random) -> Vec<u8> {
    let draft = Draft::of(&honest::small_plan(random), random);
    let mut file = draft.bytes();
    let choice = random.below(3);
    if choice != 0 {
        let glass_offset = draft.notes.len();
        let pane_offset = glass_offset + draft.glass_lines.concat().len();
        let end = file.len() - TRAILER_BYTES;
        let shifted = [glass_offset, pane_offset].map(|offset| shift(offset, end, random));
        file.truncate(end);
        file.extend(trailer(shifted[0], shifted[1]));
    }
    if choice != 1 {
        for _ in 0..random.draw(1..=3) {
            edit_file(&mut file, random);
        }
    }
    file
}

/// An offset that stays, moves a little, or is any.
fn shift(offset: usize, end: usize, random: &mut Random) -> usize {
    match random.below(6) {
        0 => offset + random.draw(1..=40),
        1 => offset.saturating_sub(random.draw(1..=40)),
        2 => random.pick(&[0, end - 1, end, end + 1, end + TRAILER_BYTES, 99_999]),
        3 => random.draw(0..=end),
        _ => offset,
    }
}

fn edit_file(file: &mut Vec<u8>, random: &mut Random) {
    let at = random.draw(0..=file.len());
    let count = random.draw(1..=5);
    let end = (at + count).min(file.len());
    match random.below(7) {
        0 => file[at..end].fill_with(|| random.pick(NEAR_BYTES)),
        1 => file[at..end].fill_with(|| random.byte()),
        2 => drop(file.splice(at..at, (0..count).map(|_| random.byte()))),
        3 => drop(file.drain(at..end)),
        4 => file.extend((0..count).map(|_| random.pick(NEAR_BYTES))),
        5 => file.truncate(at),
        _ => file.truncate(file.len().saturating_sub(count)),
    }
}
