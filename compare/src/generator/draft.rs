//! The notes and lines of a job file, to be put together under a right trailer: document 01, "The
//! job file".

use super::plan::Plan;
use crate::job::{Glass, Pane, Wind};
use crate::random::Random;

pub struct Draft {
    pub notes: Vec<u8>,
    pub glass_lines: Vec<Vec<u8>>,
    pub pane_lines: Vec<Vec<u8>>,
}

impl Draft {
    /// The lines of a plan, with notes of some sort.
    pub fn of(plan: &Plan, random: &mut Random) -> Draft {
        Draft {
            notes: notes(plan, random),
            glass_lines: plan.glasses.iter().map(glass_line).collect(),
            pane_lines: plan.panes.iter().map(pane_line).collect(),
        }
    }

    pub fn bytes(&self) -> Vec<u8> {
        let glass_part = self.glass_lines.concat();
        let pane_part = self.pane_lines.concat();
        let glass_offset = self.notes.len();
        let pane_offset = glass_offset + glass_part.len();
        let trailer = trailer(glass_offset, pane_offset);
        [&self.notes, &glass_part, &pane_part, &trailer]
            .map(Vec::as_slice)
            .concat()
    }
}

pub fn trailer(glass_offset: usize, pane_offset: usize) -> Vec<u8> {
    format!("T {glass_offset:05} {pane_offset:05}\n").into_bytes()
}

fn line(letter: char, numbers: &[u32]) -> Vec<u8> {
    let mut line = letter.to_string();
    for number in numbers {
        line += &format!(" {number}");
    }
    line.push('\n');
    line.into_bytes()
}

fn glass_line(glass: &Glass) -> Vec<u8> {
    let numbers = [
        glass.id.into(),
        glass.kind.into(),
        glass.thick.into(),
        glass.w.into(),
        glass.h.into(),
        glass.two,
        glass.four,
        glass.stock.into(),
    ];
    line('G', &numbers)
}

fn pane_line(pane: &Pane) -> Vec<u8> {
    let (letter, [first, second]) = match pane.wind {
        Wind::Pressures { down, up } => ('P', [down, up]),
        Wind::Class { class, zone } => ('Q', [class, zone]),
    };
    let numbers = [
        pane.id.into(),
        pane.edges.into(),
        pane.angle.into(),
        pane.awning.into(),
        pane.top,
        pane.w.into(),
        pane.h.into(),
        first.into(),
        second.into(),
    ];
    line(letter, &numbers)
}

/// No notes, words, any bytes, or lines that are not to be read.
fn notes(plan: &Plan, random: &mut Random) -> Vec<u8> {
    match random.below(8) {
        0 => b"North roof, second visit. Rack checked on site.\n".to_vec(),
        1 => (0..random.below(40)).map(|_| random.byte()).collect(),
        2 => {
            let glass_lines = plan.glasses.iter().map(glass_line).take(3);
            let mut notes = glass_lines.collect::<Vec<_>>().concat();
            notes.extend(b"P 1 4 0 0 0 1 1 0 0\nT 00000 00000\n");
            notes
        }
        3 => b"G 1 1 6 1 1 1 1".to_vec(),
        _ => Vec::new(),
    }
}
