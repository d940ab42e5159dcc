//! The fields whose value alone keeps a line from being allowed: document 01, "The job file", and for `Q`
//! lines document 02, 2026-03.

use super::{Lines, Reading, Section};
use crate::job::{Glass, Pane};
use crate::reader::line;
use crate::refusal::{Refusal, VALUE};

pub const SECTION: Section = Section {
    title: "refused with 5 for one value alone",
    unit: None,
    names,
    count,
};

/// The fields of each letter, with their places on the line. Every top of five digits is allowed.
const FIELDS: [(u8, usize, &str); 24] = [
    (b'G', 0, "id"),
    (b'G', 1, "kind"),
    (b'G', 2, "thick"),
    (b'G', 3, "w"),
    (b'G', 4, "h"),
    (b'G', 5, "two"),
    (b'G', 6, "four"),
    (b'G', 7, "stock"),
    (b'P', 0, "id"),
    (b'P', 1, "edges"),
    (b'P', 2, "angle"),
    (b'P', 3, "awning"),
    (b'P', 5, "w"),
    (b'P', 6, "h"),
    (b'P', 7, "down"),
    (b'P', 8, "up"),
    (b'Q', 0, "id"),
    (b'Q', 1, "edges"),
    (b'Q', 2, "angle"),
    (b'Q', 3, "awning"),
    (b'Q', 5, "w"),
    (b'Q', 6, "h"),
    (b'Q', 7, "class"),
    (b'Q', 8, "zone"),
];

/// Numbers that are allowed.
const GLASS: [u32; 8] = [1, 1, 6, 1, 1, 1, 1, 0];
const PANE: [u32; 9] = [1, 2, 0, 0, 0, 1, 1, 1, 1];

fn names() -> Vec<String> {
    let name = |(letter, _, name)| format!("{} line, {name}", char::from(letter));
    FIELDS.map(name).to_vec()
}

fn count(reading: &Reading, lines: &mut Lines) {
    if let Err(Refusal {
        number: VALUE,
        offset,
    }) = reading.roof
    {
        let bytes = &reading.file[offset..];
        let field = field_alone(bytes);
        let mut fields = FIELDS.iter();
        let line = fields.position(|&(letter, at, _)| letter == bytes[0] && Some(at) == field);
        line.into_iter().for_each(|line| lines.meet(line));
    }
}

/// The place of the one field that is not allowed, on the line that begins here.
fn field_alone(bytes: &[u8]) -> Option<usize> {
    match bytes[0] {
        b'G' => mended_by(bytes, GLASS, Glass::of),
        b'P' => mended_by(bytes, PANE, Pane::by_pressures),
        _ => mended_by(bytes, PANE, Pane::by_class),
    }
}

/// The place at which an allowed number makes the line an allowed one.
fn mended_by<const N: usize, T>(
    bytes: &[u8],
    allowed: [u32; N],
    of: fn([u32; N]) -> Option<T>,
) -> Option<usize> {
    let (_, numbers, _) = line(bytes)?;
    (0..N).find(|&at| {
        let mut mended: [u32; N] = numbers;
        mended[at] = allowed[at];
        of(mended).is_some()
    })
}
