//! Reading a job file: document 01, "The job file" and the order of "What each cause gives". The
//! causes within a line are 8, 4, 5 and 6, whatever the sides of a pane: document 02, 2026-01. Pane
//! lines begin with `P` or `Q`: document 02, 2026-03.

use crate::job::{Glass, Job, Pane, LARGEST_ID, MOST_GLASSES, MOST_PANES};
use crate::refusal::{Refusal, FORM, LENGTH, OFFSETS, REPEATED_ID, TOO_MANY_LINES, TRAILER, VALUE};

pub const TRAILER_BYTES: usize = 14;
pub const MOST_BYTES: usize = 65_535;

/// Reads a file, or refuses it with its first cause.
pub fn read(file: &[u8]) -> Result<Job, Refusal> {
    let (glass_offset, pane_offset, end) = parts(file)?;

    let mut glasses = [Glass::default(); MOST_GLASSES];
    let mut ids = Ids::new();
    let glass_part = &file[glass_offset..pane_offset];
    let glass_count = read_part(glass_part, glass_offset, &mut glasses, |letter, numbers| {
        let glass = match letter {
            b'G' => Glass::of(numbers),
            _ => return Err(FORM),
        };
        let glass = glass.ok_or(VALUE)?;
        ids.add(glass.id)?;
        Ok(glass)
    })?;

    let mut panes = [Pane::default(); MOST_PANES];
    let mut ids = Ids::new();
    let pane_part = &file[pane_offset..end];
    let pane_count = read_part(pane_part, pane_offset, &mut panes, |letter, numbers| {
        let pane = match letter {
            b'P' => Pane::by_pressures(numbers),
            b'Q' => Pane::by_class(numbers),
            _ => return Err(FORM),
        };
        let pane = pane.ok_or(VALUE)?;
        ids.add(pane.id)?;
        Ok(pane)
    })?;

    Ok(Job {
        glasses,
        glass_count,
        panes,
        pane_count,
    })
}

/// Where the pane part of a file begins, if the file has parts.
pub fn pane_offset(file: &[u8]) -> Option<usize> {
    let (_, pane_offset, _) = parts(file).ok()?;
    Some(pane_offset)
}

/// The offsets of the glass part, the pane part and the trailer.
fn parts(file: &[u8]) -> Result<(usize, usize, usize), Refusal> {
    if !(TRAILER_BYTES..=MOST_BYTES).contains(&file.len()) {
        return Err(Refusal::new(LENGTH, 0));
    }
    let end = file.len() - TRAILER_BYTES;
    let (glass_offset, pane_offset) = trailer(&file[end..]).ok_or(Refusal::new(TRAILER, end))?;
    if glass_offset <= pane_offset && pane_offset <= end {
        Ok((glass_offset, pane_offset, end))
    } else {
        Err(Refusal::new(OFFSETS, end))
    }
}

/// The two numbers of a trailer.
fn trailer(bytes: &[u8]) -> Option<(usize, usize)> {
    let &[b'T', b' ', g1, g2, g3, g4, g5, b' ', p1, p2, p3, p4, p5, b'\n'] = bytes else {
        return None;
    };
    let offset = |digits: [u8; 5]| {
        digits.iter().try_fold(0, |value, byte| {
            let digit = byte.is_ascii_digit().then(|| usize::from(byte - b'0'))?;
            Some(10 * value + digit)
        })
    };
    Some((offset([g1, g2, g3, g4, g5])?, offset([p1, p2, p3, p4, p5])?))
}

/// Reads the lines of a part that begins at `offset` into `list`, and gives their number.
/// `check` turns the letter and the numbers of a line into an entry, or into `FORM` or a cause that
/// comes after it.
fn read_part<const N: usize, T>(
    part: &[u8],
    offset: usize,
    list: &mut [T],
    mut check: impl FnMut(u8, [u32; N]) -> Result<T, usize>,
) -> Result<usize, Refusal> {
    let mut rest = part;
    let mut count = 0;
    while !rest.is_empty() {
        let refuse = |number| Refusal::new(number, offset + part.len() - rest.len());
        let entry = list.get_mut(count).ok_or_else(|| refuse(TOO_MANY_LINES))?;
        let (letter, numbers, after) = line(rest).ok_or_else(|| refuse(FORM))?;
        *entry = check(letter, numbers).map_err(refuse)?;
        rest = after;
        count += 1;
    }
    Ok(count)
}

/// The letter, which may be any byte, and the numbers of the line at the front of `bytes`, and the bytes
/// after its newline.
pub fn line<const N: usize>(bytes: &[u8]) -> Option<(u8, [u32; N], &[u8])> {
    let (&letter, mut rest) = bytes.split_first()?;
    let mut numbers = [0; N];
    for slot in &mut numbers {
        (*slot, rest) = number(rest.strip_prefix(b" ")?)?;
    }
    Some((letter, numbers, rest.strip_prefix(b"\n")?))
}

/// The number of one to five digits at the front of `bytes`, without a leading zero, and the bytes
/// after it. A sixth digit is left there, where no line has a digit.
fn number(bytes: &[u8]) -> Option<(u32, &[u8])> {
    let mut value = 0;
    let mut digits = 0;
    while let Some(digit @ b'0'..=b'9') = bytes.get(digits) {
        if digits == 5 {
            break;
        }
        value = 10 * value + u32::from(digit - b'0');
        digits += 1;
    }
    let leading_zero = digits > 1 && bytes[0] == b'0';
    (digits > 0 && !leading_zero).then(|| (value, &bytes[digits..]))
}

/// The ids on the lines of a part so far, one bit for each.
struct Ids([u64; LARGEST_ID as usize / 64 + 1]);

impl Ids {
    fn new() -> Ids {
        Ids([0; LARGEST_ID as usize / 64 + 1])
    }

    fn add(&mut self, id: u16) -> Result<(), usize> {
        let word = &mut self.0[usize::from(id / 64)];
        let bit = 1 << (id % 64);
        if *word & bit != 0 {
            return Err(REPEATED_ID);
        }
        *word |= bit;
        Ok(())
    }
}
