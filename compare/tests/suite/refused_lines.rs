//! The lines for which generated files are refused, and what comes of them changed.

use crate::pairs::files;
use compare::generator::Kind;
use compare::reader::{read, TRAILER_BYTES};
use compare::refusal::{Refusal, FORM, REPEATED_ID, TOO_MANY_LINES, VALUE};

/// A file that is refused for a line.
pub struct RefusedLine {
    file: Vec<u8>,
    refusal: Refusal,
}

/// The first 12,000 files of seed 1, for each fault is one of many.
pub fn files_with_faults() -> impl Iterator<Item = (Kind, Vec<u8>)> {
    files(12_000)
}

pub fn refused_lines() -> impl Iterator<Item = RefusedLine> {
    files_with_faults().filter_map(|(_, file)| {
        let refusal = read(&file).err()?;
        let of_a_line = [FORM, VALUE, REPEATED_ID, TOO_MANY_LINES].contains(&refusal.number);
        of_a_line.then_some(RefusedLine { file, refusal })
    })
}

impl RefusedLine {
    pub fn number(&self) -> usize {
        self.refusal.number
    }

    /// The line without its newline, and the bytes after it.
    fn split(&self) -> (&[u8], &[u8]) {
        let rest = &self.file[self.refusal.offset..];
        let newline = rest.iter().position(|&byte| byte == b'\n');
        rest.split_at(newline.expect("the newline of the trailer"))
    }

    /// The letter and the numbers of the line, as far as they are text.
    pub fn fields(&self) -> Vec<&str> {
        fields(self.split().0)
    }

    pub fn is_in_the_glass_part(&self) -> bool {
        self.refusal.offset < self.pane_offset()
    }

    /// The fields of the earlier lines of the pane part.
    pub fn earlier_panes(&self) -> Vec<Vec<&str>> {
        let earlier = &self.file[self.pane_offset()..self.refusal.offset];
        let lines = earlier.split(|&byte| byte == b'\n');
        lines.map(fields).collect()
    }

    /// The second number of the trailer.
    fn pane_offset(&self) -> usize {
        let trailer = &self.file[self.file.len() - TRAILER_BYTES..];
        fields(&trailer[..TRAILER_BYTES - 1])[2]
            .parse()
            .expect("an offset")
    }

    /// Whether the file is taken otherwise with these fields in place of the line.
    pub fn differs_with(&self, fields: &[&str]) -> bool {
        let line = fields.join(" ");
        let before = &self.file[..self.refusal.offset];
        let file = [before, line.as_bytes(), self.split().1].concat();
        read(&file).err() != Some(self.refusal)
    }
}

/// What is between the spaces of a line, and nothing where it is no text.
fn fields(line: &[u8]) -> Vec<&str> {
    let line = std::str::from_utf8(line).unwrap_or_default();
    line.split(' ').collect()
}
