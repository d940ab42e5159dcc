//! Job files by seed, of seven kinds, for "The job file" and all that follows in document 01, and for
//! document 02, 2026-01 to 2026-06.

mod boundaries;
mod cut_sizes;
mod damaged_anywhere;
mod damaged_lines;
mod damaged_winds;
mod dead_loads;
mod draft;
mod easy;
mod fields;
mod honest;
mod house_roofs;
mod ids;
mod limits;
mod plan;
mod pressures;
mod shapes;
mod spans;
mod winds;

use crate::random::Random;
use draft::Draft;
use plan::Plan;

/// Bytes that lines are made of, and some that look like them.
const NEAR_BYTES: &[u8] = b"GPQTgpq 0123456789\n\r\t-+.,";

#[derive(Clone, Copy, Debug, PartialEq, Eq)]
pub enum Kind {
    /// Plausible roofs and racks.
    Honest,
    /// The boundaries of the clauses, and jobs on which placing is hard.
    Hard,
    /// Faults in one or two lines under a right trailer.
    DamagedLine,
    /// Bytes changed, added, removed or cut off anywhere.
    DamagedAnywhere,
    /// Random bytes, plain or made to look like a file.
    RandomBytes,
    /// Lengths about 14 and 65,535 bytes.
    Length,
    /// More than 64 glass lines or 256 pane lines.
    TooManyLines,
}

impl Kind {
    pub const ALL: [Kind; 7] = [
        Kind::Honest,
        Kind::Hard,
        Kind::DamagedLine,
        Kind::DamagedAnywhere,
        Kind::RandomBytes,
        Kind::Length,
        Kind::TooManyLines,
    ];

    pub fn name(self) -> &'static str {
        match self {
            Kind::Honest => "honest",
            Kind::Hard => "hard",
            Kind::DamagedLine => "damaged-line",
            Kind::DamagedAnywhere => "damaged-anywhere",
            Kind::RandomBytes => "random-bytes",
            Kind::Length => "length",
            Kind::TooManyLines => "too-many-lines",
        }
    }

    fn draw(random: &mut Random) -> Kind {
        match random.below(100) {
            0..=29 => Kind::Honest,
            30..=59 => Kind::Hard,
            60..=79 => Kind::DamagedLine,
            80..=89 => Kind::DamagedAnywhere,
            90..=93 => Kind::RandomBytes,
            94..=96 => Kind::Length,
            _ => Kind::TooManyLines,
        }
    }
}

/// Draws a kind and a file of that kind.
pub fn generate(random: &mut Random) -> (Kind, Vec<u8>) {
    let kind = Kind::draw(random);
    let file = match kind {
        Kind::Honest => Draft::of(&honest::plan(random), random).bytes(),
        Kind::Hard => Draft::of(&hard_plan(random), random).bytes(),
        Kind::DamagedLine => damaged_lines::file(random),
        Kind::DamagedAnywhere => damaged_anywhere::file(random),
        Kind::RandomBytes => limits::random_bytes(random),
        Kind::Length => limits::length(random),
        Kind::TooManyLines => limits::too_many_lines(random),
    };
    (kind, file)
}

fn hard_plan(random: &mut Random) -> Plan {
    match random.below(10) {
        0..=3 => boundaries::plan(random),
        4..=7 => shapes::plan(random),
        8 => house_roofs::plan(random),
        _ => dead_loads::plan(random),
    }
}
