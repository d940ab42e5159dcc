//! What an accepted job file says: document 01, "The job file", and document 02, 2026-03.

use crate::tables::ROOF_PRESSURES;

pub const MOST_GLASSES: usize = 64;
pub const MOST_PANES: usize = 256;
pub const LARGEST_ID: u32 = 9_999;

/// A glass line. Lengths in mm, `two` and `four` in tenths of k1.
#[derive(Clone, Copy, Debug, Default, PartialEq, Eq)]
pub struct Glass {
    pub id: u16,
    pub kind: u8,
    pub thick: u8,
    pub w: u16,
    pub h: u16,
    pub two: u32,
    pub four: u32,
    pub stock: u16,
}

impl Glass {
    /// The glass of a line's numbers, if each is among its allowed values.
    pub fn of([id, kind, thick, w, h, two, four, stock]: [u32; 8]) -> Option<Glass> {
        let allowed = (1..=LARGEST_ID).contains(&id)
            && (1..=4).contains(&kind)
            && matches!(thick, 6 | 8 | 10 | 12)
            && (1..=9_999).contains(&w)
            && (1..=9_999).contains(&h)
            && (1..=99_999).contains(&two)
            && (1..=99_999).contains(&four)
            && stock <= 999;
        allowed.then_some(Glass {
            id: id as u16,
            kind: kind as u8,
            thick: thick as u8,
            w: w as u16,
            h: h as u16,
            two,
            four,
            stock: stock as u16,
        })
    }
}

/// The wind on a pane, as its line gives it: document 02, 2026-03. The numbers of both cases are of one
/// size, so that a list of panes is quickly set up.
#[derive(Clone, Copy, Debug, PartialEq, Eq)]
pub enum Wind {
    /// A `P` line: ultimate pressures, 0 to 1000 in units of 0.01 kPa.
    Pressures { down: u16, up: u16 },
    /// A `Q` line: a wind class from 1 to 10, for N1 to N6 and C1 to C4, and zone 1 or 2.
    Class { class: u16, zone: u16 },
}

impl Default for Wind {
    fn default() -> Wind {
        Wind::Pressures { down: 0, up: 0 }
    }
}

impl Wind {
    /// The wind of the last two numbers of a `P` line, if both are among their allowed values.
    fn of_pressures(down: u32, up: u32) -> Option<Wind> {
        let allowed = down <= 1_000 && up <= 1_000;
        allowed.then_some(Wind::Pressures {
            down: down as u16,
            up: up as u16,
        })
    }

    /// The wind of the last two numbers of a `Q` line, if both are among their allowed values.
    fn of_class(class: u32, zone: u32) -> Option<Wind> {
        let allowed = (1..=10).contains(&class) && matches!(zone, 1 | 2);
        allowed.then_some(Wind::Class {
            class: class as u16,
            zone: zone as u16,
        })
    }

    /// The pressures down and up, in units of 0.01 kPa: those of the line, or those of Table A2 for its
    /// class and zone.
    pub fn pressures(self) -> (u16, u16) {
        match self {
            Wind::Pressures { down, up } => (down, up),
            Wind::Class { class, zone } => {
                let [any_position, general, near_edges] = ROOF_PRESSURES[usize::from(class) - 1];
                let up = if zone == 1 { general } else { near_edges };
                (any_position, up)
            }
        }
    }
}

/// A pane line. Lengths in mm, `w` and `h` as sight size.
#[derive(Clone, Copy, Debug, Default, PartialEq, Eq)]
pub struct Pane {
    pub id: u16,
    pub edges: u8,
    pub angle: u8,
    pub awning: bool,
    pub top: u32,
    pub w: u16,
    pub h: u16,
    pub wind: Wind,
}

impl Pane {
    /// The pane of the numbers of a `P` line, if each is among its allowed values.
    pub fn by_pressures(numbers: [u32; 9]) -> Option<Pane> {
        Pane::of(numbers, Wind::of_pressures)
    }

    /// The pane of the numbers of a `Q` line, if each is among its allowed values.
    pub fn by_class(numbers: [u32; 9]) -> Option<Pane> {
        Pane::of(numbers, Wind::of_class)
    }

    /// The pane of a line's numbers, of which `wind` reads the last two.
    fn of(
        [id, edges, angle, awning, top, w, h, first, second]: [u32; 9],
        wind: impl Fn(u32, u32) -> Option<Wind>,
    ) -> Option<Pane> {
        let allowed = (1..=LARGEST_ID).contains(&id)
            && matches!(edges, 2 | 4)
            && angle <= 74
            && awning <= 1
            && top <= 99_999
            && (1..=5_000).contains(&w)
            && (1..=5_000).contains(&h);
        let wind = wind(first, second)?;
        allowed.then_some(Pane {
            id: id as u16,
            edges: edges as u8,
            angle: angle as u8,
            awning: awning == 1,
            top,
            w: w as u16,
            h: h as u16,
            wind,
        })
    }

    pub fn longer_side(&self) -> u16 {
        self.w.max(self.h)
    }

    pub fn shorter_side(&self) -> u16 {
        self.w.min(self.h)
    }

    /// Whether the line begins with `Q`: document 02, 2026-03.
    pub fn is_by_class(&self) -> bool {
        matches!(self.wind, Wind::Class { .. })
    }

    /// A ribbon has four edges and is over 3 times as long as wide: document 02, 2026-01.
    pub fn is_ribbon(&self) -> bool {
        self.edges == 4 && self.longer_side() > 3 * self.shorter_side()
    }

    pub fn is_ribbon_by_class(&self) -> bool {
        self.is_ribbon() && self.is_by_class()
    }
}

/// The glasses and panes of a file, in file order.
#[derive(Clone, Debug)]
pub struct Job {
    pub(crate) glasses: [Glass; MOST_GLASSES],
    pub(crate) glass_count: usize,
    pub(crate) panes: [Pane; MOST_PANES],
    pub(crate) pane_count: usize,
}

impl Job {
    pub fn glasses(&self) -> &[Glass] {
        &self.glasses[..self.glass_count]
    }

    pub fn panes(&self) -> &[Pane] {
        &self.panes[..self.pane_count]
    }
}
