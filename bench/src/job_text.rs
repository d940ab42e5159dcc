//! Writing a job file: document 01, "The job file", and document 02, 2026-03.

use compare::job::Wind;
use compare::random::Random;

const NOTES: &str = "A roof and a rack, made for the benchmark.\n";

/// The numbers of a glass line behind the id.
#[derive(Clone, Copy)]
pub struct GlassNumbers {
    pub kind: usize,
    pub thick: usize,
    pub w: usize,
    pub h: usize,
    pub two: usize,
    pub four: usize,
    pub stock: usize,
}

/// The numbers of a pane line behind the id. The wind says the letter and the last two.
#[derive(Clone, Copy)]
pub struct PaneNumbers {
    pub edges: usize,
    pub angle: usize,
    pub awning: usize,
    pub top: usize,
    pub w: usize,
    pub h: usize,
    pub wind: Wind,
}

/// A job file of these glasses and panes, under ids of four digits in no order.
pub fn job_file(glasses: &[GlassNumbers], panes: &[PaneNumbers], random: &mut Random) -> Vec<u8> {
    let mut text = String::from(NOTES);
    let glass_offset = text.len();
    for (id, g) in ids(random).zip(glasses) {
        text += &format!(
            "G {id} {} {} {} {} {} {} {}\n",
            g.kind, g.thick, g.w, g.h, g.two, g.four, g.stock
        );
    }
    let pane_offset = text.len();
    for (id, p) in ids(random).zip(panes) {
        let (letter, first, second) = match p.wind {
            Wind::Pressures { down, up } => ('P', down, up),
            Wind::Class { class, zone } => ('Q', class, zone),
        };
        text += &format!(
            "{letter} {id} {} {} {} {} {} {} {first} {second}\n",
            p.edges, p.angle, p.awning, p.top, p.w, p.h
        );
    }
    text += &format!("T {glass_offset:05} {pane_offset:05}\n");
    text.into_bytes()
}

/// All ids of four digits, shuffled.
fn ids(random: &mut Random) -> impl Iterator<Item = usize> {
    let mut ids: Vec<usize> = (1_000..=9_999).collect();
    random.shuffle(&mut ids);
    ids.into_iter()
}
