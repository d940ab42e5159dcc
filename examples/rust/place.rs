//! Places the job of document 01's example by the library, as a program would that holds its own panes and glasses: it writes the
//! job file, checks it, asks for each pane and glass whether the glass passes, and places. Standard output has the lines of
//! canopy; standard error has which clause stands against which glass.

#[path = "../../include/bordavina.rs"]
mod bordavina;

use bordavina::refusal::NOT_REFUSED;

/// id, kind, thickness, sheet w and h, span constants for two edges and for four, stock
const GLASSES: [[u32; 8]; 2] = [
    [9, 1, 12, 2400, 3600, 21304, 23857, 1],
    [7, 1, 10, 2400, 3600, 17976, 20130, 1],
];

/// id, edges, angle, awning, top, w and h, wind down and up
const PANES: [[u32; 9]; 2] = [
    [1, 4, 30, 0, 3000, 900, 1500, 60, 95],
    [2, 4, 10, 0, 3000, 500, 1000, 60, 95],
];

fn line(word: &str, numbers: &[u32]) -> String {
    let fields: String = numbers.iter().map(|n| format!(" {n}")).collect();
    format!("{word}{fields}\n")
}

/// The job file: the glasses, the panes, and where each part begins.
fn job() -> String {
    let glass_part: String = GLASSES.iter().map(|g| line("G", g)).collect();
    let pane_part: String = PANES.iter().map(|p| line("P", p)).collect();
    let pane_offset = glass_part.len();
    format!("{glass_part}{pane_part}T {:05} {:05}\n", 0, pane_offset)
}

fn main() {
    let job = job();
    let file = job.as_bytes();

    let checked = bordavina::check(file);
    if checked.number != NOT_REFUSED {
        println!("refused {} {}", checked.number, checked.offset);
        std::process::exit(1);
    }

    for pane in PANES {
        for glass in GLASSES {
            let verdict = bordavina::verdict(file, pane[0], glass[0]);
            if verdict.clause != 0 {
                eprintln!(
                    "pane {}, glass {}: clause {} fails",
                    pane[0], glass[0], verdict.clause
                );
            }
        }
    }

    let mut answers = [0; PANES.len()];
    let mut short_group = [0; PANES.len()];
    let placed = bordavina::place(file, &mut answers, &mut short_group);
    if placed.number != NOT_REFUSED {
        println!("refused {} {}", placed.number, placed.offset);
        std::process::exit(1);
    }
    for (pane, glass) in PANES.iter().zip(answers) {
        println!("{} {}", pane[0], glass);
    }
    println!("{} {}", placed.placed, placed.wanted);
    if placed.placed != placed.wanted {
        print!("{}", line("short", &short_group[..placed.group]));
    }
}
