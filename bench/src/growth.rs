//! The second table: how the time of `place` grows with the panes and with the glasses.

use compare::job::{MOST_GLASSES, MOST_PANES};

use crate::calls::Call;
use crate::row::{Row, Size};
use crate::shapes::Shape;

/// Measures and prints a part for the panes and a part for the glasses.
pub fn print() -> Result<(), String> {
    println!("place by panes, with 64 glasses");
    print_part([16, 64, 256], "panes", |panes| Size {
        glasses: MOST_GLASSES,
        panes,
    })?;
    println!();
    println!("place by glasses, with 256 panes");
    print_part([8, 32, 64], "glasses", |glasses| Size {
        glasses,
        panes: MOST_PANES,
    })
}

fn print_part(counts: [usize; 3], unit: &str, size: fn(usize) -> Size) -> Result<(), String> {
    let [first, second, third] = counts.map(|count| format!("{count} {unit}"));
    println!("shape             side          {first:>10}  {second:>10}  {third:>10}");
    for shape in Shape::ALL {
        let mut library = Vec::new();
        let mut safe = Vec::new();
        for count in counts {
            let row = Row::measure(Call::Place, shape, size(count))?;
            library.push(row.times.library);
            safe.push(row.times.safe);
        }
        print_line(shape, "this library", &library);
        print_line(shape, "safe Rust", &safe);
    }
    Ok(())
}

fn print_line(shape: Shape, side: &str, times: &[f64]) {
    print!("{:<16}  {side:<12}", shape.name());
    for time in times {
        print!("  {time:>10.2}");
    }
    println!();
}
