//! The first table: each call on each shape at three sizes, on both sides.

use crate::calls::Call;
use crate::row::{Row, Size};
use crate::shapes::Shape;

/// Small, middling and the largest.
const SIZES: [Size; 3] = [
    Size {
        glasses: 8,
        panes: 16,
    },
    Size {
        glasses: 32,
        panes: 64,
    },
    Size {
        glasses: 64,
        panes: 256,
    },
];

/// Measures and prints the rows, each as soon as it is there.
pub fn print() -> Result<Vec<Row>, String> {
    println!("call     shape             size      this library  safe Rust  ratio");
    let mut rows = Vec::new();
    for call in Call::ALL {
        for shape in Shape::ALL {
            for size in SIZES {
                let row = Row::measure(call, shape, size)?;
                print_row(&row);
                rows.push(row);
            }
        }
    }
    Ok(rows)
}

fn print_row(row: &Row) {
    println!(
        "{:<7}  {:<16}  {:<8}  {:>12.2}  {:>9.2}  {:>5.2}",
        row.call.name(),
        row.shape.name(),
        row.size,
        row.times.library,
        row.times.safe,
        row.times.ratio()
    );
}
