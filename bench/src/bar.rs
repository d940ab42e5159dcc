//! The bar that every row of the first table is held to.

use crate::row::Row;

/// At most this is the time of this library, divided by that of safe Rust.
const BAR: f64 = 1.25;

/// Prints whether every row meets the bar, with the rows that miss it.
pub fn print(rows: &[Row]) -> bool {
    let ratio = |row: &&Row| row.times.ratio();
    let highest = rows.iter().max_by(|a, b| ratio(a).total_cmp(&ratio(b)));
    let Some(highest) = highest else {
        return true;
    };
    let missing: Vec<&Row> = rows.iter().filter(|row| ratio(row) > BAR).collect();
    let count = rows.len();
    print!("{count} rows, highest ratio {highest}, bar {BAR}: ");
    if missing.is_empty() {
        println!("met");
    } else {
        println!("missed in {} rows", missing.len());
    }
    for row in &missing {
        println!("missed: {row}");
    }
    missing.is_empty()
}
