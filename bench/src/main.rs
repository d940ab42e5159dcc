//! The benchmark: the proved library beside safe Rust with the same search. README.md says what is
//! measured and how.
#![forbid(unsafe_code)]

mod bar;
mod calls;
mod comparison;
mod growth;
mod job_text;
mod place;
mod row;
mod safe;
mod search;
mod shapes;
mod stack;
mod timing;

use std::env::args;
use std::process::ExitCode;

fn main() -> ExitCode {
    let words: Vec<String> = args().skip(1).collect();
    let words: Vec<&str> = words.iter().map(String::as_str).collect();
    let done = match words[..] {
        [] => times(),
        ["stack"] => stack::print().map(|()| true),
        ["stack", call, shape, size] => stack::attempt(call, shape, size).map(|()| true),
        _ => Err("no such measurement".to_string()),
    };
    match done {
        Ok(true) => ExitCode::SUCCESS,
        Ok(false) => ExitCode::FAILURE,
        Err(reason) => {
            eprintln!("stopped: {reason}");
            ExitCode::FAILURE
        }
    }
}

/// Prints both tables of times, and then whether the bar is met.
fn times() -> Result<bool, String> {
    print_method();
    println!();
    let rows = comparison::print()?;
    println!();
    growth::print()?;
    println!();
    Ok(bar::print(&rows))
}

fn print_method() {
    let (batches, faster) = (timing::BATCHES, timing::FASTER);
    let batch = timing::BATCH.as_millis();
    println!("Microseconds a call. Each side has {batches} batches of at least {batch} ms, by turns with the");
    println!("other's; the batch that counts is the one that {faster} are faster than. The file is in cache;");
    println!("the lent lists have 256 entries and are not cleared between calls. Sizes are glasses x panes.");
    println!("A chain has as many links as there are glasses, 64 on the largest job.");
}
