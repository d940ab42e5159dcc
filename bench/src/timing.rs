//! The time of a call, on both sides by turns.

use std::hint::black_box;
use std::time::{Duration, Instant};

/// A batch lasts at least about so long.
pub const BATCH: Duration = Duration::from_millis(2);

/// Batches of each side.
pub const BATCHES: usize = 60;

/// So many batches of each side are faster than the one that counts: less hangs on a few lucky
/// ones than with the fastest, and what else the machine does is left out as well.
pub const FASTER: usize = BATCHES / 10;

/// The time of a call on each side, in microseconds.
#[derive(Clone, Copy, Debug)]
pub struct Times {
    pub library: f64,
    pub safe: f64,
}

impl Times {
    pub fn ratio(&self) -> f64 {
        self.library / self.safe
    }
}

/// Times two functions that make `calls` calls each. Their batches alternate, so that what else the
/// machine does meets both alike. Each turn is deeper in the stack than the last: where a process
/// happens to have its stack can alone change a time by half, and so it does not decide.
pub fn time_both(calls: usize, mut library: impl FnMut(), mut safe: impl FnMut()) -> Times {
    let library_runs = runs_a_batch(&mut library);
    let safe_runs = runs_a_batch(&mut safe);
    let mut library_times = [0.0; BATCHES];
    let mut safe_times = [0.0; BATCHES];
    for turn in 0..BATCHES {
        deeper(turn, &mut || {
            library_times[turn] = run_time(library_runs, &mut library);
            safe_times[turn] = run_time(safe_runs, &mut safe);
        });
    }
    Times {
        library: low(library_times) / calls as f64,
        safe: low(safe_times) / calls as f64,
    }
}

/// How many runs of a function fill a batch. Finding it also warms the caches.
fn runs_a_batch(function: &mut impl FnMut()) -> usize {
    let mut runs = 1;
    while batch_time(runs, function) < BATCH {
        runs *= 2;
    }
    runs
}

/// The time of one run in a batch, in microseconds.
fn run_time(runs: usize, function: &mut impl FnMut()) -> f64 {
    batch_time(runs, function).as_secs_f64() * 1e6 / runs as f64
}

fn batch_time(runs: usize, function: &mut impl FnMut()) -> Duration {
    let start = Instant::now();
    for _ in 0..runs {
        function();
    }
    start.elapsed()
}

/// Runs a function with so many more frames of some 80 bytes on the stack.
#[inline(never)]
fn deeper(frames: usize, function: &mut dyn FnMut()) {
    let frame = black_box([0u8; 48]);
    match frames {
        0 => function(),
        _ => deeper(frames - 1, function),
    }
    black_box(&frame);
}

/// The time that `FASTER` others are below.
fn low(mut times: [f64; BATCHES]) -> f64 {
    times.sort_by(f64::total_cmp);
    times[FASTER]
}
