//! Compares the files of a seed on all cores, and tells how far it is and what differs.

use crate::program::Canopy;
use compare::calls::Bordavina;
use compare::comparison::compare;
use compare::generator::{generate, Kind};
use compare::outcome::Outcome;
use compare::random::Random;
use compare::tally::Tally;
use std::fs;
use std::sync::atomic::{AtomicU64, Ordering};
use std::sync::mpsc::{self, Receiver, RecvTimeoutError, Sender};
use std::thread;
use std::time::{Duration, Instant};

const PROGRESS_EVERY: Duration = Duration::from_secs(3);

/// The program is run on one file in so many.
const PROGRAM_EVERY: u64 = 100;

/// Files that differ are saved, so many at most.
const MOST_SAVED: u64 = 10;

/// A run over the files 0 to `files` less 1 of a seed.
pub struct Runner {
    files: u64,
    seed: u64,
    canopy: Canopy,
    next: AtomicU64,
    done: AtomicU64,
}

/// A file that differs.
struct Difference {
    index: u64,
    kind: Kind,
    file: Vec<u8>,
    outcome: Outcome,
}

impl Runner {
    pub fn new(files: u64, seed: u64, canopy: Canopy) -> Runner {
        Runner {
            files,
            seed,
            canopy,
            next: AtomicU64::new(0),
            done: AtomicU64::new(0),
        }
    }

    /// Compares all files, prints the differences and the table, and gives the number of files
    /// that differ.
    pub fn run(&self) -> u64 {
        let cores = thread::available_parallelism().map_or(1, usize::from);
        let (files, seed) = (self.files, self.seed);
        eprintln!("comparing {files} files of seed {seed} on {cores} cores");
        let (sender, receiver) = mpsc::channel();
        let mut tally = Tally::default();
        let differ = thread::scope(|scope| {
            let start = |sender| scope.spawn(move || self.work(sender));
            let workers: Vec<_> = (0..cores).map(|_| start(sender.clone())).collect();
            drop(sender);
            let differ = self.watch(&receiver);
            for worker in workers {
                tally.add(&worker.join().expect("no panic in a worker"));
            }
            differ
        });
        print!("{tally}");
        differ
    }

    /// Takes files until none is left.
    fn work(&self, sender: Sender<Difference>) -> Tally {
        let mut tally = Tally::default();
        loop {
            let index = self.next.fetch_add(1, Ordering::Relaxed);
            if index >= self.files {
                return tally;
            }
            let mut random = Random::of_file(self.seed, index);
            let (kind, file) = generate(&mut random);
            let mut outcome = compare(&Bordavina, &file, &mut random);
            if index.is_multiple_of(PROGRAM_EVERY) {
                self.canopy.compare(&file, &mut outcome);
            }
            outcome.tally.kinds[kind as usize] += 1;
            tally.add(&outcome.tally);
            if outcome.finding_count > 0 {
                let difference = Difference {
                    index,
                    kind,
                    file,
                    outcome,
                };
                sender.send(difference).expect("a receiver for differences");
            }
            self.done.fetch_add(1, Ordering::Relaxed);
        }
    }

    /// Prints differences and progress until every worker has ended.
    fn watch(&self, receiver: &Receiver<Difference>) -> u64 {
        let start = Instant::now();
        let mut next_progress = start + PROGRESS_EVERY;
        let mut differ = 0;
        loop {
            let wait = next_progress.saturating_duration_since(Instant::now());
            match receiver.recv_timeout(wait) {
                Ok(difference) => {
                    self.show(&difference, differ < MOST_SAVED);
                    differ += 1;
                }
                Err(RecvTimeoutError::Timeout) => {
                    self.show_progress(start.elapsed());
                    next_progress += PROGRESS_EVERY;
                }
                Err(RecvTimeoutError::Disconnected) => break,
            }
        }
        self.show_progress(start.elapsed());
        differ
    }

    fn show(&self, difference: &Difference, save: bool) {
        let (seed, index) = (self.seed, difference.index);
        let kind = difference.kind.name();
        for finding in &difference.outcome.findings {
            println!("seed {seed}, file {index} ({kind}): {}", finding.call);
            println!("    expected: {}", finding.expected);
            println!("    came: {}", finding.came);
        }
        let more = difference.outcome.finding_count - difference.outcome.findings.len();
        if more > 0 {
            println!("seed {seed}, file {index} ({kind}): {more} more findings");
        }
        if save {
            let name = format!("differ-{seed}-{index}.job");
            match fs::write(&name, &difference.file) {
                Ok(()) => println!("    saved as {name}"),
                Err(error) => println!("    not saved as {name}: {error}"),
            }
        }
    }

    fn show_progress(&self, time: Duration) {
        let done = self.done.load(Ordering::Relaxed);
        let rate = done as f64 / time.as_secs_f64();
        let seconds = time.as_secs();
        let files = self.files;
        eprintln!("{done} of {files} files in {seconds} s, {rate:.0} files/s");
    }
}
