//! The program `canopy` with a file on its standard input: document 01, "The program `canopy`".

use compare::comparison::compare_printed;
use compare::outcome::Outcome;
use std::io::{self, Read, Write};
use std::path::{Path, PathBuf};
use std::process::{Child, Command, ExitStatus, Stdio};
use std::thread;
use std::time::{Duration, Instant};

/// The program has to answer within this time.
const LIMIT: Duration = Duration::from_secs(1);

/// How often it is asked whether the program has ended.
const POLL: Duration = Duration::from_micros(200);

pub struct Canopy {
    path: PathBuf,
}

struct Run {
    /// Nothing if the program was stopped at the limit.
    status: Option<ExitStatus>,
    output: Vec<u8>,
    time: Duration,
}

impl Canopy {
    /// The program where the repository builds it.
    pub fn find() -> Result<Canopy, String> {
        let path = Path::new(env!("CARGO_MANIFEST_DIR")).join("../crates/canopy/out/canopy");
        if path.exists() {
            Ok(Canopy { path })
        } else {
            Err("../crates/canopy/out/canopy is missing: compare/run builds it".to_string())
        }
    }

    /// Runs the program on a file, and compares what it prints.
    pub fn compare(&self, file: &[u8], outcome: &mut Outcome) {
        let run = match self.run(file) {
            Ok(run) => run,
            Err(error) => {
                outcome.find("canopy", "a run of the program", error.to_string());
                return;
            }
        };
        outcome.tally.programs_run += 1;
        outcome.tally.slowest_program = outcome.tally.slowest_program.max(run.time);
        let Some(status) = run.status else {
            outcome.find("canopy", "an answer within 1 second", "none");
            return;
        };
        if status.code() != Some(0) {
            outcome.find("canopy", "exit status 0", status.to_string());
        }
        compare_printed(file, &run.output, outcome);
    }

    fn run(&self, file: &[u8]) -> io::Result<Run> {
        let start = Instant::now();
        let mut child = Command::new(&self.path)
            .stdin(Stdio::piped())
            .stdout(Stdio::piped())
            .spawn()?;
        let mut input = child.stdin.take().expect("a piped input");
        let mut output = child.stdout.take().expect("a piped output");
        thread::scope(|scope| {
            // The program may stop reading a file that is too long, so a failed write is no fault.
            scope.spawn(move || input.write_all(file));
            let reader = scope.spawn(move || {
                let mut bytes = Vec::new();
                output.read_to_end(&mut bytes).map(|_| bytes)
            });
            let status = wait(&mut child, start + LIMIT)?;
            let time = start.elapsed();
            let output = reader.join().expect("no panic in reading")?;
            Ok(Run {
                status,
                output,
                time,
            })
        })
    }
}

/// Waits until the program ends, and stops it if it has not done so in time.
fn wait(child: &mut Child, deadline: Instant) -> io::Result<Option<ExitStatus>> {
    loop {
        if let Some(status) = child.try_wait()? {
            return Ok(Some(status));
        }
        if Instant::now() >= deadline {
            child.kill()?;
            child.wait()?;
            return Ok(None);
        }
        thread::sleep(POLL);
    }
}
