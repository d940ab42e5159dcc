//! The runner: compares the proved library with the second implementation.
#![forbid(unsafe_code)]

mod one_file;
mod program;
mod runner;

use compare::generator::generate;
use compare::random::Random;
use program::Canopy;
use runner::Runner;
use std::env;
use std::ffi::OsString;
use std::fs;
use std::path::{Path, PathBuf};
use std::process::ExitCode;

const USAGE: &str =
    "usage: compare [FILES [SEED]]          compare generated files (100000 of seed 1)
       compare --file PATH             compare one file, and print what each call gave
       compare --write DIR COUNT SEED  write generated files into a folder";

const WRONG_ARGUMENT: u8 = 2;

enum Task {
    Run {
        files: u64,
        seed: u64,
    },
    OneFile(PathBuf),
    Write {
        folder: PathBuf,
        count: u64,
        seed: u64,
    },
}

impl Task {
    fn of(arguments: &[String]) -> Option<Task> {
        let number = |argument: &str| argument.parse().ok();
        let arguments: Vec<&str> = arguments.iter().map(String::as_str).collect();
        Some(match *arguments {
            [] => Task::Run {
                files: 100_000,
                seed: 1,
            },
            ["--file", path] => Task::OneFile(path.into()),
            ["--write", folder, count, seed] => Task::Write {
                folder: folder.into(),
                count: number(count)?,
                seed: number(seed)?,
            },
            [files] => Task::Run {
                files: number(files)?,
                seed: 1,
            },
            [files, seed] => Task::Run {
                files: number(files)?,
                seed: number(seed)?,
            },
            _ => return None,
        })
    }

    /// Does the task, and tells whether nothing differs.
    fn run(self) -> Result<bool, String> {
        match self {
            Task::Run { files, seed } => {
                let differ = Runner::new(files, seed, Canopy::find()?).run();
                println!("{files} files, {differ} differ");
                Ok(differ == 0)
            }
            Task::OneFile(path) => {
                let file =
                    fs::read(&path).map_err(|error| format!("{}: {error}", path.display()))?;
                let differs = one_file::run(&file, &Canopy::find()?);
                println!("1 files, {} differ", u8::from(differs));
                Ok(!differs)
            }
            Task::Write {
                folder,
                count,
                seed,
            } => write(&folder, count, seed).map(|()| true),
        }
    }
}

/// Writes the first files of a seed.
fn write(folder: &Path, count: u64, seed: u64) -> Result<(), String> {
    fs::create_dir_all(folder).map_err(|error| format!("{}: {error}", folder.display()))?;
    for index in 0..count {
        let (kind, file) = generate(&mut Random::of_file(seed, index));
        let path = folder.join(format!("{seed}-{index}-{}.job", kind.name()));
        fs::write(&path, file).map_err(|error| format!("{}: {error}", path.display()))?;
    }
    Ok(())
}

fn main() -> ExitCode {
    let arguments = env::args_os().skip(1).map(OsString::into_string);
    let arguments: Result<Vec<String>, OsString> = arguments.collect();
    let Some(task) = arguments.ok().and_then(|arguments| Task::of(&arguments)) else {
        eprintln!("{USAGE}");
        return ExitCode::from(WRONG_ARGUMENT);
    };
    match task.run() {
        Ok(true) => ExitCode::SUCCESS,
        Ok(false) => ExitCode::FAILURE,
        Err(error) => {
            eprintln!("compare: {error}");
            ExitCode::FAILURE
        }
    }
}
