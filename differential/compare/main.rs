//! Compares the oracle with the Rattle side: `compare N SEED FOLDER PROGRAM`, or the static library
//! alone with `compare --library N SEED FOLDER`, or one elementary function at every argument with
//! `compare --every NAME [SECOND] FOLDER`, where SECOND is the second argument of a function of two.
//! One module for each thing compared; a difference is written, as small as it can be made, into
//! FOLDER. PROGRAM is the Rattle fly; flights are left out where it is missing.

mod flights;
mod functions;
mod library;
mod progress;
mod shrink;
mod shrink_flight;

use std::io;
use std::path::{Path, PathBuf};
use std::process::ExitCode;

/// What a comparison found: how many cases it ran and the files of its differences.
#[derive(Default)]
pub struct Found {
    pub cases: u64,
    pub differing: u64,
    pub files: Vec<PathBuf>,
}

impl Found {
    fn add(&mut self, other: Found) {
        self.cases += other.cases;
        self.differing += other.differing;
        self.files.extend(other.files);
    }
}

fn main() -> ExitCode {
    let arguments: Vec<String> = std::env::args().skip(1).collect();
    let Some(found) = compare(&arguments) else {
        eprintln!("usage: compare N SEED FOLDER PROGRAM");
        eprintln!("       compare --library N SEED FOLDER");
        eprintln!("       compare --every NAME [SECOND] FOLDER, SECOND for a function of two");
        return ExitCode::FAILURE;
    };
    match found {
        Ok(found) => report(&found),
        Err(error) => {
            eprintln!("compare: {error}");
            ExitCode::FAILURE
        }
    }
}

/// None where the arguments are not those of the usage.
fn compare(arguments: &[String]) -> Option<io::Result<Found>> {
    let arguments: Vec<&str> = arguments.iter().map(String::as_str).collect();
    if let ["--every", name, second @ .., folder] = arguments.as_slice() {
        return every(name, second, Path::new(folder)).map(Ok);
    }
    let (alone, n, seed, folder, last) = match arguments.as_slice() {
        ["--library", n, seed, folder] => (true, n, seed, folder, ""),
        [n, seed, folder, program] => (false, n, seed, folder, *program),
        _ => return None,
    };
    let (n, seed) = (n.parse().ok()?, seed.parse().ok()?);
    let folder = Path::new(folder);
    Some(if alone {
        library::compare(n, seed, folder)
    } else {
        everything(n, seed, folder, Path::new(last))
    })
}

/// The function of that name at every float, with a second argument where one is given.
fn every(name: &str, second: &[&str], folder: &Path) -> Option<Found> {
    match second {
        [] => functions::every(name, None, folder),
        [second] => functions::every(name, Some(second.parse().ok()?), folder),
        _ => None,
    }
}

fn everything(n: u64, seed: u64, folder: &Path, program: &Path) -> io::Result<Found> {
    let mut found = functions::compare(n, seed, folder);
    found.add(library::compare(n, seed, folder)?);
    if program.is_file() {
        found.add(flights::compare(n, seed, folder, program)?);
    } else {
        println!("flights: left out, {} is missing", program.display());
    }
    Ok(found)
}

fn report(found: &Found) -> ExitCode {
    println!("{} cases compared, {} differ", found.cases, found.differing);
    for file in &found.files {
        println!("smallest differing input: {}", file.display());
    }
    if found.differing == 0 {
        ExitCode::SUCCESS
    } else {
        ExitCode::FAILURE
    }
}
