//! Whole flights: the oracle's fly against the Rattle program of that name, line by line.

use std::fs;
use std::io::{self, Write};
use std::path::{Path, PathBuf};
use std::process::{Command, Stdio};
use std::thread;

use oracle::fly::fly;
use oracle::inputs;
use oracle::lists::flights::one;

use crate::Found;
use crate::progress::Progress;
use crate::shrink_flight::smallest;

/// `n` inputs from `seed`, each given to the oracle and to `program`.
pub fn compare(n: u64, seed: u64, folder: &Path, program: &Path) -> io::Result<Found> {
    let mut progress = Progress::new("flights", n);
    let mut found = Found::default();
    let mut first = None;
    for index in 0..n {
        let input = inputs::input(seed, index);
        found.cases += 1;
        if differs(program, &input)? {
            found.differing += 1;
            first.get_or_insert(input);
        }
        progress.at(found.cases, found.differing);
    }
    println!("flights: {} cases, {} differ", found.cases, found.differing);
    if let Some(input) = first {
        found.files.push(write(program, input, folder)?);
    }
    Ok(found)
}

/// What `program` prints for `input`. A thread feeds it, so neither side waits for the other.
fn printed(program: &Path, input: &[u8]) -> io::Result<String> {
    let mut child = Command::new(program)
        .stdin(Stdio::piped())
        .stdout(Stdio::piped())
        .spawn()?;
    let stdin = child.stdin.take();
    let input = input.to_vec();
    // A program that stops reading early closes the pipe; its lines decide, not the write.
    let feeder = thread::spawn(move || stdin.map(|mut pipe| pipe.write_all(&input).is_ok()));
    let output = child.wait_with_output()?;
    let _ = feeder.join();
    Ok(String::from_utf8_lossy(&output.stdout).into_owned())
}

fn differs(program: &Path, input: &[u8]) -> io::Result<bool> {
    let expected: String = fly(input).into_iter().map(|line| line + "\n").collect();
    Ok(printed(program, input)? != expected)
}

/// Writes the smallest input found: as bytes for fly, and as a list of one flight.
fn write(program: &Path, input: Vec<u8>, folder: &Path) -> io::Result<PathBuf> {
    let input = smallest(input, |tried| differs(program, tried))?;
    let mut text =
        String::from("# flights: the oracle's lines after `>`; the program's after `#`\n");
    text += &one(&input);
    for line in printed(program, &input)?.lines() {
        text += &format!("# {line}\n");
    }
    fs::write(folder.join("difference-flight.txt"), text)?;
    let file = folder.join("difference-flight.bin");
    fs::write(&file, input)?;
    Ok(file)
}
