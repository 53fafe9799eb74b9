//! The oracle's commands; see differential/README.md.

use std::io::{self, Read, Write};
use std::path::Path;
use std::process::ExitCode;

const USAGE: &str = "usage: oracle fly < input
       oracle hand
       oracle lists FOLDER
       oracle inputs SEED N
       oracle flights SEED N
       oracle mirror SEED N";

fn main() -> ExitCode {
    let arguments: Vec<String> = std::env::args().skip(1).collect();
    let arguments: Vec<&str> = arguments.iter().map(String::as_str).collect();
    let done = match arguments.as_slice() {
        ["fly"] => fly(),
        ["hand"] => return held(oracle::hand::check()),
        ["lists", folder] => oracle::lists::write_all(Path::new(folder)),
        [what, seed, n] => match (*what, seed.parse(), n.parse()) {
            ("inputs", Ok(seed), Ok(n)) => inputs(seed, n, false),
            ("flights", Ok(seed), Ok(n)) => inputs(seed, n, true),
            ("mirror", Ok(seed), Ok(n)) => return held(oracle::mirror::check(seed, n)),
            _ => return usage(),
        },
        _ => return usage(),
    };
    match done {
        Ok(()) => ExitCode::SUCCESS,
        Err(error) => {
            eprintln!("oracle: {error}");
            ExitCode::FAILURE
        }
    }
}

fn usage() -> ExitCode {
    eprintln!("{USAGE}");
    ExitCode::FAILURE
}

/// Document 01's fly.
fn fly() -> io::Result<()> {
    let mut input = Vec::new();
    io::stdin().read_to_end(&mut input)?;
    let mut out = io::BufWriter::new(io::stdout().lock());
    for line in oracle::fly::fly(&input) {
        writeln!(out, "{line}")?;
    }
    out.flush()
}

fn held(all: bool) -> ExitCode {
    if all {
        ExitCode::SUCCESS
    } else {
        ExitCode::FAILURE
    }
}

/// Inputs of fly from a seed, one a line, in hex; or as the list of flights, with their lines.
fn inputs(seed: u64, n: u64, flown: bool) -> io::Result<()> {
    let mut out = io::BufWriter::new(io::stdout().lock());
    for index in 0..n {
        let input = oracle::inputs::input(seed, index);
        if flown {
            write!(out, "{}", oracle::lists::flights::one(&input))?;
        } else {
            writeln!(out, "{}", oracle::words::hex(&input))?;
        }
    }
    out.flush()
}
