//! Hands the static library random bytes, damaged blocks of every length from 0 to 2000, and rows of
//! random bits and any length: `fuzz N SEED SAMPLES LIST`. SAMPLES is the folder of sample flights
//! and LIST the stored list of flights, from which valid blocks come. Each call must come back, write
//! inside its buffers only, and leave what a refusal leaves.

mod calls;
mod guarded;
mod make;
mod region;
#[allow(dead_code)]
#[path = "../oracle/rng.rs"]
mod rng;
mod seeds;
mod watch;

use std::path::Path;
use std::process::ExitCode;
use std::time::{Duration, Instant};

use bench::{AIRFRAME_NUMBERS, raw};
use calls::{Counts, NAMES};
use rng::Rng;
use seeds::Flight;

/// Blocks have lengths 0 to 2000.
const LENGTHS: u64 = 2001;

fn main() -> ExitCode {
    let arguments: Vec<String> = std::env::args().skip(1).collect();
    let Some((n, seed, samples, list)) = read(&arguments) else {
        eprintln!("usage: fuzz N SEED SAMPLES LIST");
        return ExitCode::FAILURE;
    };
    let done = match seeds::read(samples, list) {
        Ok(flights) if flights.is_empty() => Err("no valid flight to start from".into()),
        Ok(flights) => fuzz(n, seed, &flights),
        Err(error) => Err(error.to_string()),
    };
    match done {
        Ok(()) => ExitCode::SUCCESS,
        Err(why) => {
            eprintln!("fuzz: {why}");
            ExitCode::FAILURE
        }
    }
}

fn read(arguments: &[String]) -> Option<(u64, u64, &Path, &Path)> {
    let [n, seed, samples, list] = arguments else {
        return None;
    };
    let (n, seed) = (n.parse().ok()?, seed.parse().ok()?);
    Some((n, seed, Path::new(samples), Path::new(list)))
}

/// Case `index` of `seed`; its blocks have the next length in turn.
fn case(index: u64, seed: u64, flights: &[Flight]) -> make::Case {
    let rng = &mut Rng::new(seed ^ index.wrapping_mul(0xE703_7ED1_A0B4_28DB));
    let flight = &flights[rng.below(flights.len())];
    let mut prepared = [0.0; AIRFRAME_NUMBERS];
    raw::prepare(&flight.airframe, &mut prepared);
    make::case(rng, flight, &prepared, (index % LENGTHS) as usize)
}

fn fuzz(n: u64, seed: u64, flights: &[Flight]) -> Result<(), String> {
    watch::start(seed);
    let mut counts = Counts::default();
    let mut last = Instant::now();
    for index in 0..n {
        watch::case(index);
        let case = case(index, seed, flights);
        calls::all(&mut counts, &case)
            .map_err(|what| format!("case {index} of seed {seed}: {what}"))?;
        if last.elapsed() >= Duration::from_secs(1) {
            last = Instant::now();
            println!("fuzz: {index} of {n}");
        }
    }
    print(n, flights.len(), &counts);
    Ok(())
}

fn print(n: u64, flights: usize, counts: &Counts) {
    println!("fuzz: {n} cases from {flights} valid flights, all calls came back");
    for (name, count) in NAMES.iter().zip(counts.calls) {
        println!("fuzz: {name}: {count} calls");
    }
    let answers = counts.answers.iter().enumerate();
    let words = answers.map(|(number, count)| format!("{number}: {count}"));
    let words = words.collect::<Vec<String>>().join(", ");
    println!("fuzz: answers by number {words}; 0 faults");
}
