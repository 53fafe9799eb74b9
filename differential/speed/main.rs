//! Ticks per second of the original Rust and of the library, in one process, on the same input:
//! `speed TICKS ROUNDS SAMPLES`. Rounds are interleaved; the median counts.

mod inputs;
mod library;

use std::hint::black_box;
use std::path::Path;
use std::process::ExitCode;
use std::time::Instant;

use oracle::blocks::{Airframe, State, TICK_BYTES, Tick, read_airframe, read_tick};
use oracle::drive::{Driver, Tests};

use inputs::Input;
use library::Prepared;

/// One way to fly an input: its name, and what it does.
type Way = (&'static str, fn(&Input) -> u64);

const RUNS: [Way; 4] = [
    ("library, a run", library::run),
    ("Rust, tests but the airframe's at each tick", |input| drive(input, Tests::AirframeOnce)),
    ("Rust, all tests at each tick", |input| drive(input, Tests::All)),
    ("Rust, no test", |input| drive(input, Tests::Bare)),
];

const TICKS: [Way; 4] = [
    ("library, a tick a call, prepared", |input| one_by_one(input, library::tick_prepared)),
    ("Rust, tests but the airframe's at each tick", |input| call(input, Tests::AirframeOnce)),
    ("Rust, all tests at each tick", |input| call(input, Tests::All)),
    ("Rust, no test", |input| call(input, Tests::Bare)),
];

fn main() -> ExitCode {
    let arguments: Vec<String> = std::env::args().skip(1).collect();
    let [ticks, rounds, samples] = arguments.as_slice() else {
        return usage();
    };
    let (Ok(ticks), Ok(rounds)) = (ticks.parse(), rounds.parse()) else {
        return usage();
    };
    for input in inputs::all(Path::new(samples), ticks) {
        println!("{}, {ticks} ticks, {} accepted", input.name, library::run(&input));
        compare("one run over a trace", &RUNS, &input, rounds);
        compare("one tick a call", &TICKS, &input, rounds);
    }
    ExitCode::SUCCESS
}

fn usage() -> ExitCode {
    eprintln!("usage: speed TICKS ROUNDS SAMPLES");
    ExitCode::FAILURE
}

/// Prints the median time a tick of each way, and each Rust's time over the library's.
fn compare(what: &str, ways: &[Way], input: &Input, rounds: usize) {
    let mut times = vec![Vec::new(); ways.len()];
    for _ in 0..rounds {
        for (way, times) in ways.iter().zip(&mut times) {
            times.push(timed(way.1, input));
        }
    }
    let medians: Vec<f64> = times.into_iter().map(median).collect();
    println!("  {what}");
    for (way, ns) in ways.iter().zip(&medians) {
        println!("    {:7.1} ns  {:5.2}  {}", ns, ns / medians[0], way.0);
    }
}

fn timed(way: fn(&Input) -> u64, input: &Input) -> f64 {
    let start = Instant::now();
    black_box(way(black_box(input)));
    start.elapsed().as_nanos() as f64 / input.ticks() as f64
}

fn median(mut times: Vec<f64>) -> f64 {
    times.sort_by(f64::total_cmp);
    times[times.len() / 2]
}

/// The originals over the trace's bytes.
fn drive(input: &Input, tests: Tests) -> u64 {
    let Some(mut driver) = driver(input, tests) else {
        return 0;
    };
    let mut accepted = 0;
    for block in input.trace.chunks_exact(TICK_BYTES) {
        if let Ok(tick) = read_tick(block) {
            accepted += u64::from(driver.tick(&tick));
        }
    }
    black_box(driver.state());
    accepted
}

/// The originals, a tick a call, the ticks as numbers.
fn call(input: &Input, tests: Tests) -> u64 {
    let Some(mut driver) = driver(input, tests) else {
        return 0;
    };
    let mut accepted = 0;
    for row in &input.rows {
        accepted += u64::from(driver.tick(black_box(&tick_of(row))));
    }
    black_box(driver.state());
    accepted
}

fn tick_of(row: &bench::Tick) -> Tick {
    let mut motors = [0.0; 8];
    let mut servos = [0.0; 8];
    motors.copy_from_slice(&row[4..12]);
    servos.copy_from_slice(&row[12..20]);
    Tick {
        step: row[0],
        wind: [row[1], row[2], row[3]],
        motors,
        servos,
    }
}

fn driver(input: &Input, tests: Tests) -> Option<Driver> {
    let airframe: Airframe = read_airframe(&input.airframe).ok()?;
    let state: State = oracle::blocks::read_state(&input.state).ok()?;
    Driver::new(&airframe, &state, tests)
}

/// The library, a tick a call.
fn one_by_one(input: &Input, tick: fn(&mut Prepared, &bench::Tick) -> bool) -> u64 {
    let mut prepared = Prepared::new(input);
    let mut accepted = 0;
    for row in &input.rows {
        accepted += u64::from(tick(&mut prepared, black_box(row)));
    }
    black_box(prepared);
    accepted
}
