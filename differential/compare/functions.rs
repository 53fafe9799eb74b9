//! The elementary functions and the density: document 01's and 02's formulas against the static
//! library's.

use std::fs;
use std::path::{Path, PathBuf};

use bench::raw;
use oracle::arguments;
use oracle::density::{counts, density};
use oracle::rng::Rng;
use oracle::words::{answer, case, same};

use crate::Found;
use crate::progress::Progress;
use crate::shrink;

/// One function on both sides, and its arguments: fixed ones first, then random ones.
struct Function {
    name: &'static str,
    inputs: usize,
    oracle: fn(&[f32]) -> f32,
    bench: fn(&[f32]) -> f32,
    fixed: fn() -> Vec<Vec<f32>>,
    random: fn(&mut Rng) -> Vec<f32>,
}

fn each(all: Vec<f32>) -> Vec<Vec<f32>> {
    all.into_iter().map(|x| vec![x]).collect()
}

const FUNCTIONS: [Function; 9] = [
    Function {
        name: "sqrtf",
        inputs: 1,
        oracle: |x| libm::sqrtf(x[0]),
        bench: |x| raw::sqrtf(x[0]),
        fixed: || each(arguments::for_sqrt()),
        random: |rng| vec![arguments::random(rng, 1000.0)],
    },
    Function {
        name: "expf",
        inputs: 1,
        oracle: |x| libm::expf(x[0]),
        bench: |x| raw::expf(x[0]),
        fixed: || each(arguments::for_exp()),
        random: |rng| vec![arguments::random(rng, 90.0)],
    },
    Function {
        name: "sinf",
        inputs: 1,
        oracle: |x| libm::sinf(x[0]),
        bench: |x| raw::sinf(x[0]),
        fixed: || each(arguments::for_sin_cos()),
        random: |rng| vec![arguments::random(rng, 4.0)],
    },
    Function {
        name: "cosf",
        inputs: 1,
        oracle: |x| libm::cosf(x[0]),
        bench: |x| raw::cosf(x[0]),
        fixed: || each(arguments::for_sin_cos()),
        random: |rng| vec![arguments::random(rng, 4.0)],
    },
    Function {
        name: "asinf",
        inputs: 1,
        oracle: |x| libm::asinf(x[0]),
        bench: |x| raw::asinf(x[0]),
        fixed: || each(arguments::for_asin()),
        random: |rng| vec![arguments::random(rng, 1.0)],
    },
    Function {
        name: "atan2f",
        inputs: 2,
        oracle: |x| libm::atan2f(x[0], x[1]),
        bench: |x| raw::atan2f(x[0], x[1]),
        fixed: || pairs(arguments::for_atan2()),
        random: |rng| pair(arguments::random_pair(rng)),
    },
    Function {
        name: "logf",
        inputs: 1,
        oracle: |x| libm::logf(x[0]),
        bench: |x| raw::logf(x[0]),
        fixed: || each(arguments::for_log()),
        random: |rng| vec![arguments::random(rng, 4.0)],
    },
    Function {
        name: "powf",
        inputs: 2,
        oracle: |x| libm::powf(x[0], x[1]),
        bench: |x| raw::powf(x[0], x[1]),
        fixed: || pairs(arguments::for_pow()),
        random: |rng| pair(arguments::random_power(rng)),
    },
    Function {
        name: "density",
        inputs: 1,
        oracle: |x| density(x[0]),
        bench: |x| raw::density(x[0]),
        fixed: || each(arguments::for_density()),
        random: |rng| vec![arguments::random_height(rng)],
    },
];

fn pair(of: (f32, f32)) -> Vec<f32> {
    vec![of.0, of.1]
}

fn pairs(all: Vec<(f32, f32)>) -> Vec<Vec<f32>> {
    all.into_iter().map(pair).collect()
}

/// `n` random arguments for each function, after its fixed ones.
pub fn compare(n: u64, seed: u64, folder: &Path) -> Found {
    let mut found = Found::default();
    for function in &FUNCTIONS {
        let one = compare_one(function, n, seed, folder);
        println!(
            "{}: {} cases, {} differ",
            function.name, one.cases, one.differing
        );
        found.add(one);
    }
    found
}

fn compare_one(function: &Function, n: u64, seed: u64, folder: &Path) -> Found {
    let mut rng = Rng::new(seed);
    let random = (0..n).map(|_| (function.random)(&mut rng));
    tried(function, (function.fixed)().into_iter().chain(random), n, folder)
}

/// The function of that name at every float there is, with the second argument where it has two; None
/// where no function with as many has that name.
pub fn every(name: &str, second: Option<f32>, folder: &Path) -> Option<Found> {
    let inputs = 1 + usize::from(second.is_some());
    let function = FUNCTIONS
        .iter()
        .find(|function| function.name == name && function.inputs == inputs)?;
    let floats = (0..=u32::MAX).map(f32::from_bits);
    let arguments = floats.map(|x| [x, second.unwrap_or_default()]);
    let found = tried(function, arguments, 1 << 32, folder);
    match (name, second) {
        ("powf", Some(e)) => println!("powf: above 1 before it is set to 1: {}", above_one(e)),
        ("density", None) => print_counts(),
        _ => {}
    }
    Some(found)
}

/// What the oracle's densities are from float to float.
fn print_counts() {
    let counts = counts();
    println!(
        "density: {} floats from -2000 m to 6000 m, {} outside their two rows' densities, {} larger than at \
         the float just below",
        counts.floats, counts.off_rows, counts.rising
    );
}

/// How many floats from 0 to 1 have a power `e` above 1 before it is set to 1.
fn above_one(e: f32) -> usize {
    let floats = (0..=1f32.to_bits()).map(f32::from_bits);
    floats.filter(|v| libm::uncapped_powf(*v, e) > 1.0).count()
}

/// The function at all of these arguments, of which it takes its own number, about `of` cases.
fn tried<X: AsRef<[f32]>>(
    function: &Function,
    all: impl Iterator<Item = X>,
    of: u64,
    folder: &Path,
) -> Found {
    let mut progress = Progress::new(function.name, of);
    let mut found = Found::default();
    let mut first = None;
    for x in all {
        let x = &x.as_ref()[..function.inputs];
        found.cases += 1;
        if differs(function, x) {
            found.differing += 1;
            first.get_or_insert_with(|| x.to_vec());
        }
        if found.cases % 4096 == 0 {
            progress.at(found.cases, found.differing);
        }
    }
    found
        .files
        .extend(first.map(|x| write(function, x, folder)));
    found
}

fn differs(function: &Function, x: &[f32]) -> bool {
    !same((function.oracle)(x), (function.bench)(x))
}

/// Writes the smallest argument found as a list of one case.
fn write(function: &Function, x: Vec<f32>, folder: &Path) -> PathBuf {
    let x = shrink::numbers(x, |x| differs(function, x));
    let file = folder.join(format!("difference-{}.txt", function.name));
    let bench = answer((function.bench)(&x));
    let name = function.name;
    let text = format!(
        "# {name}: arguments > the oracle's answer; the library answers {bench}\n{}\n",
        case(&x, &[(function.oracle)(&x)])
    );
    if let Err(error) = fs::write(&file, text) {
        eprintln!("compare: cannot write {}: {error}", file.display());
    }
    file
}
