//! The static library against the oracle: blocks, ticks, runs and mirrored pairs, by random, extreme
//! and damaged inputs.

mod blocks;
mod figures;
mod hand_made;
mod input;
mod lengths;
mod rows;
mod runs;
mod ticks;

use std::fs;
use std::io;
use std::path::{Path, PathBuf};

use oracle::inputs;
use oracle::lists::flights::one;
use oracle::rng::Rng;

use crate::Found;
use crate::progress::Progress;
use crate::shrink_flight::smallest;
use figures::Figures;
use input::Input;

/// The most ticks of a flight.
const TICKS: usize = 400;

/// What differed first, and its seed.
#[derive(Default)]
struct First {
    input: Option<(Vec<u8>, u64)>,
    row: Option<Vec<f32>>,
}

/// `n` flights, `n` damaged inputs and `n` hand-made airframes from `seed`.
pub fn compare(n: u64, seed: u64, folder: &Path) -> io::Result<Found> {
    let mut progress = Progress::new("library", 3 * n);
    let mut figures = Figures::default();
    let mut first = First::default();
    for index in 0..n {
        let seed = seed ^ index.wrapping_mul(0xA076_1D64_78BD_642F);
        one_of_each(seed, &mut figures, &mut first);
        progress.at(figures.inputs(), figures.differing);
    }
    figures.print();
    Ok(Found {
        cases: figures.inputs(),
        differing: figures.differing,
        files: write(first, folder)?,
    })
}

/// A flight, a damaged input and a hand-made airframe.
fn one_of_each(seed: u64, figures: &mut Figures, first: &mut First) {
    let rng = &mut Rng::new(seed);
    figures.flights += 1;
    compare_input(inputs::long_flight(rng, TICKS), seed, figures, first);
    figures.damaged += 1;
    compare_input(inputs::damaged(rng), seed, figures, first);
    figures.hand_made += 1;
    if let Some(row) = hand_made::differing(rng.next(), figures) {
        figures.differing += 1;
        first.row.get_or_insert(row);
    }
}

fn compare_input(input: Vec<u8>, seed: u64, figures: &mut Figures, first: &mut First) {
    if differing(&input, seed, figures).is_some() {
        figures.differing += 1;
        first.input.get_or_insert((input, seed));
    }
}

/// The first thing that differs on an input of fly.
fn differing(bytes: &[u8], seed: u64, figures: &mut Figures) -> Option<&'static str> {
    if blocks::differ(bytes, figures) {
        return Some("a block read or written");
    }
    if lengths::differ(bytes, seed, figures) {
        return Some("rows of another length");
    }
    let input = Input::of(bytes);
    let Some(flown) = ticks::fly(&input, figures) else {
        return Some("a tick");
    };
    runs::differ(&input, &flown, figures).then_some("a run or a mirrored pair")
}

fn write(first: First, folder: &Path) -> io::Result<Vec<PathBuf>> {
    let mut files = Vec::new();
    if let Some((input, seed)) = first.input {
        files.push(write_input(input, seed, folder)?);
    }
    if let Some(row) = first.row {
        files.push(hand_made::write(row, folder)?);
    }
    Ok(files)
}

/// Writes the smallest input found: as bytes of fly, and with what differs and the oracle's lines.
fn write_input(input: Vec<u8>, seed: u64, folder: &Path) -> io::Result<PathBuf> {
    let what = |tried: &[u8]| differing(tried, seed, &mut Figures::default());
    let input = smallest(input, |tried| Ok(what(tried).is_some()))?;
    let differs = what(&input).unwrap_or("nothing");
    let text = format!(
        "# library: {differs} differs; the oracle's lines after `>`\n{}",
        one(&input)
    );
    fs::write(folder.join("difference-library.txt"), text)?;
    let file = folder.join("difference-library.bin");
    fs::write(&file, input)?;
    Ok(file)
}
