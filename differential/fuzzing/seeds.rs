//! Valid inputs to damage: sample flights, and the flights of the stored list.

use std::fs;
use std::io;
use std::path::Path;

use bench::raw;

/// An accepted airframe block with its state block and trace.
pub struct Flight {
    pub airframe: Vec<u8>,
    pub state: Vec<u8>,
    pub trace: Vec<u8>,
}

/// None where the airframe or the state is refused.
fn flight(bytes: &[u8]) -> Option<Flight> {
    let length = bench::airframe_length(bytes)?;
    let (airframe, rest) = bytes.split_at_checked(length)?;
    let (state, trace) = rest.split_at_checked(bench::STATE_BYTES)?;
    let accepted = raw::read_airframe(airframe) == 0 && bench::read_state(state).is_ok();
    accepted.then(|| Flight {
        airframe: airframe.to_vec(),
        state: state.to_vec(),
        trace: trace.to_vec(),
    })
}

fn samples(folder: &Path) -> io::Result<Vec<Vec<u8>>> {
    let mut files = Vec::new();
    for entry in fs::read_dir(folder)? {
        let path = entry?.path();
        if path.extension().is_some_and(|end| end == "bin") {
            files.push(path);
        }
    }
    files.sort();
    files.iter().map(fs::read).collect()
}

/// The inputs of the stored list: the lines after `< `, in hex.
fn listed(file: &Path) -> io::Result<Vec<Vec<u8>>> {
    let text = fs::read_to_string(file)?;
    let lines = text.lines().filter_map(|line| line.strip_prefix("< "));
    Ok(lines.map(from_hex).collect())
}

fn from_hex(text: &str) -> Vec<u8> {
    let digits = (0..text.len() / 2).map(|at| text.get(2 * at..2 * at + 2));
    let bytes = digits.flatten().map(|pair| u8::from_str_radix(pair, 16));
    bytes.flatten().collect()
}

/// Every flight of the samples and the list whose airframe and state are accepted.
pub fn read(folder: &Path, list: &Path) -> io::Result<Vec<Flight>> {
    let mut all = samples(folder)?;
    all.extend(listed(list)?);
    Ok(all.iter().filter_map(|bytes| flight(bytes)).collect())
}
