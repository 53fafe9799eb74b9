//! Flies a sample flight through the library: `example FILE`. Prints the number of accepted ticks
//! and the end state's 45 numbers as hex bits, any zero as 00000000.

use std::error::Error;
use std::process::ExitCode;

fn word(number: f32) -> String {
    format!(" {:08X}", if number == 0.0 { 0 } else { number.to_bits() })
}

fn fly() -> Result<(), Box<dyn Error>> {
    let file = std::env::args().nth(1).ok_or("usage: example FILE")?;
    let bytes = std::fs::read(file)?;
    let length = bench::airframe_length(&bytes).unwrap_or(0);
    let (block, rest) = bytes
        .split_at_checked(length)
        .ok_or("the airframe is cut short")?;
    let (state, trace) = rest
        .split_at_checked(bench::STATE_BYTES)
        .ok_or("the state is cut short")?;
    let airframe = bench::Airframe::read(block)?;
    let ran = airframe.run(&bench::read_state(state)?, trace)?;
    let words: String = ran.state.map(word).concat();
    println!("{} accepted, end state{words}", ran.accepted);
    Ok(())
}

fn main() -> ExitCode {
    match fly() {
        Ok(()) => ExitCode::SUCCESS,
        Err(why) => {
            eprintln!("{why}");
            ExitCode::FAILURE
        }
    }
}
