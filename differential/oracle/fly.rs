//! Document 01's program fly: airframe, state and ticks in, a line for each tick out.

use crate::blocks::{
    Airframe, Header, Refusal, STATE_BYTES, State, TICK_BYTES, read_airframe, read_state,
};
use crate::limits;
use crate::tick::run_tick;
use crate::words::answer;

/// The lines fly prints for `input`.
pub fn fly(input: &[u8]) -> Vec<String> {
    match read_start(input) {
        Ok((airframe, state, trace)) => fly_trace(&airframe, state, trace),
        Err(refusal) => vec![refused(refusal)],
    }
}

fn refused(refusal: Refusal) -> String {
    format!("0 {} {}", refusal.number, refusal.place)
}

/// The airframe, whose header gives its length, the state of all its bytes, which fly takes and no
/// fewer (02, 5), and the bytes after them.
fn read_start(input: &[u8]) -> Result<(Airframe, State, &[u8]), Refusal> {
    let length = Header::read(input)?.length();
    let (block, rest) = split(input, length)?;
    let airframe = read_airframe(block)?;
    let (block, trace) = split(rest, STATE_BYTES)?;
    Ok((airframe, read_state(block)?, trace))
}

fn split(bytes: &[u8], length: usize) -> Result<(&[u8], &[u8]), Refusal> {
    bytes
        .split_at_checked(length)
        .ok_or(Refusal::of(limits::LENGTH))
}

fn fly_trace(airframe: &Airframe, mut state: State, trace: &[u8]) -> Vec<String> {
    let ticks = trace.chunks_exact(TICK_BYTES);
    let short = !ticks.remainder().is_empty();
    let mut lines = Vec::new();
    for (index, block) in (1..).zip(ticks) {
        let (report, next) = run_tick(airframe, &state, block);
        state = next;
        lines.push(line(index, report.answer, &state));
    }
    if short {
        lines.push(refused(Refusal::of(limits::LENGTH)));
    }
    lines
}

/// Index, answer and the state's first 13 numbers.
fn line(index: u64, number: u8, state: &State) -> String {
    let words: Vec<String> = state.numbers()[..13].iter().map(|x| answer(*x)).collect();
    format!("{index} {number} {}", words.join(" "))
}
