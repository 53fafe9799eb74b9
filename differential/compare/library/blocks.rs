//! Airframe, state and tick blocks read, states and ticks written: replies, rows and bytes, also
//! those not written.

use bench::raw;
use oracle::blocks::{Airframe, NO_LIFT_BYTES, STATE_BYTES, STATE_NUMBERS, State, TICK_BYTES, TICK_NUMBERS, UNSCALED_BYTES};
use oracle::blocks::{read_airframe, read_state, read_tick, write_state, write_tick};
use oracle::rows::{AIRFRAME_ROW, StateRow, TickRow, airframe_row, state_of, state_row, tick_of, tick_row};

use super::figures::Figures;
use super::input::Input;
use super::rows::{reply_to, same_numbers};

/// What a row holds before a call.
const UNWRITTEN: f32 = 12345.0;

fn airframe_differs(block: &[u8]) -> bool {
    let read = read_airframe(block);
    let reply = reply_to(&read);
    let expected = airframe_row(&read.unwrap_or(Airframe::zero()));
    let mut row = [UNWRITTEN; AIRFRAME_ROW];
    raw::read_airframe(block) != reply
        || raw::prepare(block, &mut row) != reply
        || !same_numbers(&row, &expected)
}

fn state_differs(block: &[u8]) -> bool {
    let read = read_state(block);
    let reply = reply_to(&read);
    let expected = state_row(&read.unwrap_or(State::zero()));
    let mut row = [UNWRITTEN; STATE_NUMBERS];
    raw::read_state(block, &mut row) != reply || !same_numbers(&row, &expected)
}

fn tick_differs(block: &[u8]) -> bool {
    let read = read_tick(block);
    let expected = read.map_or([0.0; TICK_NUMBERS], |tick| tick_row(&tick));
    let mut row = [UNWRITTEN; TICK_NUMBERS];
    raw::read_tick(block, &mut row) != reply_to(&read) || !same_numbers(&row, &expected)
}

fn numbers(block: &[u8]) -> Vec<f32> {
    let words = block.chunks_exact(4);
    let bits = words.map(|word| u32::from_be_bytes([word[0], word[1], word[2], word[3]]));
    bits.map(f32::from_bits).collect()
}

/// Bytes written are the same but for a NaN's bits; bytes not written are as found.
fn written_alike(reply: u64, ours: &[u8], expected: &[u8]) -> bool {
    ours == expected || (reply == 0 && same_numbers(&numbers(ours), &numbers(expected)))
}

fn write_differs(row: &StateRow, length: usize) -> bool {
    let mut expected = vec![0xA5; length];
    let mut ours = expected.clone();
    let reply = reply_to(&write_state(&state_of(row), &mut expected));
    raw::write_state(row, &mut ours) != reply || !written_alike(reply, &ours, &expected)
}

fn tick_write_differs(row: &TickRow, length: usize) -> bool {
    let mut expected = vec![0xA5; length];
    let mut ours = expected.clone();
    let reply = reply_to(&write_tick(&tick_of(row), &mut expected));
    raw::write_tick(row, &mut ours) != reply || !written_alike(reply, &ours, &expected)
}

/// Whether a call differs on the input's first tick, or on blocks of another length.
fn ticks_differ(bytes: &[u8], input: &Input, figures: &mut Figures) -> bool {
    let first = &input.trace[..TICK_BYTES.min(input.trace.len())];
    let blocks = [first, short(first), bytes];
    let lengths = [TICK_BYTES, first.len(), bytes.len()];
    let row = input.ticks().next().unwrap_or([UNWRITTEN; TICK_NUMBERS]);
    figures.blocks += (blocks.len() + lengths.len()) as u64;
    blocks.iter().any(|block| tick_differs(block))
        || lengths.iter().any(|length| tick_write_differs(&row, *length))
}

/// The block without its last byte.
fn short(block: &[u8]) -> &[u8] {
    &block[..block.len().saturating_sub(1)]
}

/// The state block's first bytes, as older ones have them.
fn older(state: &[u8], bytes: usize) -> &[u8] {
    &state[..bytes.min(state.len())]
}

/// Whether a call differs on the input's own blocks, on all its bytes as one block, on a block one
/// byte short, or on its state's block without lift running values, and without thrust scales too.
pub fn differ(bytes: &[u8], figures: &mut Figures) -> bool {
    let input = Input::of(bytes);
    let airframes = [input.airframe, short(input.airframe), bytes];
    let [unlifted, unscaled] = [NO_LIFT_BYTES, UNSCALED_BYTES].map(|bytes| older(input.state, bytes));
    let whole = [input.state, unlifted, unscaled, bytes];
    let cut = [input.state, unlifted, unscaled].map(short);
    let states = [&whole[..], &cut].concat();
    let lengths = [STATE_BYTES, NO_LIFT_BYTES, UNSCALED_BYTES, input.state.len(), bytes.len()];
    figures.blocks += (airframes.len() + states.len() + lengths.len()) as u64;
    airframes.iter().any(|block| airframe_differs(block))
        || states.iter().any(|block| state_differs(block))
        || (lengths.iter()).any(|length| write_differs(&input.start_row(), *length))
        || ticks_differ(bytes, &input, figures)
}
