//! Bytes and rows to hand to the library: random ones, and valid ones damaged.

use bench::{AIRFRAME_BYTES, HEADER_LIFT, LIFT_BYTES, MOST_ROWS, REPORT_NUMBERS, ROW_BYTES, WASH_BYTES};
use bench::{STATE_BYTES_NO_LIFT, STATE_BYTES_UNSCALED, STATE_NUMBERS, TICK_BYTES, TICK_NUMBERS};

use crate::rng::Rng;
use crate::seeds::Flight;

/// Numbers at which a test or a formula may turn.
const TELLING: [u32; 28] = [
    0x0000_0000,
    0x8000_0000,
    0x0000_0001,
    0x8000_0001,
    0x807F_FFFF,
    0x0080_0000,
    0x29E1_2E13,
    0x3F7F_FFFF,
    0x3F80_0000,
    0x3F80_0001,
    0xBF80_0000,
    0x3FFF_FFFF,
    0x4000_0000,
    0x4000_0001,
    0x4040_0000,
    0x4040_0001,
    0x42C8_0000,
    0x42C8_0001,
    0x4348_0000,
    0x4348_0001,
    0xC348_0000,
    0xC348_0001,
    0x4974_2400,
    0x7F7F_FFFF,
    0x7F80_0000,
    0xFF80_0000,
    0x7FC0_0000,
    0xFF80_0001,
];

/// What a case hands to every call.
pub struct Case {
    pub block: Vec<u8>,
    pub state_block: Vec<u8>,
    pub trace: Vec<u8>,
    pub lent_block: Vec<u8>,
    pub airframe: Vec<f32>,
    pub state: Vec<f32>,
    pub reflected: Vec<f32>,
    pub tick: Vec<f32>,
    pub report: Vec<f32>,
    pub tick_block: Vec<u8>,
    pub lent_tick_block: Vec<u8>,
}

fn telling(rng: &mut Rng) -> f32 {
    f32::from_bits(rng.pick(&TELLING))
}

fn random_bytes(rng: &mut Rng, length: usize) -> Vec<u8> {
    (0..length).map(|_| rng.next() as u8).collect()
}

/// Random bytes behind a header that is in order: as many rows as the length has room for.
fn behind_header(rng: &mut Rng, length: usize) -> Vec<u8> {
    let mut bytes = random_bytes(rng, length);
    let (wash, lift) = (rng.below(2), rng.below(2));
    let start = AIRFRAME_BYTES + WASH_BYTES * wash + LIFT_BYTES * lift;
    let rows = (length.saturating_sub(start) / ROW_BYTES).min(MOST_ROWS);
    if length >= 2 {
        bytes[0] = 0x10 | (rng.below(2) << 2 | wash << 1 | HEADER_LIFT * lift) as u8;
        bytes[1] = rows as u8;
    }
    bytes
}

/// Some bits turned, bytes replaced or numbers set, at any place.
fn damage(rng: &mut Rng, bytes: &mut [u8]) {
    if bytes.is_empty() {
        return;
    }
    for _ in 0..rng.below(4) {
        let at = rng.below(bytes.len());
        match rng.below(3) {
            0 => bytes[at] ^= 1 << rng.below(8),
            1 => bytes[at] = rng.next() as u8,
            _ => set_number(bytes, at, telling(rng)),
        }
    }
}

fn set_number(bytes: &mut [u8], at: usize, number: f32) {
    if let Some(place) = bytes.get_mut(at..at + 4) {
        place.copy_from_slice(&number.to_be_bytes());
    }
}

/// A block: random, behind a good header, or a valid one damaged; of `length` or its own length.
fn block(rng: &mut Rng, valid: &[u8], length: usize) -> Vec<u8> {
    match rng.below(4) {
        0 => random_bytes(rng, length),
        1 => behind_header(rng, length),
        kind => {
            let mut bytes = valid.to_vec();
            damage(rng, &mut bytes);
            if kind == 2 {
                bytes.resize(length, rng.next() as u8);
            }
            bytes
        }
    }
}

/// The length a row must have, or one time in eight another.
fn row_length(rng: &mut Rng, right: usize) -> usize {
    if rng.once_in(8) {
        rng.below(2 * right + 2)
    } else {
        right
    }
}

fn random_row(rng: &mut Rng, right: usize) -> Vec<f32> {
    let length = row_length(rng, right);
    (0..length).map(|_| rng.bits()).collect()
}

/// The numbers of a block's bytes.
pub fn numbers(bytes: &[u8]) -> Vec<f32> {
    let words = bytes.chunks_exact(4);
    let bits = words.map(|word| u32::from_be_bytes([word[0], word[1], word[2], word[3]]));
    bits.map(f32::from_bits).collect()
}

/// A row: random bits, or a valid one with some numbers set; now and then of another length.
fn row(rng: &mut Rng, valid: Vec<f32>) -> Vec<f32> {
    if rng.once_in(4) {
        return random_row(rng, valid.len());
    }
    let mut numbers = valid;
    for _ in 0..rng.below(4).saturating_sub(1) {
        let at = rng.below(numbers.len().max(1));
        let number = telling(rng);
        numbers
            .iter_mut()
            .skip(at)
            .take(1)
            .for_each(|x| *x = number);
    }
    let length = row_length(rng, numbers.len());
    numbers.resize(length, telling(rng));
    numbers
}

fn tick_row(trace: &[u8]) -> Vec<f32> {
    let mut row = numbers(trace);
    row.resize(TICK_NUMBERS, 0.01);
    row
}

/// The bytes of a trace's first tick, zeros where it has none.
fn tick_block(trace: &[u8]) -> Vec<u8> {
    let mut block = trace.to_vec();
    block.resize(TICK_BYTES, 0);
    block
}

/// The state's block, one time in four without its lift rotors, and one time in four without its thrust
/// scales too.
fn state_block(rng: &mut Rng, state: &[u8]) -> Vec<u8> {
    let bytes = rng.pick(&[state.len(), state.len(), STATE_BYTES_NO_LIFT, STATE_BYTES_UNSCALED]);
    state[..bytes].to_vec()
}

/// A case of blocks of `length` bytes, from a valid flight; the airframe's row is its prepared one.
pub fn case(rng: &mut Rng, flight: &Flight, prepared: &[f32], length: usize) -> Case {
    let any = rng.below(2001);
    let first = tick_block(&flight.trace);
    let (state, lent) = (state_block(rng, &flight.state), state_block(rng, &flight.state));
    Case {
        block: block(rng, &flight.airframe, length),
        state_block: block(rng, &state, length),
        trace: block(rng, &flight.trace, length),
        lent_block: block(rng, &lent, any),
        airframe: row(rng, prepared.to_vec()),
        state: row(rng, numbers(&flight.state)),
        reflected: random_row(rng, STATE_NUMBERS),
        tick: row(rng, tick_row(&flight.trace)),
        report: random_row(rng, REPORT_NUMBERS),
        tick_block: block(rng, &first, length),
        lent_tick_block: block(rng, &first, any),
    }
}
