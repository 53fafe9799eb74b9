//! Rows of another length: each call answers 1, writes nothing, and counts 0.

use bench::raw;
use oracle::blocks::{SLOTS, STATE_NUMBERS, TICK_BYTES, TICK_NUMBERS};
use oracle::rng::Rng;
use oracle::rows::{AIRFRAME_ROW, REPORT_ROW};

use super::figures::Figures;
use super::input::Input;
use super::rows::same_bits;

/// A row's right length or, where `wrong`, any other up to 170; a state without its lift running values
/// is eight numbers short, one without thrust scales sixteen, an airframe without lift rotors 39.
fn length(rng: &mut Rng, right: usize, wrong: bool) -> usize {
    if !wrong {
        return right;
    }
    let any = rng.below(170);
    let short = rng.pick(&[1, SLOTS, 2 * SLOTS, 39]);
    let other = rng.pick(&[0, right + 1, right.saturating_sub(short), any]);
    if other == right { right + 1 } else { other }
}

/// A row of any bits.
fn row(rng: &mut Rng, length: usize) -> Vec<f32> {
    (0..length).map(|_| rng.bits()).collect()
}

/// Whether a call on rows gets 1 and leaves them; the rows are those it may write.
fn refused(rows: &mut [Vec<f32>], call: impl FnOnce(&mut [Vec<f32>]) -> u64) -> bool {
    let found = rows.to_vec();
    call(rows) == 1 && rows.iter().zip(&found).all(|(a, b)| same_bits(a, b))
}

fn reads_refused(rng: &mut Rng, input: &Input) -> bool {
    let airframe = length(rng, AIRFRAME_ROW, true);
    let state = length(rng, STATE_NUMBERS, true);
    let tick = length(rng, TICK_NUMBERS, true);
    let mut rows = [row(rng, airframe), row(rng, state), row(rng, tick)];
    refused(&mut rows[..1], |r| raw::prepare(input.airframe, &mut r[0]))
        && refused(&mut rows[1..2], |r| raw::read_state(input.state, &mut r[0]))
        && refused(&mut rows[2..], |r| {
            raw::read_tick(&[0; TICK_BYTES], &mut r[0])
        })
}

/// A row that is not of the length `right` is not written into a block that is right for it.
fn write_refused(rng: &mut Rng, right: usize, write: fn(&[f32], &mut [u8]) -> u64) -> bool {
    let count = length(rng, right, true);
    let mut block = vec![0xA5; 4 * right];
    write(&row(rng, count), &mut block) == 1 && block.iter().all(|byte| *byte == 0xA5)
}

/// One of the rows of a tick is wrong.
fn ticks_refused(rng: &mut Rng, input: &Input) -> bool {
    let bad = rng.below(3);
    let mut wrong = |at: usize, right: usize| {
        let count = length(rng, right, at == bad);
        row(rng, count)
    };
    let (tick, airframe) = (wrong(0, TICK_NUMBERS), vec![1.0; AIRFRAME_ROW]);
    let mut rows = [wrong(1, STATE_NUMBERS), wrong(2, REPORT_ROW)];
    refused(&mut rows, |rows| {
        let [state, report] = rows else { return 0 };
        raw::tick(input.airframe, state, &tick, report)
    }) && refused(&mut rows, |rows| {
        let [state, report] = rows else { return 0 };
        raw::tick_prepared(&airframe, state, &tick, report)
    })
}

fn prepared_refused(rng: &mut Rng) -> bool {
    let count = length(rng, AIRFRAME_ROW, true);
    let airframe = row(rng, count);
    let mut rows = [row(rng, STATE_NUMBERS), row(rng, REPORT_ROW)];
    refused(&mut rows, |rows| {
        let [state, report] = rows else { return 0 };
        raw::tick_prepared(&airframe, state, &[0.0; TICK_NUMBERS], report)
    })
}

fn run_refused(rng: &mut Rng, input: &Input) -> bool {
    let count = length(rng, STATE_NUMBERS, true);
    let mut rows = [row(rng, count)];
    let mut accepted = u64::MAX;
    refused(&mut rows, |rows| {
        raw::run(input.airframe, &mut rows[0], input.trace, &mut accepted)
    }) && accepted == 0
}

fn pair_refused(rng: &mut Rng, input: &Input) -> bool {
    let bad = rng.below(3);
    let first = length(rng, STATE_NUMBERS, bad != 1);
    let second = length(rng, STATE_NUMBERS, bad != 0);
    let mut rows = [row(rng, first), row(rng, second)];
    let mut counts = [u64::MAX; 2];
    refused(&mut rows, |rows| {
        let [state, reflected] = rows else { return 0 };
        raw::mirrored_pair(input.airframe, state, reflected, input.trace, &mut counts)
    }) && counts == [0, 0]
}

/// Whether a call takes a row of another length, or writes into it. The lengths come from `seed`.
pub fn differ(bytes: &[u8], seed: u64, figures: &mut Figures) -> bool {
    let input = Input::of(bytes);
    let rng = &mut Rng::new(seed);
    figures.other_lengths += 9;
    !(reads_refused(rng, &input)
        && write_refused(rng, STATE_NUMBERS, raw::write_state)
        && write_refused(rng, TICK_NUMBERS, raw::write_tick)
        && ticks_refused(rng, &input)
        && prepared_refused(rng)
        && run_refused(rng, &input)
        && pair_refused(rng, &input))
}
