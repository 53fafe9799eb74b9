//! A NaN's bits: what a refusal leaves has them still, whatever they are, and a NaN written into a
//! block has 7FC00000. The proofs know one NaN only, so that this is held by trying them all.

use bench::{AIRFRAME_NUMBERS, REPORT_NUMBERS, STATE_BYTES, STATE_NUMBERS, State, TICK_BYTES, TICK_NUMBERS, Tick, raw};

use crate::{Sample, sample};

const STATE_OUTSIDE: u64 = 7;
const WIND_UNUSABLE: u64 = 10;
const WRONG_LENGTH: u64 = 1;
const WRITTEN: [u8; 4] = [0x7F, 0xC0, 0x00, 0x00];

/// All NaNs, quiet and signalling, of both signs.
fn all() -> impl Iterator<Item = f32> {
    let signs = [0x7F80_0000, 0xFF80_0000u32];
    let bits = signs.into_iter().flat_map(|sign| (1..1 << 23).map(move |payload| sign | payload));
    bits.map(f32::from_bits)
}

/// NaNs with one or two bits of the payload set, or all but one or two.
fn some() -> Vec<f32> {
    let payloads = (0..23).flat_map(|a| (0..23).map(move |b| 1u32 << a | 1 << b));
    let payloads = payloads.flat_map(|payload| [payload, !payload & 0x007F_FFFF]);
    let bits = payloads.flat_map(|payload| [0x7F80_0000 | payload, 0xFF80_0000 | payload]);
    bits.map(f32::from_bits).collect()
}

/// Arrays of `N` NaNs until all of them were in one.
fn arrays<const N: usize>(mut nans: impl Iterator<Item = f32>) -> impl Iterator<Item = [f32; N]> {
    std::iter::from_fn(move || {
        let mut array = [f32::NAN; N];
        array[0] = nans.next()?;
        array[1..].iter_mut().zip(&mut nans).for_each(|(place, nan)| *place = nan);
        Some(array)
    })
}

#[track_caller]
fn same_bits(now: &[f32], found: &[f32]) {
    let bits = |numbers: &[f32]| -> Vec<u32> { numbers.iter().map(|x| x.to_bits()).collect() };
    if !now.iter().zip(found).all(|(x, y)| x.to_bits() == y.to_bits()) {
        panic!("{:08X?} is not {:08X?}", bits(now), bits(found));
    }
}

fn first_tick(sample: &Sample) -> Tick {
    bench::read_tick(&sample.trace[..TICK_BYTES]).unwrap()
}

#[test]
fn a_refused_tick_leaves_every_nan() {
    let sample = sample();
    let tick = first_tick(&sample);
    for found in arrays::<STATE_NUMBERS>(all()) {
        let (mut state, mut report) = (found, [1.0; REPORT_NUMBERS]);
        let reply = raw::tick_prepared(sample.airframe.numbers(), &mut state, &tick, &mut report);
        assert_eq!((reply, report), (STATE_OUTSIDE, [0.0; REPORT_NUMBERS]));
        same_bits(&state, &found);
    }
}

#[test]
fn a_run_without_an_accepted_tick_leaves_every_nan() {
    let sample = sample();
    let trace = &sample.trace[..TICK_BYTES];
    for found in arrays::<STATE_NUMBERS>(all()) {
        let (mut state, mut accepted) = (found, 1);
        let reply = raw::run(sample.airframe.block(), &mut state, trace, &mut accepted);
        assert_eq!((reply, accepted), (0, 0));
        same_bits(&state, &found);
    }
}

/// The reflection of a NaN is a NaN.
#[test]
fn a_pair_without_an_accepted_tick_leaves_nans() {
    let sample = sample();
    let trace = &sample.trace[..TICK_BYTES];
    for found in arrays::<STATE_NUMBERS>(some().into_iter()) {
        let (mut state, mut reflected, mut counts) = (found, [0.0; STATE_NUMBERS], [1; 2]);
        let block = sample.airframe.block();
        let reply = raw::mirrored_pair(block, &mut state, &mut reflected, trace, &mut counts);
        assert_eq!((reply, counts), (0, [0; 2]));
        same_bits(&state, &found);
        assert!(reflected.iter().all(|x| x.is_nan()));
    }
}

#[test]
fn a_refused_block_leaves_nans() {
    let sample = sample();
    let tick = first_tick(&sample);
    let mut block = sample.airframe.block().to_vec();
    block[0] = 0x20;
    for found in arrays::<STATE_NUMBERS>(some().into_iter()) {
        let (mut state, mut reflected, mut counts) = (found, found, [1; 2]);
        let mut report = [1.0; REPORT_NUMBERS];
        assert_eq!(raw::tick(&block, &mut state, &tick, &mut report), 2);
        assert_eq!(raw::run(&block, &mut state, &sample.trace, &mut counts[0]), 2);
        let reply = raw::mirrored_pair(&block, &mut state, &mut reflected, &sample.trace, &mut counts);
        assert_eq!((reply, counts), (2, [0; 2]));
        same_bits(&state, &found);
        same_bits(&reflected, &found);
    }
}

/// Arrays one number short and one longer.
fn of_another_length(found: &State) -> [Vec<f32>; 2] {
    [found[1..].to_vec(), [&found[..], &found[..1]].concat()]
}

#[test]
fn an_array_of_another_length_is_left() {
    let sample = sample();
    let (block, tick) = (sample.airframe.block(), first_tick(&sample));
    let mut report = [1.0; REPORT_NUMBERS];
    for found in arrays::<STATE_NUMBERS>(some().into_iter()).flat_map(|found| of_another_length(&found)) {
        let (mut state, mut counts) = (found.clone(), [1; 2]);
        let replies = [
            raw::prepare(block, &mut state),
            raw::read_state(&bench::write_state(&sample.state), &mut state),
            raw::read_tick(&sample.trace[..TICK_BYTES], &mut state),
            raw::tick(block, &mut state, &tick, &mut report),
            raw::tick_prepared(sample.airframe.numbers(), &mut state, &tick, &mut report),
            raw::run(block, &mut state, &sample.trace, &mut counts[0]),
            raw::mirrored_pair(block, &mut state, &mut found.clone(), &sample.trace, &mut counts),
        ];
        assert_eq!(replies, [WRONG_LENGTH; 7]);
        same_bits(&state, &found);
    }
    assert_eq!(report, [1.0; REPORT_NUMBERS]);
}

#[test]
fn what_is_lent_for_reading_is_left() {
    let sample = sample();
    let mut airframe = [0.0; AIRFRAME_NUMBERS];
    for found in arrays::<TICK_NUMBERS>(some().into_iter()) {
        let (mut state, mut tick, mut report) = (sample.state, found, [1.0; REPORT_NUMBERS]);
        tick[0] = 0.01;
        let numbers = sample.airframe.numbers();
        assert_eq!(raw::tick_prepared(numbers, &mut state, &tick, &mut report), WIND_UNUSABLE);
        same_bits(&tick[1..], &found[1..]);
        tick[1..4].fill(0.0);
        assert_eq!(raw::tick_prepared(numbers, &mut state, &tick, &mut report), 0);
        same_bits(&tick[4..], &found[4..]);
        airframe[..TICK_NUMBERS].copy_from_slice(&found);
        assert_eq!(raw::tick_prepared(&airframe, &mut state, &tick, &mut report), 6 + 16);
        same_bits(&airframe[..TICK_NUMBERS], &found);
    }
}

/// In each component of the wind.
#[test]
fn a_nan_in_the_wind_is_refused() {
    let sample = sample();
    let calm = first_tick(&sample);
    for (nan, at) in some().into_iter().flat_map(|nan| [(nan, 1), (nan, 2), (nan, 3)]) {
        let (mut state, mut tick, mut report) = (sample.state, calm, [1.0; REPORT_NUMBERS]);
        tick[at] = nan;
        let reply = raw::tick_prepared(sample.airframe.numbers(), &mut state, &tick, &mut report);
        assert_eq!((reply, report), (WIND_UNUSABLE, [0.0; REPORT_NUMBERS]));
        same_bits(&state, &sample.state);
    }
}

#[test]
fn every_nan_is_written_alike() {
    for state in arrays::<STATE_NUMBERS>(all()) {
        let block = bench::write_state(&state);
        assert!(block.chunks_exact(4).all(|word| word == WRITTEN));
    }
    for tick in arrays::<TICK_NUMBERS>(some().into_iter()) {
        let block = bench::write_tick(&tick);
        assert!(block.chunks_exact(4).all(|word| word == WRITTEN));
    }
}

#[test]
fn a_refused_write_leaves_the_bytes() {
    for state in arrays::<STATE_NUMBERS>(some().into_iter()) {
        let mut block = [0xA5; STATE_BYTES];
        assert_eq!(raw::write_state(&state, &mut block[1..]), WRONG_LENGTH);
        assert_eq!(raw::write_state(&state[1..], &mut block), WRONG_LENGTH);
        assert_eq!(raw::write_tick(&state, &mut block[..TICK_BYTES]), WRONG_LENGTH);
        assert_eq!(block, [0xA5; STATE_BYTES]);
    }
}

#[test]
fn a_nan_is_read_as_a_nan() {
    for nan in some() {
        let block = [nan.to_bits().to_be_bytes(); TICK_NUMBERS].concat();
        let tick = bench::read_tick(&block).unwrap();
        assert!(tick.iter().all(|x| x.is_nan()));
    }
}
