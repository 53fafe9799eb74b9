//! The thrust scales of a state, behind its servos: each passes from 0 to 1, no call changes one, and
//! a state block from before there were any, of 116 bytes, has scales of 1. The older blocks are those
//! of the folder older/116 beside the sample.

use std::path::{Path, PathBuf};

use bench::{
    AIRFRAME_USED, Answer, REPORT_NUMBERS, REPORT_THRUST, SLOTS, STATE_BYTES, STATE_BYTES_NO_LIFT,
    STATE_BYTES_UNSCALED, STATE_LIFT, STATE_MOTORS, STATE_NUMBERS, STATE_RATES, STATE_SCALES, State, TICK_BYTES,
    TICK_STEP, Tick, raw,
};

use crate::{Motor, Sample, sample};

const LEAST: f32 = f32::from_bits(1);
const PASS: [f32; 5] = [0.0, -0.0, LEAST, 1.0f32.next_down(), 1.0];
const REFUSED: [f32; 8] = [
    1.0f32.next_up(),
    -LEAST,
    -1.0,
    f32::INFINITY,
    f32::NEG_INFINITY,
    f32::NAN,
    -f32::NAN,
    f32::from_bits(0x7F80_0001),
];

const WRONG_LENGTH: u64 = 1;
const STATE_OUTSIDE: u64 = 7;
const STEP_OUTSIDE: u64 = 8;
const ZEROS: [f32; REPORT_NUMBERS] = [0.0; REPORT_NUMBERS];

fn bits(state: &State) -> [u32; STATE_NUMBERS] {
    state.map(f32::to_bits)
}

fn scales(state: &State) -> &[f32] {
    &state[STATE_SCALES..STATE_SCALES + SLOTS]
}

fn scale_bits(state: &State) -> Vec<u32> {
    scales(state).iter().map(|x| x.to_bits()).collect()
}

/// The sample's state with each of these scales in each slot.
fn states_with(sample: &Sample, scales: &[f32]) -> Vec<State> {
    let slots = (0..SLOTS).flat_map(|slot| scales.iter().map(move |scale| (slot, *scale)));
    let state = |(slot, scale)| {
        let mut state = sample.state;
        state[STATE_SCALES + slot] = scale;
        state
    };
    slots.map(state).collect()
}

fn first_tick(sample: &Sample) -> Tick {
    bench::read_tick(&sample.trace[..TICK_BYTES]).unwrap()
}

/// The reply to a tick by the airframe's block and by its numbers, which must give the same.
fn ticked(sample: &Sample, start: &State, tick: &Tick) -> (u64, State, [f32; REPORT_NUMBERS]) {
    let (mut state, mut report) = (*start, [1.0; REPORT_NUMBERS]);
    let reply = raw::tick(sample.airframe.block(), &mut state, tick, &mut report);
    let (mut other, mut told) = (*start, [1.0; REPORT_NUMBERS]);
    let again = raw::tick_prepared(sample.airframe.numbers(), &mut other, tick, &mut told);
    assert_eq!((reply, bits(&state), report), (again, bits(&other), told));
    (reply, state, report)
}

#[test]
fn motors_as_built_have_scales_of_1() {
    let mut state = [0.0; STATE_NUMBERS];
    bench::motors_as_built(&mut state);
    assert_eq!(state[..STATE_SCALES], [0.0; STATE_SCALES]);
    assert_eq!(scales(&state), [1.0; SLOTS]);
    assert_eq!(state[STATE_LIFT..], [0.0; SLOTS]);
    assert_eq!((STATE_SCALES, STATE_SCALES + SLOTS, STATE_LIFT + SLOTS), (29, STATE_LIFT, STATE_NUMBERS));
}

// ---- Blocks ----

fn sample_file() -> PathBuf {
    std::env::var("BENCH_SAMPLE").expect("BENCH_SAMPLE names a sample flight").into()
}

/// The bytes of a flight behind its airframe block.
pub fn behind_airframe(file: &Path) -> Vec<u8> {
    let bytes = std::fs::read(file).unwrap_or_else(|error| panic!("{}: {error}", file.display()));
    bytes[bench::airframe_length(&bytes).expect("a header")..].to_vec()
}

/// Every flight with a state block of so many bytes, and the flight of that name.
pub fn older(bytes: usize) -> Vec<(PathBuf, PathBuf)> {
    let folder = sample_file().with_file_name("older").join(bytes.to_string());
    let entries = std::fs::read_dir(&folder).unwrap_or_else(|error| panic!("{}: {error}", folder.display()));
    let files = entries.map(|entry| entry.expect("an entry").path());
    let flights = files.filter(|file| file.extension().is_some_and(|end| end == "bin"));
    let now = |file: &PathBuf| sample_file().with_file_name(file.file_name().expect("a name"));
    let both: Vec<(PathBuf, PathBuf)> = flights.map(|file| (file.clone(), now(&file))).collect();
    assert!(both.iter().any(|(_, now)| *now == sample_file()));
    both
}

/// All of them are flights as built; behind the states both go on alike.
#[test]
fn older_blocks_are_read_with_scales_of_1() {
    for (file, now) in older(STATE_BYTES_UNSCALED) {
        let (then, now) = (behind_airframe(&file), behind_airframe(&now));
        let ((old, trace), (new, later)) = (then.split_at(STATE_BYTES_UNSCALED), now.split_at(STATE_BYTES));
        let state = bench::read_state(old).unwrap_or_else(|answer| panic!("{}: {answer}", file.display()));
        assert_eq!(scales(&state), [1.0; SLOTS], "{}", file.display());
        assert_eq!(state[STATE_LIFT..], [0.0; SLOTS], "{}", file.display());
        assert_eq!(bits(&state), bits(&bench::read_state(new).unwrap()), "{}", file.display());
        assert_eq!(bench::write_state(&state), new, "{}", file.display());
        assert_eq!((&new[..STATE_BYTES_UNSCALED], trace), (old, later), "{}", file.display());
    }
}

/// Refused, a block gives zeros; the numbers of a state stay where the array has another length.
#[test]
fn blocks_of_another_length_are_refused() {
    let block = [&bench::write_state(&sample().state)[..], &[0; 4]].concat();
    let known = [STATE_BYTES_UNSCALED, STATE_BYTES_NO_LIFT, STATE_BYTES];
    for length in (0..=block.len()).filter(|length| !known.contains(length)) {
        let mut state = [7.0; STATE_NUMBERS];
        assert_eq!(raw::read_state(&block[..length], &mut state), WRONG_LENGTH, "{length} bytes");
        assert_eq!(state, [0.0; STATE_NUMBERS], "{length} bytes");
    }
    for length in known {
        let mut room = [7.0; STATE_NUMBERS + 1];
        for numbers in [0, STATE_SCALES, STATE_LIFT, STATE_NUMBERS - 1, STATE_NUMBERS + 1] {
            assert_eq!(raw::read_state(&block[..length], &mut room[..numbers]), WRONG_LENGTH);
        }
        assert_eq!(room, [7.0; STATE_NUMBERS + 1]);
    }
}

/// An older block is read into its array alone.
#[test]
fn an_older_block_is_read_into_its_array_alone() {
    let block = bench::write_state(&sample().state);
    let mut room = [7.0; STATE_NUMBERS + 4];
    assert_eq!(raw::read_state(&block[..STATE_BYTES_UNSCALED], &mut room[2..STATE_NUMBERS + 2]), 0);
    assert_eq!((&room[..2], &room[STATE_NUMBERS + 2..]), (&[7.0; 2][..], &[7.0; 2][..]));
}

#[test]
fn a_refused_older_block_gives_zeros() {
    let mut fast = sample().state;
    fast[STATE_RATES] = 101.0;
    let mut state = [7.0; STATE_NUMBERS];
    let block = bench::write_state(&fast);
    assert_eq!(raw::read_state(&block[..STATE_BYTES_UNSCALED], &mut state), STATE_OUTSIDE);
    assert_eq!(state, [0.0; STATE_NUMBERS]);
}

#[test]
fn an_older_block_is_not_written() {
    let state = sample().state;
    for length in [0, STATE_BYTES_UNSCALED, STATE_BYTES_NO_LIFT, STATE_BYTES - 1, STATE_BYTES + 1] {
        let mut block = vec![0xA5; length];
        assert_eq!(raw::write_state(&state, &mut block), WRONG_LENGTH, "{length} bytes");
        assert!(block.iter().all(|byte| *byte == 0xA5), "{length} bytes");
    }
    let mut block = [0xA5; STATE_BYTES];
    for numbers in [STATE_SCALES, STATE_LIFT] {
        assert_eq!(raw::write_state(&state[..numbers], &mut block), WRONG_LENGTH);
    }
    assert_eq!(block, [0xA5; STATE_BYTES]);
}

#[test]
fn scales_are_read_from_their_limits_on() {
    let sample = sample();
    for state in states_with(&sample, &PASS) {
        let read = bench::read_state(&bench::write_state(&state)).unwrap();
        assert_eq!(bits(&read), bits(&state));
    }
    for state in states_with(&sample, &REFUSED) {
        let mut read = [7.0; STATE_NUMBERS];
        let block = bench::write_state(&state);
        assert_eq!(raw::read_state(&block, &mut read), STATE_OUTSIDE);
        assert_eq!(read, [0.0; STATE_NUMBERS]);
        assert_eq!(bench::read_state(&block), Err(Answer::StateOutside));
        // The same without its scales.
        assert_eq!(bench::read_state(&block[..STATE_BYTES_UNSCALED]), Ok(sample.state));
    }
}

// ---- Ticks ----

#[test]
fn ticks_refuse_scales_beyond_their_limits() {
    let sample = sample();
    let tick = first_tick(&sample);
    for state in states_with(&sample, &REFUSED) {
        let (reply, after, report) = ticked(&sample, &state, &tick);
        assert_eq!((reply, bits(&after), report), (STATE_OUTSIDE, bits(&state), ZEROS));
        let mut left = state;
        assert_eq!(sample.airframe.tick(&mut left, &tick), Err(Answer::StateOutside));
    }
}

#[test]
fn a_scale_is_tested_between_the_airframe_and_the_step() {
    let sample = sample();
    let mut no_step = first_tick(&sample);
    no_step[TICK_STEP] = 0.0;
    assert_eq!(ticked(&sample, &sample.state, &no_step).0, STEP_OUTSIDE);
    let mut no_mass = *sample.airframe.numbers();
    no_mass[0] = 0.0;
    for mut state in states_with(&sample, &REFUSED) {
        assert_eq!(ticked(&sample, &state, &no_step).0, STATE_OUTSIDE);
        let mut report = ZEROS;
        assert_eq!(raw::tick_prepared(&no_mass, &mut state, &no_step, &mut report), 6 + 16);
    }
}

/// Scales at all limits in one state, the slots exchanged from state to state.
fn limits_in_turn(sample: &Sample) -> impl Iterator<Item = State> {
    (0..SLOTS).map(|first| {
        let mut state = sample.state;
        for slot in 0..SLOTS {
            state[STATE_SCALES + (first + slot) % SLOTS] = PASS[slot % PASS.len()];
        }
        state
    })
}

#[test]
fn no_call_changes_a_scale() {
    let sample = sample();
    let tick = first_tick(&sample);
    for start in limits_in_turn(&sample).chain(states_with(&sample, &PASS)) {
        let (reply, after, _) = ticked(&sample, &start, &tick);
        assert_eq!((reply, scale_bits(&after)), (0, scale_bits(&start)));
        let ran = sample.airframe.run(&start, &sample.trace).unwrap();
        let (left, right) = sample.airframe.mirrored_pair(&start, &sample.trace).unwrap();
        for end in [ran, left, right] {
            assert!(end.accepted > 0);
            assert_eq!(scale_bits(&end.state), scale_bits(&start));
        }
    }
}

/// A run and a pair refuse each tick from a scale beyond its limits, and leave it.
#[test]
fn runs_leave_scales_beyond_their_limits() {
    let sample = sample();
    for start in states_with(&sample, &REFUSED) {
        let ran = sample.airframe.run(&start, &sample.trace).unwrap();
        let (left, right) = sample.airframe.mirrored_pair(&start, &sample.trace).unwrap();
        assert_eq!([ran, left, right].map(|end| end.accepted), [0; 3]);
        assert_eq!([ran, left].map(|end| bits(&end.state)), [bits(&start); 2]);
    }
}

// ---- Thrust ----

/// The slots of the airframe's motors.
fn used(sample: &Sample) -> Vec<usize> {
    let used = &sample.airframe.numbers()[AIRFRAME_USED..AIRFRAME_USED + SLOTS];
    (0..SLOTS).filter(|slot| used[*slot] != 0.0).collect()
}

/// What a tick reports as thrust where only the sample's motor runs, with this scale.
fn thrust_with(sample: &Sample, scale: f32) -> f32 {
    let [only] = used(sample)[..] else {
        panic!("the sample has one motor");
    };
    let mut state = sample.state;
    state[STATE_MOTORS..STATE_MOTORS + SLOTS].fill(0.0);
    state[STATE_MOTORS + only] = 0.75;
    state[STATE_SCALES + only] = scale;
    let (reply, _, report) = ticked(sample, &state, &first_tick(sample));
    assert_eq!(reply, 0);
    report[REPORT_THRUST]
}

/// A power of two scales the thrust without rounding.
#[test]
fn a_motors_thrust_goes_with_its_scale() {
    let sample = sample();
    let full = thrust_with(&sample, 1.0);
    assert!(full > 0.0);
    assert_eq!([0.0, -0.0].map(|scale| thrust_with(&sample, scale)), [0.0; 2]);
    for scale in [0.5, 0.25, 1.0 / 1024.0] {
        assert_eq!(thrust_with(&sample, scale), scale * full);
    }
}

/// 10 N at full command, running at a half, still air: (0.5 · 10) · 0.25 = 1.25 N. The slot has no
/// row, so its running value stays.
#[test]
fn a_motor_without_a_row_is_scaled_too() {
    let sample = sample();
    for slot in 0..SLOTS {
        let motor = Motor { max_thrust_n: 10.0, exponent: 2.0, slot, running: 0.5, scale: 0.5 };
        assert_eq!(motor.pull(&sample), 1.25, "slot {slot}");
    }
}
