//! Lift rotors: the bits of header and row that announce them, their numbers (places 52 to 57) and
//! torques (58), their running values at the end of a state, and what they do in a tick. State blocks
//! from before there were any, of 148 bytes, are those of the folder older/148 beside the sample.

use bench::{
    AIRFRAME_BYTES, AIRFRAME_LIFT, AIRFRAME_LIFT_PLACES, AIRFRAME_LIFT_TORQUES, AIRFRAME_LIFT_USED,
    AIRFRAME_NUMBERS, AIRFRAME_TORQUES, AIRFRAME_USED, Airframe, Answer, HEADER_LIFT, LIFT_BYTES,
    REPORT_NUMBERS, REPORT_THRUST, ROW_BYTES, ROW_LIFT, SLOTS, STATE_BYTES, STATE_BYTES_NO_LIFT,
    STATE_LIFT, STATE_MOTORS, STATE_NUMBERS, STATE_RATES, STATE_SCALES, STATE_VELOCITY, State,
    TICK_MOTORS, TICK_STEP, Tick, place, raw,
};

use crate::scales::{behind_airframe, older};
use crate::{Sample, calm, sample};

/// 10 N each, by the square, 0.5 m out, 0.25 Nm of yaw for each N, a lag of 1/16 s, no drag.
const ROTORS: [f32; 6] = [10.0, 2.0, 0.5, 0.25, 0.0625, 0.0];
/// The limits of places 52 to 57.
const LIMITS: [(f32, f32); 6] = [
    (0.01, 10000.0),
    (1.0, 3.0),
    (0.0, 10.0),
    (-10.0, 10.0),
    (0.001, 10.0),
    (0.0, 10.0),
];

const LEAST: f32 = f32::from_bits(1);
const PASS: [f32; 5] = [0.0, -0.0, LEAST, 1.0f32.next_down(), 1.0];
const REFUSED: [f32; 7] = [
    1.0f32.next_up(),
    -LEAST,
    -1.0,
    f32::INFINITY,
    f32::NEG_INFINITY,
    f32::NAN,
    -f32::NAN,
];

const WRONG_LENGTH: u64 = 1;
const RESERVED_BIT: u64 = 4;
const OUT_OF_RANGE: u64 = 6;
const STATE_OUTSIDE: u64 = 7;

/// A row: its first byte and its factors.
type Row = (u8, [f32; 3]);

fn lift_row(slot: u8, factors: [f32; 3]) -> Row {
    (slot << 4 | ROW_LIFT as u8, factors)
}

fn motor_row(slot: u8, factors: [f32; 3]) -> Row {
    (slot << 4, factors)
}

/// The sample's block with these lift numbers and, before its own rows, these.
fn block_with(sample: &Sample, numbers: [f32; 6], rows: &[Row]) -> Vec<u8> {
    let mut block = sample.airframe.block().to_vec();
    assert_eq!(
        block[0], 0x10,
        "the sample has neither wash nor lift numbers"
    );
    let own = block.split_off(AIRFRAME_BYTES);
    block[0] |= HEADER_LIFT as u8;
    block[1] += rows.len() as u8;
    block.extend(numbers.iter().flat_map(|number| number.to_be_bytes()));
    for (first, factors) in rows {
        block.push(*first);
        block.extend(factors.iter().flat_map(|factor| factor.to_be_bytes()));
    }
    block.extend(own);
    block
}

fn prepared(block: &[u8]) -> [f32; AIRFRAME_NUMBERS] {
    *Airframe::read(block).unwrap().numbers()
}

fn bits(numbers: &[f32]) -> Vec<u32> {
    numbers.iter().map(|x| x.to_bits()).collect()
}

// ---- Blocks ----

#[test]
fn a_block_with_lift_numbers_is_24_bytes_longer() {
    let sample = sample();
    let (block, plain) = (block_with(&sample, ROTORS, &[]), sample.airframe.block());
    assert_eq!(block.len(), plain.len() + LIFT_BYTES);
    assert_eq!(bench::airframe_length(&block), Some(block.len()));
    assert_eq!(raw::read_airframe(&block), 0);
    assert_eq!(raw::read_airframe(&block[..block.len() - 1]), WRONG_LENGTH);
    // Announced and not there, or there and not announced.
    let mut other = plain.to_vec();
    other[0] |= HEADER_LIFT as u8;
    assert_eq!(raw::read_airframe(&other), WRONG_LENGTH);
    let mut other = block.clone();
    other[0] ^= HEADER_LIFT as u8;
    assert_eq!(raw::read_airframe(&other), WRONG_LENGTH);
}

#[test]
fn an_airframes_array_ends_with_its_lift_rotors() {
    let sample = sample();
    let rows = [
        lift_row(2, [1.0, -0.5, 2.0]),
        motor_row(2, [0.0, 1.0, 0.0]),
        lift_row(7, [0.5, 0.0, 0.0]),
        lift_row(2, [0.0, 1.0, 1.0]),
    ];
    let array = prepared(&block_with(&sample, ROTORS, &rows));
    assert_eq!(array[AIRFRAME_LIFT_PLACES..AIRFRAME_LIFT], ROTORS);
    assert_eq!(array[AIRFRAME_LIFT], 1.0);
    let used = |at: usize| &array[at..at + SLOTS];
    assert_eq!(
        used(AIRFRAME_LIFT_USED),
        [0.0, 0.0, 1.0, 0.0, 0.0, 0.0, 0.0, 1.0]
    );
    let torque = |at: usize, slot: usize| &array[at + 3 * slot..at + 3 * slot + 3];
    // Of two rows of a slot the later wins, among those of its group.
    assert_eq!(torque(AIRFRAME_LIFT_TORQUES, 2), [0.0, 0.5, 0.25]);
    assert_eq!(torque(AIRFRAME_LIFT_TORQUES, 7), [0.25, 0.0, 0.0]);
    assert_eq!(used(AIRFRAME_USED)[2], 1.0);
    let arm = array[place::MOMENT_ARM_M as usize - 1];
    assert_eq!(torque(AIRFRAME_TORQUES, 2), [0.0, arm, 0.0]);
    // Without lift numbers: zeros. What stood there before stands there still.
    let plain = sample.airframe.numbers();
    assert_eq!(
        plain[AIRFRAME_LIFT_PLACES..],
        [0.0; AIRFRAME_NUMBERS - AIRFRAME_LIFT_PLACES]
    );
    let alone = prepared(&block_with(&sample, ROTORS, &[]));
    assert_eq!(alone[..AIRFRAME_LIFT_PLACES], plain[..AIRFRAME_LIFT_PLACES]);
    assert_eq!((AIRFRAME_LIFT_PLACES, AIRFRAME_NUMBERS), (106, 145));
}

/// The reply to the sample's block, with lift numbers or without, whose last row has this first byte.
fn with_last_row(sample: &Sample, lifted: bool, first: u8) -> u64 {
    let mut block = if lifted {
        block_with(sample, ROTORS, &[])
    } else {
        sample.airframe.block().to_vec()
    };
    let at = block.len() - ROW_BYTES;
    block[at] = first;
    raw::read_airframe(&block)
}

#[test]
fn a_rows_bit_is_a_lift_rotors_where_there_are_lift_numbers() {
    let sample = sample();
    for slot in 0..SLOTS as u8 {
        let (motor, servo) = (slot << 4, 0x80 | slot << 4);
        assert_eq!(with_last_row(&sample, true, motor | ROW_LIFT as u8), 0);
        assert_eq!(
            with_last_row(&sample, false, motor | ROW_LIFT as u8),
            RESERVED_BIT
        );
        for lifted in [false, true] {
            assert_eq!(
                with_last_row(&sample, lifted, servo | ROW_LIFT as u8),
                RESERVED_BIT
            );
            for bit in [1, 2, 4] {
                assert_eq!(with_last_row(&sample, lifted, motor | bit), RESERVED_BIT);
                assert_eq!(with_last_row(&sample, lifted, servo | bit), RESERVED_BIT);
            }
        }
    }
}

#[test]
fn a_headers_other_reserved_bits_stay_refused() {
    let sample = sample();
    for bit in [0x20, 0x40, 0x80] {
        let mut block = block_with(&sample, ROTORS, &[]);
        block[1] |= bit;
        assert_eq!(raw::read_airframe(&block), RESERVED_BIT);
    }
}

// ---- Limits ----

/// The replies to the block with this lift number, and to a tick with it in the array.
fn replies_with(sample: &Sample, at: usize, number: f32) -> [u64; 2] {
    let mut numbers = ROTORS;
    numbers[at] = number;
    let block = block_with(sample, numbers, &[lift_row(0, [1.0; 3])]);
    let mut array = prepared(&block_with(sample, ROTORS, &[]));
    array[AIRFRAME_LIFT_PLACES + at] = number;
    let mut state = sample.state;
    let ticked = raw::tick_prepared(&array, &mut state, &calm(), &mut [0.0; REPORT_NUMBERS]);
    [raw::read_airframe(&block), ticked]
}

#[test]
fn lift_numbers_have_places_52_to_57() {
    let sample = sample();
    for (at, (low, high)) in LIMITS.into_iter().enumerate() {
        for number in [low, high] {
            assert_eq!(
                replies_with(&sample, at, number),
                [0; 2],
                "place {}",
                52 + at
            );
        }
        let refused = OUT_OF_RANGE + 16 * (52 + at as u64);
        let none = [f32::NAN, f32::INFINITY, f32::NEG_INFINITY];
        for number in [low.next_down(), high.next_up()].into_iter().chain(none) {
            assert_eq!(
                replies_with(&sample, at, number),
                [refused; 2],
                "place {}",
                52 + at
            );
        }
    }
    let mut numbers = ROTORS;
    numbers[5] = 10.5;
    let said = Airframe::read(&block_with(&sample, numbers, &[])).unwrap_err();
    assert_eq!(
        said,
        Answer::NumberOutOfRange {
            place: place::LIFT_DRAG_PER_THRUST_N_PER_MPS
        }
    );
    assert!(
        said.to_string()
            .ends_with("place 57 (lift drag_per_thrust_n_per_mps)")
    );
}

/// The reply to a tick with these numbers in the sample's array with lift numbers.
fn ticked_with(sample: &Sample, changes: &[(usize, f32)]) -> u64 {
    let mut array = prepared(&block_with(sample, ROTORS, &[]));
    for (at, number) in changes {
        array[*at] = *number;
    }
    let mut state = sample.state;
    raw::tick_prepared(&array, &mut state, &calm(), &mut [0.0; REPORT_NUMBERS])
}

#[test]
fn the_lowest_place_answers() {
    let sample = sample();
    let bad = (AIRFRAME_LIFT_PLACES, 0.0);
    let (torque, weight) = ((AIRFRAME_TORQUES, 100.5), (bench::AIRFRAME_WEIGHTS, 101.5));
    let lift_torque = (AIRFRAME_LIFT_TORQUES, 100.5);
    let place_of = |changes: &[(usize, f32)]| ticked_with(&sample, changes) / 16;
    assert_eq!(place_of(&[bad, torque]), place::MOTOR_TORQUE);
    assert_eq!(place_of(&[bad, weight]), place::SURFACE_WEIGHT);
    assert_eq!(place_of(&[bad, lift_torque]), place::LIFT_MAX_THRUST_N);
    assert_eq!(
        place_of(&[(AIRFRAME_LIFT_PLACES + 5, -1.0), lift_torque]),
        57
    );
    assert_eq!(place_of(&[lift_torque]), place::LIFT_TORQUE);
    let mut numbers = ROTORS;
    numbers[0] = 0.0;
    let block = block_with(&sample, numbers, &[lift_row(0, [10.5, 0.0, 0.0])]);
    assert_eq!(
        raw::read_airframe(&block),
        OUT_OF_RANGE + 16 * place::ROW_FACTOR
    );
}

/// An array whose flag says no: whatever else of the lift rotors stands in it, they do nothing.
#[test]
fn without_the_flag_nothing_is_tested_and_nothing_moves() {
    let sample = sample();
    let lifting = lifting_state(&sample, [0.5; SLOTS]);
    let expected = ticked(sample.airframe.numbers(), &lifting, &full());
    for flag in [0.0, -0.0] {
        let mut array = prepared(&block_with(&sample, ROTORS, &[lift_row(0, [1.0; 3])]));
        array[AIRFRAME_LIFT] = flag;
        for (at, number) in [(4, -0.001), (0, f32::NAN), (39 - 1, f32::NAN), (20, 101.0)] {
            array[AIRFRAME_LIFT_PLACES + at] = number;
        }
        assert_eq!(ticked(&array, &lifting, &full()), expected);
    }
    let mut array = *sample.airframe.numbers();
    array[AIRFRAME_LIFT] = f32::NAN;
    let mut state = lifting;
    let reply = raw::tick_prepared(&array, &mut state, &full(), &mut [0.0; REPORT_NUMBERS]);
    assert_eq!(reply, OUT_OF_RANGE + 16 * place::LIFT_MAX_THRUST_N);
}

// ---- States ----

/// The sample's state with these lift running values.
fn lifting_state(sample: &Sample, values: [f32; SLOTS]) -> State {
    let mut state = sample.state;
    state[STATE_LIFT..STATE_LIFT + SLOTS].copy_from_slice(&values);
    state
}

/// The sample's state with each of these lift running values in each slot.
fn states_with(sample: &Sample, values: &[f32]) -> Vec<State> {
    let slots = (0..SLOTS).flat_map(|slot| values.iter().map(move |value| (slot, *value)));
    let state = |(slot, value)| {
        let mut state = sample.state;
        state[STATE_LIFT + slot] = value;
        state
    };
    slots.map(state).collect()
}

#[test]
fn lift_running_values_are_read_and_written() {
    let sample = sample();
    for state in states_with(&sample, &PASS) {
        let block = bench::write_state(&state);
        assert_eq!(bits(&bench::read_state(&block).unwrap()), bits(&state));
        // An older block ends before them.
        let older = bench::read_state(&block[..STATE_BYTES_NO_LIFT]).unwrap();
        assert_eq!(bits(&older), bits(&lifting_state(&sample, [0.0; SLOTS])));
    }
    for state in states_with(&sample, &REFUSED) {
        let block = bench::write_state(&state);
        let mut read = [7.0; STATE_NUMBERS];
        assert_eq!(raw::read_state(&block, &mut read), STATE_OUTSIDE);
        assert_eq!(read, [0.0; STATE_NUMBERS]);
        assert!(bench::read_state(&block[..STATE_BYTES_NO_LIFT]).is_ok());
    }
}

/// The blocks of 148 bytes have their thrust scales; behind the states both files go on alike.
#[test]
fn older_blocks_are_read_with_lift_rotors_that_stand() {
    let mut tired = 0;
    for (file, now) in older(STATE_BYTES_NO_LIFT) {
        let (then, now) = (behind_airframe(&file), behind_airframe(&now));
        let ((old, trace), (new, later)) = (
            then.split_at(STATE_BYTES_NO_LIFT),
            now.split_at(STATE_BYTES),
        );
        let state =
            bench::read_state(old).unwrap_or_else(|answer| panic!("{}: {answer}", file.display()));
        assert_eq!(
            bits(&state),
            bits(&bench::read_state(new).unwrap()),
            "{}",
            file.display()
        );
        assert_eq!(bits(&state[STATE_LIFT..]), [0; SLOTS], "{}", file.display());
        assert_eq!(bench::write_state(&state), new, "{}", file.display());
        assert_eq!(
            (&new[..STATE_BYTES_NO_LIFT], trace),
            (old, later),
            "{}",
            file.display()
        );
        tired += usize::from(
            state[STATE_SCALES..STATE_LIFT]
                .iter()
                .any(|scale| *scale != 1.0),
        );
    }
    assert!(tired > 0, "a flight with a tired motor");
}

#[test]
fn ticks_refuse_lift_running_values_beyond_their_limits() {
    let sample = sample();
    let arrays = [
        *sample.airframe.numbers(),
        prepared(&block_with(&sample, ROTORS, &[])),
    ];
    for (array, state) in arrays.iter().flat_map(|array| {
        let states = states_with(&sample, &REFUSED).into_iter();
        states.map(move |state| (array, state))
    }) {
        let (mut after, mut report) = (state, [1.0; REPORT_NUMBERS]);
        let mut tick = calm();
        tick[TICK_STEP] = 0.0;
        assert_eq!(
            raw::tick_prepared(array, &mut after, &tick, &mut report),
            STATE_OUTSIDE
        );
        assert_eq!(
            (bits(&after), report),
            (bits(&state), [0.0; REPORT_NUMBERS])
        );
    }
    for state in states_with(&sample, &PASS) {
        for array in &arrays {
            let mut after = state;
            assert_eq!(
                raw::tick_prepared(array, &mut after, &calm(), &mut [0.0; REPORT_NUMBERS]),
                0
            );
        }
    }
}

/// Ticks, runs and pairs of an airframe without lift numbers leave lift running values by their bits.
#[test]
fn without_lift_numbers_no_call_changes_a_lift_running_value() {
    let sample = sample();
    let values = [0.125, -0.0, 1.0, 0.5, LEAST, 0.75, 0.0, 1.0f32.next_down()];
    let start = lifting_state(&sample, values);
    let kept = |state: &State| assert_eq!(bits(&state[STATE_LIFT..]), bits(&values));
    let mut state = start;
    let report = sample.airframe.tick(&mut state, &full()).unwrap();
    kept(&state);
    // They do nothing either.
    let mut other = sample.state;
    assert_eq!(sample.airframe.tick(&mut other, &full()), Ok(report));
    assert_eq!(state[..STATE_LIFT], other[..STATE_LIFT]);
    let ran = sample.airframe.run(&start, &sample.trace).unwrap();
    let (left, right) = sample
        .airframe
        .mirrored_pair(&start, &sample.trace)
        .unwrap();
    for end in [ran, left, right] {
        assert!(end.accepted > 0);
        kept(&end.state);
    }
}

// ---- Ticks ----

/// All motors at full command, for 1/64 s.
fn full() -> Tick {
    let mut tick = calm();
    tick[TICK_STEP] = 1.0 / 64.0;
    tick[TICK_MOTORS..TICK_MOTORS + SLOTS].fill(1.0);
    tick
}

/// An accepted tick: the state after it and the thrust reported.
fn ticked(airframe: &[f32; AIRFRAME_NUMBERS], start: &State, tick: &Tick) -> (Vec<u32>, f32) {
    let (mut state, mut report) = (*start, [0.0; REPORT_NUMBERS]);
    assert_eq!(
        raw::tick_prepared(airframe, &mut state, tick, &mut report),
        0
    );
    (bits(&state), report[REPORT_THRUST])
}

/// Level and at rest in still air, with no motor running but these lift rotors.
fn at_rest(values: [f32; SLOTS]) -> State {
    let mut state = [0.0; STATE_NUMBERS];
    state[6] = 1.0;
    bench::motors_as_built(&mut state);
    state[STATE_LIFT..].copy_from_slice(&values);
    state
}

/// The speeds down, the rates and the thrust after 1/64 s of an airframe of 1 kg with inertias of 1,
/// the wing of which has no air to work with.
fn risen(
    sample: &Sample,
    numbers: [f32; 6],
    rows: &[Row],
    start: &State,
) -> ([f32; 3], [f32; 3], f32) {
    let mut array = prepared(&block_with(sample, numbers, rows));
    array[..4].fill(1.0);
    let (state, thrust) = ticked(&array, start, &{
        let mut tick = full();
        tick[TICK_MOTORS..TICK_MOTORS + SLOTS].fill(0.0);
        tick[TICK_MOTORS + 5] = 0.5;
        tick
    });
    let three = |at: usize| [0, 1, 2].map(|axis| f32::from_bits(state[at + axis]));
    (three(STATE_VELOCITY), three(STATE_RATES), thrust)
}

/// A rotor at 0.5 that is held there gives 2.5 N up, by 0.5 · 0.5 of 10 N, and its torque; whatever the
/// thrust scales are.
#[test]
fn a_lift_rotor_pushes_up_and_turns() {
    let sample = sample();
    let mut values = [0.0; SLOTS];
    values[5] = 0.5;
    let start = at_rest(values);
    let up = (9.80665 - 2.5) / 64.0;
    let rows = [lift_row(5, [1.0, -0.5, 2.0])];
    let turned = [1.25, -0.625, 1.25].map(|x: f32| x / 64.0);
    assert_eq!(
        risen(&sample, ROTORS, &rows, &start),
        ([0.0, 0.0, up], turned, 0.0)
    );
    let mut dead = start;
    dead[STATE_SCALES..STATE_SCALES + SLOTS].fill(0.0);
    assert_eq!(
        risen(&sample, ROTORS, &rows, &dead),
        ([0.0, 0.0, up], turned, 0.0)
    );
    // Without a row it does not follow its command, and pushes all the same.
    assert_eq!(
        risen(&sample, ROTORS, &[], &start),
        ([0.0, 0.0, up], [0.0; 3], 0.0)
    );
    // By another exponent its share is the power.
    let mut numbers = ROTORS;
    numbers[1] = 1.8;
    let up = (9.80665 - 10.0 * raw::powf(0.5, 1.8)) / 64.0;
    assert_eq!(risen(&sample, numbers, &rows, &start).0, [0.0, 0.0, up]);
}

/// One command for the motor and for the lift rotor of a slot, each with its own lag: 1 - e^-(1/4) of
/// the way and 1 - e^-(1/64).
#[test]
fn a_slot_drives_both_groups() {
    let sample = sample();
    let both = [motor_row(5, [0.0; 3]), lift_row(5, [0.0; 3])];
    for (rows, lift, motor) in [
        (&both[..], 0x3E62_820C, 0x3C7E_02C0),
        (&both[1..], 0x3E62_820C, 0),
        (&both[..1], 0, 0x3C7E_02C0),
    ] {
        let mut array = prepared(&block_with(&sample, ROTORS, rows));
        array[place::TIME_CONSTANT_S as usize - 1] = 1.0;
        let (state, _) = ticked(&array, &at_rest([0.0; SLOTS]), &full());
        assert_eq!(
            (state[STATE_LIFT + 5], state[STATE_MOTORS + 5]),
            (lift, motor)
        );
    }
}

/// The thrust reported is that of the motors along body x.
#[test]
fn lift_rotors_are_not_in_the_thrust_reported() {
    let sample = sample();
    let lifted = prepared(&block_with(&sample, ROTORS, &[]));
    let start = lifting_state(&sample, [1.0; SLOTS]);
    let (_, plain) = ticked(sample.airframe.numbers(), &start, &calm());
    assert!(plain > 0.0);
    assert_eq!(ticked(&lifted, &start, &calm()).1, plain);
}

/// A run of an airframe with lift rotors is its ticks, and its reflection mirrors.
#[test]
fn runs_and_pairs_have_lift_rotors() {
    let sample = sample();
    let rows: Vec<Row> = (0..4)
        .map(|slot| lift_row(slot, [0.5, -0.25, 1.0].map(|x| x * f32::from(slot + 1))))
        .collect();
    let numbers = [0.5, 1.8, 0.3, 0.02, 0.1, 0.01];
    let airframe = Airframe::read(&block_with(&sample, numbers, &rows)).unwrap();
    let start = lifting_state(&sample, [0.25; SLOTS]);
    let trace = &sample.trace[..60 * bench::TICK_BYTES];
    let mut state = start;
    for block in trace.chunks_exact(bench::TICK_BYTES) {
        airframe
            .tick(&mut state, &bench::read_tick(block).unwrap())
            .unwrap();
    }
    let ran = airframe.run(&start, trace).unwrap();
    assert_eq!((ran.state, ran.accepted), (state, 60));
    assert_ne!(state[STATE_LIFT..], start[STATE_LIFT..]);
    let (left, right) = airframe.mirrored_pair(&start, trace).unwrap();
    assert_eq!(left, ran);
    assert_eq!(right.accepted, 60);
    assert_eq!(left.state[STATE_LIFT..], right.state[STATE_LIFT..]);
    assert_eq!(
        (left.state[0], left.state[1]),
        (right.state[0], -right.state[1])
    );
    assert_ne!(left.state[1], 0.0);
}
