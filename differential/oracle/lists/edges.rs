//! Inputs of fly at every limit: each number just inside and just outside its range, each
//! header bit, each length around each boundary; and flights at heights of interest.

use crate::arguments::{EXPONENTS, TURNING};
use crate::blocks::{LIFT_NUMBERS, SLOTS, STATE_NUMBERS, State, TICK_NUMBERS};
use crate::hand::{self, lift::ROTORS};
use crate::inputs::{AirframeBlock, Row, lift, motor, push, servo, state_bytes};
use crate::limits::{self, Range};

/// All of them.
pub fn all() -> Vec<Vec<u8>> {
    [
        hand_made(),
        headers(),
        row_bits(),
        airframes_at_limits(),
        airframes_outside(),
        factors(),
        states(),
        norms(),
        steps(),
        winds(),
        refused_scales(),
        scales(),
        vec![lopsided()],
        exponents(),
        faint(),
        refused_lifting(),
        vec![hand::lift::rise()],
        lifts(),
        dragged(),
        both_groups(),
        idle(),
        all_together(),
        at_heights(),
        over_rows(),
        stalled_up_high(),
    ]
    .concat()
}

/// The fall of two ticks in a wind of NaN; the one in a wind that goes down with it, whole, with states
/// of 148 and 116 bytes, cut at every boundary, where such states would end too, and one byte past it.
fn hand_made() -> Vec<Vec<u8>> {
    let fall = hand::fall();
    let boundaries = [
        0, 1, 2, 3, 165, 166, 167, 281, 282, 283, 313, 314, 315, 345, 346, 347, 425, 426, 427, 505,
    ];
    let mut all = vec![hand::fall_in_nan(), fall.clone()];
    all.extend(hand::older_falls());
    all.extend(boundaries.map(|end| fall[..end].to_vec()));
    all.push([&fall[..], &[0]].concat());
    all
}

/// Every version, falloff kind, reserved bit and row count too many: the two bytes alone, since
/// a bad header is answered whatever follows.
fn headers() -> Vec<Vec<u8>> {
    let mut all: Vec<u16> = (0..16)
        .filter(|version| *version != 1)
        .map(|v| v << 12)
        .collect();
    all.extend([0x1800, 0x1C00, 0x1A00, 0x1080, 0x1040, 0x1020]);
    all.extend((17..32).map(|rows| 0x1000 | rows));
    // Two at once: the earlier one answers.
    all.extend([0x2C00, 0x1D00, 0x1031, 0x0FFF]);
    // Lift numbers are announced: the same after them.
    all.extend([
        0x2100, 0x1900, 0x1180, 0x1140, 0x1120, 0x1131, 0x1111, 0x1100,
    ]);
    all.into_iter()
        .map(|bits| bits.to_be_bytes().to_vec())
        .collect()
}

/// One row bit of each kind, in the first or the second row, over a number out of range: a servo's row
/// and a motor's, with lift numbers and without. The bit of a lift rotor is good on a motor's row with
/// lift numbers, and the number answers.
fn row_bits() -> Vec<Vec<u8>> {
    let mut all = Vec::new();
    for row in [servo(5, [0.0; 3]), motor(5, [0.0; 3])] {
        for lift in [None, Some(ROTORS)] {
            let block = AirframeBlock {
                lift,
                rows: vec![row; 2],
                ..with_wash()
            };
            all.extend((0..4).map(|bit| with_row_bit(block.clone(), bit)));
        }
    }
    all
}

/// The block with a bit of its first row set, or of its second, and a mass of NaN.
fn with_row_bit(mut block: AirframeBlock, bit: usize) -> Vec<u8> {
    block.numbers[0] = f32::NAN;
    let mut bytes = block.bytes();
    let at = bytes.len() - 13 * (2 - bit % 2);
    bytes[at] |= 1 << bit;
    bytes
}

fn row(factors: [f32; 3]) -> Row {
    servo(5, factors)
}

fn with_wash() -> AirframeBlock {
    AirframeBlock {
        wash: Some([1.0; 7]),
        ..hand::plain()
    }
}

/// The places of an airframe's numbers in a block.
fn places() -> impl Iterator<Item = usize> {
    (1..=48).chain(52..=57)
}

/// All numbers at their lower or their upper limits, for both falloffs, and a tick at rest with lift
/// rotors that run.
fn airframes_at_limits() -> Vec<Vec<u8>> {
    let mut all = Vec::new();
    for pitch_speed in [false, true] {
        for upper in [false, true] {
            let mut block = with_wash();
            block.pitch_speed = pitch_speed;
            block.lift = Some([0.0; LIFT_NUMBERS]);
            for place in places() {
                let (low, high) = limits::airframe(place, pitch_speed);
                block.set(place, if upper { high } else { low });
            }
            let mut state = hand::at_rest();
            state.lift_motors[0] = 0.5;
            all.push(with_tick(&block, &state, 0.01));
        }
    }
    all
}

/// Each number in turn just below and just above its range; the airframe alone, since its
/// refusal is answered first.
fn airframes_outside() -> Vec<Vec<u8>> {
    let mut all = Vec::new();
    for place in places() {
        for bad in outside(limits::airframe(place, false)) {
            let mut block = match place {
                ..42 => hand::plain(),
                ..52 => with_wash(),
                _ => hand::lift::lifted(ROTORS, &[lift(2, [1.0; 3])]),
            };
            block.set(place, bad);
            all.push(block.bytes());
        }
    }
    // A row's factor answers before a lift number.
    let mut factor = hand::lift::lifted(ROTORS, &[lift(2, [10.5, 0.0, 0.0])]);
    factor.set(52, 0.0);
    all.push(factor.bytes());
    let mut slow = hand::plain();
    slow.pitch_speed = true;
    slow.numbers[36] = 0.1f32.next_down();
    all.push(slow.bytes());
    all
}

fn outside((low, high): Range) -> [f32; 2] {
    [low.next_down(), high.next_up()]
}

/// Row factors at and around their limits.
fn factors() -> Vec<Vec<u8>> {
    let good = [0.0, -0.0, 0.01, -0.01, 10.0, -10.0];
    let bad = [
        0.01f32.next_down(),
        10f32.next_up(),
        1.0e-45,
        f32::NAN,
        f32::INFINITY,
    ];
    let mut all = Vec::new();
    for (at, factor) in good.into_iter().chain(bad).enumerate() {
        let mut factors = [0.0; 3];
        factors[at % 3] = factor;
        let mut block = hand::plain();
        block.rows = vec![row(factors)];
        all.push(with_tick(&block, &hand::at_rest(), 0.01));
    }
    all
}

/// Each number of the state at its limits and just outside them, without a tick.
fn states() -> Vec<Vec<u8>> {
    let mut all = Vec::new();
    for at in 0..STATE_NUMBERS {
        let range = match at {
            0..3 => limits::POSITION,
            3..6 => limits::VELOCITY,
            6..10 => continue,
            10..13 => limits::RATE,
            13..21 => limits::MOTOR,
            21..29 => limits::SERVO,
            29..37 => limits::SCALE,
            _ => limits::MOTOR,
        };
        let [below, above] = outside(range);
        let tries = match at % 3 {
            0 => [below, range.1],
            1 => [range.0, above],
            _ => [above, f32::NAN],
        };
        for number in tries {
            all.push(state_with(at, number));
        }
    }
    all
}

/// The plain airframe and the state at rest but for its number `at`.
fn state_with(at: usize, number: f32) -> Vec<u8> {
    let mut bytes = hand::plain().bytes();
    let state_at = bytes.len();
    bytes.extend(state_bytes(&hand::at_rest()));
    bytes[state_at + 4 * at..][..4].copy_from_slice(&number.to_be_bytes());
    bytes
}

/// Attitudes whose squared norm is near 0.9 and 1.1, and a tick.
fn norms() -> Vec<Vec<u8>> {
    let mut all = Vec::new();
    for norm in [0.9f32, 1.1] {
        let w = norm.sqrt();
        for w in [
            w.next_down().next_down(),
            w.next_down(),
            w,
            w.next_up(),
            w.next_up().next_up(),
        ] {
            let state = State {
                attitude: [w, 0.0, 0.0, 0.0],
                ..hand::at_rest()
            };
            all.push(with_tick(&hand::plain(), &state, 0.01));
        }
    }
    all
}

/// Steps around their limits, one flight.
fn steps() -> Vec<Vec<u8>> {
    let (low, high) = limits::STEP_S;
    let steps = [
        low,
        low.next_down(),
        high,
        high.next_up(),
        0.0201,
        0.0,
        -low,
        f32::NAN,
        high,
    ];
    let mut bytes = hand::plain().bytes();
    bytes.extend(state_bytes(&hand::at_rest()));
    for step in steps {
        push(&mut bytes, &still(step));
    }
    vec![bytes]
}

/// Winds around their limits in each component: from rest, with a step that is refused, from where
/// the usable ones depart, and behind a state and an airframe that are refused.
fn winds() -> Vec<Vec<u8>> {
    let (plain, rest, far) = (hand::plain(), hand::at_rest(), hand::far_north());
    let fast = State {
        rates: [101.0, 0.0, 0.0],
        ..rest
    };
    let mut no_mass = plain.clone();
    no_mass.numbers[0] = 0.0;
    let (least, most) = limits::STEP_S;
    vec![
        blown(&plain, &rest, least),
        blown(&plain, &rest, most.next_up()),
        blown(&plain, &far, most),
        blown(&plain, &fast, most),
        blown(&no_mass, &rest, most),
    ]
}

/// A thrust scale just below and just above its range and a NaN, in each slot, and a tick.
fn refused_scales() -> Vec<Vec<u8>> {
    let [below, above] = outside(limits::SCALE);
    let states = hand::scaled(&[below, above, f32::NAN]);
    let flight = |state: &State| with_tick(&hand::plain(), state, 0.01);
    states.iter().map(flight).collect()
}

/// The plain airframe whose thrust falls off by PitchSpeed, or else by Linear.
fn with_falloff(pitch_speed: bool) -> AirframeBlock {
    if pitch_speed {
        return hand::pitched();
    }
    let mut block = hand::plain();
    block.numbers[36] = 0.01;
    block
}

/// Factors of a slot's own.
fn own(slot: u8) -> [f32; 3] {
    [0.25, -0.5, 1.0].map(|factor| factor * f32::from(slot + 1))
}

/// Flights of motors in all slots, each with a torque of its own: in each slot every limit of a
/// thrust scale once, beside the others in the other slots. Every other motor runs without a row.
fn scales() -> Vec<Vec<u8>> {
    let mut flights = Vec::new();
    for first in 0..SLOTS {
        let mut block = with_falloff(first % 2 == 1);
        block.rows = (0..SLOTS as u8)
            .skip(first % 2)
            .step_by(2)
            .map(|slot| motor(slot, own(slot)))
            .collect();
        let mut state = hand::at_rest();
        state.velocity = [5.0, 0.0, 0.0];
        state.motors = [0.5; SLOTS];
        for slot in 0..SLOTS {
            state.thrust_scale[slot] = hand::SCALES[(first + slot) % hand::SCALES.len()];
        }
        flights.push(powered(&block, &state, 2));
    }
    flights
}

fn lopsided() -> Vec<u8> {
    let (block, state) = hand::lopsided();
    powered(&block, &state, 8)
}

/// A flight by each exponent and each falloff: motors that no row names, which keep running values at
/// the edges of a power.
fn exponents() -> Vec<Vec<u8>> {
    let mut state = hand::at_rest();
    state.velocity = [5.0, 0.0, 0.0];
    state
        .motors
        .copy_from_slice(&TURNING[TURNING.len() - SLOTS..]);
    let flight = |exponent| {
        [false, true].map(|pitch_speed| {
            let block = hand::with_exponent(with_falloff(pitch_speed), exponent);
            powered(&block, &state, 2)
        })
    };
    EXPONENTS.into_iter().flat_map(flight).collect()
}

/// A motor that runs, though its share by the exponent 3 is 0: with PitchSpeed, in air that comes from
/// ahead and in still air; and by the exponent 2 in still air, where it pulls.
fn faint() -> Vec<Vec<u8>> {
    let mut state = hand::at_rest();
    state.motors[5] = 1.0e-13;
    let flight = |exponent, wind_north| {
        let mut bytes = hand::with_exponent(hand::pitched(), exponent).bytes();
        bytes.extend(state_bytes(&state));
        let mut tick = still(1.0 / 64.0);
        tick[1] = wind_north;
        push(&mut bytes, &tick);
        bytes
    };
    vec![flight(3.0, -5.0), flight(3.0, 0.0), flight(2.0, 0.0)]
}

/// A lift running value just below and just above its range and a NaN, in each slot, and a tick: with
/// lift numbers in every other slot.
fn refused_lifting() -> Vec<Vec<u8>> {
    let [below, above] = outside(limits::MOTOR);
    let states = hand::lift::lifting(&[below, above, f32::NAN]);
    let blocks = [hand::plain(), hand::lift::lifted(ROTORS, &[])];
    let flight = |(at, state): (usize, &State)| with_tick(&blocks[at / 3 % 2], state, 0.01);
    states.iter().enumerate().map(flight).collect()
}

/// At rest, the lift rotors at the edges of a power.
fn lifting() -> State {
    let mut state = hand::at_rest();
    let edges = &TURNING[TURNING.len() - SLOTS..];
    state.lift_motors.copy_from_slice(edges);
    state
}

/// The lift numbers with this exponent and this drag.
fn rotors(exponent: f32, drag: f32) -> [f32; LIFT_NUMBERS] {
    let mut numbers = ROTORS;
    numbers[1] = exponent;
    numbers[5] = drag;
    numbers
}

/// A flight by each exponent of lift rotors, with rows for every other one, beside forward motors of
/// the square.
fn lifts() -> Vec<Vec<u8>> {
    let rows: Vec<Row> = (0..SLOTS as u8)
        .step_by(2)
        .map(|slot| lift(slot, own(slot)))
        .collect();
    let flight = |exponent| {
        powered(
            &hand::lift::lifted(rotors(exponent, 0.02), &rows),
            &lifting(),
            3,
        )
    };
    EXPONENTS.into_iter().map(flight).collect()
}

/// Lift rotors in air from all sides, with no drag, a little and the most; with and without a wash.
fn dragged() -> Vec<Vec<u8>> {
    let mut state = lifting();
    state.velocity = [3.0, -2.0, 1.0];
    let flight = |drag| {
        [None, Some([1.0; 7])].map(|wash| {
            let block = AirframeBlock {
                wash,
                ..hand::lift::lifted(rotors(2.0, drag), &[lift(0, [1.0, -1.0, 0.5])])
            };
            powered(&block, &state, 3)
        })
    };
    [0.0, 0.03, 10.0].into_iter().flat_map(flight).collect()
}

/// A motor and a lift rotor on one slot, by one command, and each of them alone; a later row of one
/// group between two of the other; thrust scales that are the motors' alone.
fn both_groups() -> Vec<Vec<u8>> {
    let (forward, upward) = (motor(3, [0.0, 0.5, 1.0]), lift(3, [1.0, -1.0, 0.25]));
    let later = [
        upward,
        forward,
        lift(3, [-0.5, 0.0, 2.0]),
        motor(3, [1.0, 0.0, 0.0]),
    ];
    let rows: [&[Row]; 4] = [&[forward, upward], &[forward], &[upward], &later];
    let mut state = hand::at_rest();
    state.motors[3] = 0.75;
    state.lift_motors[3] = 0.25;
    state.thrust_scale[3] = 0.5;
    let flight = |rows: &[Row]| powered(&hand::lift::lifted(ROTORS, rows), &state, 3);
    rows.into_iter().map(flight).collect()
}

/// Lift running values without lift numbers: they stay, and push nothing.
fn idle() -> Vec<Vec<u8>> {
    let mut block = hand::plain();
    block.rows = vec![motor(3, [0.0, 0.0, 1.0])];
    vec![
        powered(&block, &lifting(), 2),
        powered(&with_wash(), &lifting(), 2),
    ]
}

/// Lift rotors on all slots over motors on all slots: sixteen rows, a wash, and ticks that turn.
fn all_together() -> Vec<Vec<u8>> {
    let slots = 0..SLOTS as u8;
    let rows = slots.flat_map(|slot| [motor(slot, own(slot)), lift(slot, own(7 - slot))]);
    let block = AirframeBlock {
        wash: Some([1.0; 7]),
        pitch_speed: true,
        ..hand::lift::lifted(rotors(1.8, 0.01), &rows.collect::<Vec<Row>>())
    };
    let mut flown = hand::with_exponent(block, 2.5);
    flown.numbers[36] = 20.0;
    let mut state = lifting();
    state.velocity = [5.0, 1.0, -1.0];
    vec![powered(&flown, &state, 8)]
}

/// A small aeroplane with all of its coefficients, a motor and three servos, with a wash or without.
fn aeroplane(washed: bool) -> AirframeBlock {
    let mut block = hand::plain();
    let coefficients = [
        0.3, 5.0, 0.25, 20.0, 0.05, 0.8, -0.5, 0.2, -0.1, -0.5, 0.15, 0.2, 0.02, 0.05, -0.8, 0.5,
        -6.0, -0.9, 0.5, 0.1, -0.05, -0.2, -0.1,
    ];
    block.numbers[7..30].copy_from_slice(&coefficients);
    block.numbers[34] = 8.0;
    block.rows = vec![
        motor(0, [0.0; 3]),
        servo(0, [1.0, 0.0, 0.0]),
        servo(1, [0.0, 1.0, 0.0]),
        servo(2, [0.0, 0.0, 1.0]),
    ];
    AirframeBlock {
        wash: washed.then_some([0.1, 0.8, 0.5, -0.2, 1.5, 1.2, 0.3]),
        ..block
    }
}

/// In the air at this height: 12 m/s ahead, turning, the motor running, the surfaces deflected.
fn airborne(height_m: f32) -> State {
    let mut state = hand::at_rest();
    state.position = [10.0, -20.0, -height_m];
    state.velocity = [12.0, 0.5, 0.75];
    state.rates = [0.25, -0.125, 0.5];
    state.motors[0] = 0.75;
    state.servos[..3].copy_from_slice(&[0.25, -0.5, 0.125]);
    state
}

/// Flights that start at 0 of either sign, next to it, at a row, between rows, at the ends of the table
/// and beyond them: ahead with every other one in a wash, and tail first in one.
fn at_heights() -> Vec<Vec<u8>> {
    let heights = [
        0.0, -0.0, -1.0e-9, 99.99999, -50.0, 100.0, 2000.0, 2491.0, -1000.0, -1500.0, 5000.0,
        7000.0, 1.0e6,
    ];
    let mut all = Vec::new();
    for (at, height_m) in heights.into_iter().enumerate() {
        let ahead = airborne(height_m);
        let mut back = ahead;
        back.velocity[0] = -4.0;
        all.push(powered(&aeroplane(at % 2 == 1), &ahead, 2));
        all.push(powered(&aeroplane(true), &back, 2));
    }
    all
}

/// Flights that climb and fall over a row, over 0 and over the table's ends, in a wash and without.
fn over_rows() -> Vec<Vec<u8>> {
    let mut all = Vec::new();
    for (at, row) in [0.0, 1900.0, -1000.0, 5000.0].into_iter().enumerate() {
        for down in [4.0, -4.0] {
            let mut state = airborne(row + 0.02 * down);
            state.velocity[2] = down;
            all.push(powered(&aeroplane(at % 2 == 0), &state, 4));
        }
    }
    all
}

/// Past the stall at 3333 m, nose first and broadside, in a wash and without.
fn stalled_up_high() -> Vec<Vec<u8>> {
    let flight = |ahead: f32| {
        [false, true].map(|washed| {
            let mut state = airborne(3333.0);
            state.velocity = [ahead, 0.5, 7.0];
            powered(&aeroplane(washed), &state, 3)
        })
    };
    [7.0, 0.25].into_iter().flat_map(flight).collect()
}

/// A flight of ticks of 1/64 s with all motors at half command.
fn powered(block: &AirframeBlock, state: &State, ticks: usize) -> Vec<u8> {
    let mut bytes = block.bytes();
    bytes.extend(state_bytes(state));
    for _ in 0..ticks {
        let mut tick = still(1.0 / 64.0);
        tick[4..12].fill(0.5);
        push(&mut bytes, &tick);
    }
    bytes
}

/// A flight of ticks of one step in each of the winds.
fn blown(block: &AirframeBlock, state: &State, step: f32) -> Vec<u8> {
    let components = [&hand::UNUSABLE[..], &hand::USABLE].concat();
    let mut bytes = block.bytes();
    bytes.extend(state_bytes(state));
    for wind in hand::each_way(&components) {
        let mut tick = still(step);
        tick[1..4].copy_from_slice(&wind);
        push(&mut bytes, &tick);
    }
    bytes
}

fn still(step: f32) -> [f32; TICK_NUMBERS] {
    let mut tick = [0.0; TICK_NUMBERS];
    tick[0] = step;
    tick
}

fn with_tick(block: &AirframeBlock, state: &State, step: f32) -> Vec<u8> {
    let mut bytes = block.bytes();
    bytes.extend(state_bytes(state));
    push(&mut bytes, &still(step));
    bytes
}
