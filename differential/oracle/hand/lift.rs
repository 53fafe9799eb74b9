//! Document 02's lift rotors: their blocks, limits and order of refusals, and their pushes worked out
//! by hand. The bits are worked out in exact fractions, each result rounded to an f32 before it is used.

use stable_flight::Vec3;
use stable_flight::mixers::{MixRow, Slot, TableMixer};
use stable_flight::nalgebra::UnitQuaternion;

use super::{Case, airframe_of, answered, at_rest, gives, pitched, plain, reads, still, unwritten};
use crate::blocks::{Airframe, LIFT_NUMBERS, LIFT_PLACE, Refusal, SLOTS, State, Tick};
use crate::blocks::{read_state, rotors};
use crate::fly::fly;
use crate::inputs::{AirframeBlock, Row, lift, motor, push, servo, state_bytes};
use crate::limits;
use crate::mirror::reflected_airframe;
use crate::rows::{self, airframe_row};
use crate::tick::{self, Report, model, wing};
use crate::wing::{FixedWing, Lift, Rotors};
use crate::words::same;

pub fn all() -> Vec<Case> {
    [
        lengths(),
        bits(),
        limits_of_numbers(),
        order(),
        without_numbers(),
        states(),
        pushes(),
        drags(),
        turns(),
        lags(),
        slots(),
        apart(),
        reflections(),
        originals(),
        flights(),
    ]
    .concat()
}

/// 10 N each, by the square, 0.5 m out, 0.25 Nm of yaw for each N, a lag of 1/16 s, no drag.
pub const ROTORS: [f32; LIFT_NUMBERS] = [10.0, 2.0, 0.5, 0.25, 0.0625, 0.0];

/// The plain airframe with these rows and lift numbers.
pub fn lifted(numbers: [f32; LIFT_NUMBERS], rows: &[Row]) -> AirframeBlock {
    AirframeBlock {
        lift: Some(numbers),
        rows: rows.to_vec(),
        ..plain()
    }
}

/// The lift numbers of `ROTORS` but for the one at `place`.
fn with(place: usize, number: f32) -> [f32; LIFT_NUMBERS] {
    let mut numbers = ROTORS;
    numbers[place - LIFT_PLACE] = number;
    numbers
}

fn with_wash(block: AirframeBlock) -> AirframeBlock {
    AirframeBlock {
        wash: Some([1.0; 7]),
        ..block
    }
}

fn lengths() -> Vec<Case> {
    let (alone, rows) = (
        lifted(ROTORS, &[]),
        lifted(ROTORS, &[lift(0, [0.0; 3]); 16]),
    );
    let length = |block: AirframeBlock, bytes: usize| {
        block.bytes().len() == bytes && reads(&block.bytes(), 0, 0)
    };
    let mut shorter = alone.bytes();
    shorter.pop();
    let mut announced = plain().bytes();
    announced[0] |= 1;
    let mut left_out = alone.bytes();
    left_out[0] &= !1;
    vec![
        ("lift numbers: 190 bytes", length(alone.clone(), 190)),
        (
            "wash and lift numbers: 218",
            length(with_wash(alone.clone()), 218),
        ),
        ("and 16 rows: 426", length(with_wash(rows), 426)),
        ("lift numbers a byte short: 1", reads(&shorter, 1, 0)),
        (
            "first byte 11 hex and no lift numbers: 1",
            reads(&announced, 1, 0),
        ),
        (
            "first byte 10 hex and lift numbers: 1",
            reads(&left_out, 1, 0),
        ),
    ]
}

/// A block of one row whose first byte is `head`.
fn headed_row(block: AirframeBlock, head: u8) -> Vec<u8> {
    let mut bytes = AirframeBlock {
        rows: vec![motor(0, [0.0; 3])],
        ..block
    }
    .bytes();
    let at = bytes.len() - 13;
    bytes[at] = head;
    bytes
}

fn bits() -> Vec<Case> {
    let there = |head| headed_row(lifted(ROTORS, &[]), head);
    let none = |head| headed_row(plain(), head);
    let mut bad = lifted(with(53, f32::NAN), &[]);
    bad.numbers[0] = f32::NAN;
    let mut reserved = [0x20, 0x40, 0x80].into_iter();
    let mut slots = (0..8).map(|slot| slot << 4);
    vec![
        (
            "a header's other three reserved bits with lift numbers: 4",
            reserved.all(|bit| {
                let mut bytes = lifted(ROTORS, &[]).bytes();
                bytes[1] |= bit;
                reads(&bytes, 4, 0)
            }),
        ),
        (
            "a row's bit 08 with lift numbers, each slot: 0",
            slots.all(|slot| reads(&there(slot | 8), 0, 0)),
        ),
        ("without lift numbers: 4", reads(&none(8), 4, 0)),
        (
            "on a servo's row, with them and without: 4",
            reads(&there(0x88), 4, 0) && reads(&none(0x88), 4, 0),
        ),
        (
            "a row's bits 01, 02, 04 with lift numbers, beside 08 too: 4",
            [1, 2, 4, 9, 10, 12]
                .iter()
                .all(|bits| reads(&there(*bits), 4, 0)),
        ),
        (
            "a row's bit before the numbers, the mass too",
            reads(&headed_row(bad.clone(), 0x88), 4, 0) && reads(&headed_row(bad, 8), 6, 1),
        ),
    ]
}

/// The limits of 52 to 57 as 02 gives them.
const LIMITS: [(usize, f32, f32); LIFT_NUMBERS] = [
    (52, 0.01, 10000.0),
    (53, 1.0, 3.0),
    (54, 0.0, 10.0),
    (55, -10.0, 10.0),
    (56, 0.001, 10.0),
    (57, 0.0, 10.0),
];

fn limits_of_numbers() -> Vec<Case> {
    let read = |place, number, answer: (u8, u8)| {
        let block = lifted(with(place, number), &[lift(0, [1.0; 3])]);
        let washed = with_wash(block.clone());
        reads(&block.bytes(), answer.0, answer.1) && reads(&washed.bytes(), answer.0, answer.1)
    };
    let ticked = |place, number, answer: (u8, u8)| {
        let mut made = airframe_of(&lifted(ROTORS, &[]));
        made.lift = Some(with(place, number));
        answered(&made, &at_rest(), &still(0.02), answer.0, answer.1)
    };
    let none = [f32::NAN, -f32::NAN, f32::INFINITY, f32::NEG_INFINITY];
    let refused = |(place, low, high): (usize, f32, f32)| {
        let beyond = [low.next_down(), high.next_up()];
        let mut all = beyond.into_iter().chain(none);
        all.all(|x| read(place, x, (6, place as u8)) && ticked(place, x, (6, place as u8)))
    };
    vec![
        (
            "52 to 57 at their limits: 0",
            LIMITS.into_iter().all(|(place, low, high)| {
                [low, high]
                    .iter()
                    .all(|x| read(place, *x, (0, 0)) && ticked(place, *x, (0, 0)))
            }),
        ),
        (
            "one float beyond, an infinity or NaN: 6 and their place",
            LIMITS.into_iter().all(refused),
        ),
        ("a drag of -0: 0", read(57, -0.0, (0, 0))),
    ]
}

/// The airframe with a lift rotor's torque of this number: slot and axis.
fn turning(numbers: [f32; LIFT_NUMBERS], slot: usize, axis: usize, torque: f32) -> Airframe {
    let mut made = airframe_of(&lifted(ROTORS, &[]));
    made.lift = Some(numbers);
    let mut components = [0.0; 3];
    components[axis] = torque;
    made.lift_torques[slot] = tick::vector(components);
    made
}

fn ticks_to(made: &Airframe, place: u8) -> bool {
    let answer = if place == 0 { 0 } else { 6 };
    answered(made, &at_rest(), &still(0.02), answer, place)
}

fn order() -> Vec<Case> {
    let each = |torque: f32, place: u8| {
        let mut all = (0..SLOTS).flat_map(|slot| [0, 1, 2].map(|axis| (slot, axis)));
        all.all(|(slot, axis)| ticks_to(&turning(ROTORS, slot, axis, torque), place))
    };
    let bad = with(52, 0.0);
    let factor = lifted(bad, &[lift(0, [0.0, 10.5, 0.0])]);
    let (mut torque, mut weight) = (turning(bad, 0, 0, 0.0), turning(bad, 0, 0, 0.0));
    torque.torques[7].z = 100.5;
    weight.weights[0].x = 101.5;
    let mut wash = with_wash(lifted(bad, &[]));
    wash.set(48, 10.5);
    vec![
        (
            "a hand-made lift torque of 100 either way: 0",
            each(100.0, 0) && each(-100.0, 0),
        ),
        (
            "one float beyond, an infinity or NaN: 6, place 58",
            [100f32.next_up(), -100f32.next_up(), f32::INFINITY, f32::NAN]
                .iter()
                .all(|torque| each(*torque, 58)),
        ),
        ("48 before 52", reads(&wash.bytes(), 6, 48)),
        ("49 before 52", reads(&factor.bytes(), 6, 49)),
        ("50 before 52", ticks_to(&torque, 50)),
        ("51 before 52", ticks_to(&weight, 51)),
        ("52 before 57", {
            let mut numbers = bad;
            numbers[5] = -1.0;
            ticks_to(&turning(numbers, 0, 0, 0.0), 52)
        }),
        (
            "57 before 58",
            ticks_to(&turning(with(57, -1.0), 0, 0, f32::NAN), 57),
        ),
    ]
}

/// An array of a plain airframe with one of these numbers at `at`.
fn array_with(at: usize, number: f32) -> Airframe {
    let mut row = airframe_row(&airframe_of(&plain()));
    row[at] = number;
    rows::airframe_of(&row)
}

/// A state whose lift rotors run at values of their own.
fn running() -> State {
    State {
        lift_motors: [
            0.125,
            -0.0,
            1.0,
            0.5,
            f32::from_bits(1),
            0.75,
            0.0,
            1f32.next_down(),
        ],
        ..at_rest()
    }
}

fn bits_of(numbers: [f32; SLOTS]) -> [u32; SLOTS] {
    numbers.map(f32::to_bits)
}

fn without_numbers() -> Vec<Case> {
    let (lag, torque) = (rows::LIFT_AT + 4, rows::LIFT_TORQUES_AT);
    let full = Tick {
        motors: [1.0; 8],
        ..still(0.02)
    };
    let airframe = airframe_of(&plain());
    let (report, next) = tick::tick(&airframe, &running(), &full);
    let (_, other) = tick::tick(&airframe, &at_rest(), &full);
    let mut marked = array_with(rows::LIFT_USED_AT + 3, 1.0);
    marked.lift_torques[3] = Vec3::new(1.0, 1.0, 1.0);
    let (_, by_marks) = tick::tick(&marked, &running(), &full);
    vec![
        (
            "an array without the lift flag, lag -0.001 or NaN: 0",
            [-0.001, f32::NAN]
                .iter()
                .all(|x| array_with(lag, *x).refusal().is_none()),
        ),
        (
            "an array without the lift flag, a torque of 101 or NaN: 0",
            [101.0, f32::NAN]
                .iter()
                .all(|x| array_with(torque, *x).refusal().is_none()),
        ),
        (
            "with the flag alone, a NaN too: 6, place 52",
            [1.0, -2.0, f32::NAN].iter().all(|flag| {
                let refusal = Refusal {
                    number: 6,
                    place: 52,
                };
                array_with(rows::LIFT_FLAG_AT, *flag).refusal() == Some(refusal)
            }),
        ),
        (
            "without lift numbers running values stay by their bits",
            report.answer == 0 && bits_of(next.lift_motors) == bits_of(running().lift_motors),
        ),
        (
            "and push nothing",
            State {
                lift_motors: [0.0; SLOTS],
                ..next
            } == State {
                lift_motors: [0.0; SLOTS],
                ..other
            },
        ),
        (
            "nor do marks and torques",
            bits_of(by_marks.lift_motors) == bits_of(next.lift_motors) && by_marks == next,
        ),
    ]
}

/// The state at rest with one of these lift running values in one slot, each in each.
pub fn lifting(values: &[f32]) -> Vec<State> {
    let slots = (0..SLOTS).flat_map(|slot| values.iter().map(move |value| (slot, *value)));
    let state = |(slot, value): (usize, f32)| {
        let mut state = at_rest();
        state.lift_motors[slot] = value;
        state
    };
    slots.map(state).collect()
}

/// What a lift rotor may run at, and what it may not: 1.0000001, the first below 0, infinities, NaNs.
const PASS: [f32; 5] = [0.0, -0.0, f32::from_bits(1), 1f32.next_down(), 1.0];
const REFUSED: [f32; 6] = [
    1.0000001,
    -f32::from_bits(1),
    f32::NEG_INFINITY,
    f32::INFINITY,
    f32::NAN,
    -f32::NAN,
];

fn states() -> Vec<Case> {
    let bytes = state_bytes(&running());
    let refused =
        |state: &State| read_state(&state_bytes(state)) == Err(Refusal::of(limits::STATE));
    let ticked = |airframe: &Airframe, values: &[f32], step: f32, (answer, place): (u8, u8)| {
        let mut states = lifting(values).into_iter();
        states.all(|state| answered(airframe, &state, &still(step), answer, place))
    };
    let (none, there) = (airframe_of(&plain()), airframe_of(&lifted(ROTORS, &[])));
    let both = |values: &[f32], step, answer| {
        ticked(&none, values, step, answer) && ticked(&there, values, step, answer)
    };
    vec![
        (
            "180 bytes: the lift running values",
            read_state(&bytes) == Ok(running()),
        ),
        (
            "148 and 116 bytes: 0 there",
            [148, 116]
                .iter()
                .all(|length| read_state(&bytes[..*length]) == Ok(at_rest())),
        ),
        ("148 bytes lent for a state: left as found", unwritten(148)),
        (
            "a lift running value at its limits, in each slot: 0",
            lifting(&PASS)
                .iter()
                .all(|state| read_state(&state_bytes(state)) == Ok(*state)),
        ),
        (
            "1.0000001, below 0, an infinity or NaN, in each slot: 7",
            lifting(&REFUSED).iter().all(refused),
        ),
        (
            "a tick from the first, with lift numbers and without: 0",
            both(&PASS, 0.02, (0, 0)),
        ),
        ("from the second: 7", both(&REFUSED, 0.02, (7, 0))),
        (
            "7 before 8",
            both(&REFUSED, 0.0, (7, 0)) && both(&PASS, 0.0, (8, 0)),
        ),
        (
            "6 before 7",
            ticked(&Airframe::zero(), &REFUSED, 0.02, (6, 1)),
        ),
    ]
}

/// How fast the body of 1 kg falls after 1/64 s under this push, in m/s: a multiple of 2^-20 N loses
/// nothing.
fn falling(thrust: f32) -> f32 {
    (9.80665 - thrust) / 64.0
}

/// A tick of 1/64 s from this state, with all motor commands at `command`.
fn flown(block: &AirframeBlock, state: &State, command: f32) -> (Report, State) {
    let tick = Tick {
        motors: [command; 8],
        ..still(1.0 / 64.0)
    };
    tick::tick(&airframe_of(block), state, &tick)
}

/// At rest, the lift rotor of slot 5 at `value`.
fn one_at(value: f32) -> State {
    let mut state = at_rest();
    state.lift_motors[5] = value;
    state
}

/// The speed down after a tick with one rotor, which no row names, at `value`.
fn fallen(numbers: [f32; LIFT_NUMBERS], value: f32) -> f32 {
    let (report, next) = flown(&lifted(numbers, &[]), &one_at(value), 1.0);
    let kept = report.answer == 0 && next.lift_motors == one_at(value).lift_motors;
    if kept { next.velocity[2] } else { f32::NAN }
}

fn pushes() -> Vec<Case> {
    let (report, _) = flown(&lifted(ROTORS, &[]), &one_at(0.5), 1.0);
    let two = State {
        lift_motors: [0.5, 0.0, 0.5, 0.0, 0.0, 0.0, 0.0, 0.0],
        ..at_rest()
    };
    let by = |(exponent, value)| fallen(with(53, exponent), value);
    vec![
        (
            "10 N, running 0.5: 2.5 N up, though no row names it",
            fallen(ROTORS, 0.5) == falling(2.5),
        ),
        ("two of them: 5 N", {
            let (_, next) = flown(&lifted(ROTORS, &[]), &two, 1.0);
            next.velocity == [0.0, 0.0, falling(5.0)]
        }),
        (
            "running 0 or -0: none",
            [0.0, -0.0].map(|x| fallen(ROTORS, x)) == [falling(0.0); 2],
        ),
        ("the thrust reported: 0", same(report.thrust, 0.0)),
        (
            "exponents 1.8 and 3, running 0.7: 40A864D9 and 405B851C N",
            gives(
                by,
                &[
                    ((1.8, 0.7), falling(f32::from_bits(0x40A8_64D9)).to_bits()),
                    ((3.0, 0.7), falling(f32::from_bits(0x405B_851C)).to_bits()),
                ],
            ),
        ),
        (
            "exponent 2 beside a forward one of 1.8: 2.5 N all the same",
            {
                let mut block = lifted(ROTORS, &[]);
                block.numbers[35] = 1.8;
                let (_, next) = flown(&block, &one_at(0.5), 1.0);
                next.velocity[2] == falling(2.5)
            },
        ),
    ]
}

/// Force and torque of one rotor of 10 N at 0.7, 409CCCCC N, without a row, in this air.
fn dragged(drag: f32, air: [f32; 3]) -> (Vec3, Vec3) {
    let mut running = [0.0; SLOTS];
    running[5] = 0.7;
    let step = (&[1.0; SLOTS], 0.5);
    let air = tick::vector(air);
    let (_, force, torque) = FixedWing::lift_step(
        rotors(ROTORS),
        drag,
        |motors| motors.set_running(running),
        step,
        air,
    );
    (force, torque)
}

fn drags() -> Vec<Case> {
    let state = State {
        velocity: [4.0, -2.0, 0.0],
        ..one_at(0.5)
    };
    let (_, next) = flown(&lifted(with(57, 0.5), &[]), &state, 1.0);
    let thrust = f32::from_bits(0x409C_CCCC);
    let (force, torque) = dragged(0.3, [5.1, -5.1, 100.0]);
    let along = f32::from_bits(0x40EF_E76B);
    vec![
        (
            "2.5 N, drag 0.5, air of 4 ahead and 2 from the left: 5 N back, 2.5 N to the right",
            next.velocity == [4.0 - 5.0 / 64.0, -2.0 + 2.5 / 64.0, falling(2.5)],
        ),
        (
            "409CCCCC N, drag 0.3, air 5.1: 40EFE76B, drag times thrust first; none along z",
            force == Vec3::new(-along, along, -thrust) && torque == Vec3::zeros(),
        ),
        (
            "no drag, or no air: thrust alone",
            dragged(0.0, [5.1, 5.1, 5.1]).0 == Vec3::new(0.0, 0.0, -thrust)
                && dragged(10.0, [0.0; 3]).0 == Vec3::new(0.0, 0.0, -thrust),
        ),
        ("drag 10, air of 1 ahead, 10 N: 100 N back", {
            let mut fast = one_at(1.0);
            fast.velocity[0] = 1.0;
            let (_, next) = flown(&lifted(with(57, 10.0), &[]), &fast, 1.0);
            next.velocity == [1.0 - 100.0 / 64.0, 0.0, falling(10.0)]
        }),
    ]
}

/// A rotor at 0.5 with these factors, held there.
fn turned(numbers: [f32; LIFT_NUMBERS], factors: [f32; 3]) -> [f32; 3] {
    let (_, next) = flown(&lifted(numbers, &[lift(5, factors)]), &one_at(0.5), 0.5);
    next.rates
}

/// A forward motor that pitches up by 1 Nm, its thrust line that does by 2^-24 Nm, and a lift rotor
/// that does by 2^-23 Nm, each with 1 N. The line's is lost beside the first; had the rotor's come
/// before it, the sum would be 1 + 2^-22.
fn torques_in_order() -> bool {
    let little = 1.0 / 16_777_216.0;
    let mut made = airframe_of(&lifted(with(52, 1.0), &[]));
    made.torques[5].y = 1.0;
    made.numbers[37] = little;
    made.lift_torques[5].y = 2.0 * little;
    let mut state = one_at(1.0);
    state.motors[5] = 1.0;
    let (report, next) = tick::tick(&made, &state, &still(1.0 / 64.0));
    report.answer == 0 && next.rates == [0.0, (1.0 + 2.0 * little) / 64.0, 0.0]
}

fn turns() -> Vec<Case> {
    vec![
        (
            "2.5 N, arm 0.5, yaw 0.25, factors 1, -0.5, 2: 1.25, -0.625, 1.25 Nm",
            turned(ROTORS, [1.0, -0.5, 2.0]) == [1.25, -0.625, 1.25].map(|x: f32| x / 64.0),
        ),
        (
            "the arm does not turn the nose",
            turned(with(54, 10.0), [0.0, 0.0, 1.0]) == turned(ROTORS, [0.0, 0.0, 1.0]),
        ),
        (
            "motors, thrust line, lift rotors: summed in this order",
            torques_in_order(),
        ),
    ]
}

/// The running values of slot 5 after a tick to `command`: the lift rotor's, and the motor's with its
/// lag of 1 s. Both have a row where `rows` says so.
fn lagged(rows: &[Row], start: f32, command: f32) -> (u32, u32) {
    let mut state = one_at(start);
    state.motors[5] = start;
    let (_, next) = flown(&lifted(ROTORS, rows), &state, command);
    (next.lift_motors[5].to_bits(), next.motors[5].to_bits())
}

/// 1 - e^-(1/4) is 3E62820C, 1 - e^-(1/64) is 3C7E02C0.
fn lags() -> Vec<Case> {
    let (lifts, motors) = ([lift(5, [0.0; 3])], [motor(5, [0.0; 3])]);
    let both = [motor(5, [0.0; 3]), lift(5, [0.0; 3])];
    let kept = 0.25f32.to_bits();
    vec![
        (
            "a lift rotor's own lag: from 0 to 3E62820C",
            lagged(&lifts, 0.0, 1.0) == (0x3E62_820C, 0),
        ),
        (
            "one command for both of a slot, each by its lag: 3E62820C, 3C7E02C0",
            lagged(&both, 0.0, 1.0) == (0x3E62_820C, 0x3C7E_02C0),
        ),
        (
            "a row names the one or the other: who has none keeps its value",
            lagged(&lifts, 0.25, 1.0).1 == kept && lagged(&motors, 0.25, 1.0).0 == kept,
        ),
        (
            "a command of 7 is 1, of -7 or NaN 0",
            lagged(&lifts, 0.0, 7.0) == lagged(&lifts, 0.0, 1.0)
                && lagged(&lifts, 0.5, -7.0) == lagged(&lifts, 0.5, 0.0)
                && lagged(&lifts, 0.5, f32::NAN) == lagged(&lifts, 0.5, 0.0),
        ),
    ]
}

fn slots() -> Vec<Case> {
    let rows = [
        lift(2, [1.0, 0.0, 0.0]),
        motor(2, [0.0, 1.0, 0.0]),
        servo(2, [0.5, 0.0, 0.0]),
        lift(2, [0.0, 0.0, 1.0]),
        motor(6, [0.0, 0.0, 1.0]),
        lift(7, [0.0, 1.0, 0.0]),
    ];
    let mut block = lifted(ROTORS, &rows);
    block.numbers[39] = 2.0;
    block.numbers[40] = 4.0;
    let read = airframe_of(&block);
    let used =
        |slots: &[usize]| -> [bool; SLOTS] { core::array::from_fn(|slot| slots.contains(&slot)) };
    vec![
        (
            "a motor is used in the groups of its rows",
            (read.used, read.lift_used) == (used(&[2, 6]), used(&[2, 7])),
        ),
        (
            "a later row wins in its own group",
            read.torques[2] == Vec3::new(0.0, 2.0, 0.0)
                && read.lift_torques[2] == Vec3::new(0.0, 0.0, 0.25),
        ),
        (
            "each group by its own arm and yaw torque",
            read.torques[6] == Vec3::new(0.0, 0.0, 4.0)
                && read.lift_torques[7] == Vec3::new(0.0, 0.5, 0.0),
        ),
        (
            "a servo of the slot beside them",
            read.weights[2] == Vec3::new(2.0, 0.0, 0.0),
        ),
    ]
}

/// What lift rotors have nothing to do with: a tick with one at 0.5 is the same but for its 2.5 N.
fn apart() -> Vec<Case> {
    let down = |block: &AirframeBlock, state: &State| {
        let (report, next) = flown(block, state, 0.0);
        (report.answer == 0).then_some((report.thrust, next.velocity[2], next.rates))
    };
    let expected = Some((0.0, falling(2.5), [0.0; 3]));
    let scaled = |scale| State {
        thrust_scale: [scale; SLOTS],
        ..one_at(0.5)
    };
    let mut pitched = AirframeBlock {
        lift: Some(ROTORS),
        ..pitched()
    };
    let fast = State {
        velocity: [20.0, 0.0, 0.0],
        ..one_at(0.5)
    };
    let by_speed = down(&pitched, &fast);
    pitched.pitch_speed = false;
    pitched.numbers[36] = 0.01;
    let by_line = down(&pitched, &fast);
    let mut line = lifted(ROTORS, &[]);
    line.numbers[37] = 10.0;
    let mut forward = one_at(0.5);
    forward.motors[1] = 1.0;
    vec![
        (
            "thrust scales of 0, 0.5, 1",
            [0.0, 0.5, 1.0]
                .iter()
                .all(|scale| down(&lifted(ROTORS, &[]), &scaled(*scale)) == expected),
        ),
        (
            "either falloff",
            by_speed == expected && by_line == expected,
        ),
        ("the thrust line", down(&line, &one_at(0.5)) == expected),
        (
            "the wash",
            down(&with_wash(lifted(ROTORS, &[])), &one_at(0.5)) == expected,
        ),
        (
            "the thrust reported: 1 N of the motor ahead",
            flown(&lifted(ROTORS, &[]), &forward, 0.0).0.thrust == 1.0,
        ),
    ]
}

fn reflections() -> Vec<Case> {
    let read = airframe_of(&lifted(ROTORS, &[lift(5, [1.0, -0.5, 2.0])]));
    let reflected = reflected_airframe(&read);
    vec![
        (
            "the reflection: roll and yaw of lift torques",
            reflected.lift_torques[5] == Vec3::new(-0.5, -0.25, -0.5),
        ),
        (
            "numbers and marks stay",
            (reflected.lift, reflected.lift_used) == (read.lift, read.lift_used),
        ),
    ]
}

/// Where the originals, called as they are, have other numbers than 02.
fn originals() -> Vec<Case> {
    let row = |slot| MixRow::new(Slot::Motor(slot), [0.0, 0.0, 1.0]);
    let two = TableMixer::new([row(0), row(1)]);
    let five = [5.0, 2.0, 0.5, 0.25, 0.0625, 1.0];
    let mut scaled = wing(&airframe_of(&lifted(ROTORS, &[])), &at_rest());
    scaled.set_thrust_scale([0.5; SLOTS]);
    let rotors_and_pusher = Rotors {
        lift: Some(Lift {
            rotors: rotors(ROTORS),
            pusher_slot: 1,
        }),
        ..Rotors::airplane()
    };
    let level = UnitQuaternion::identity();
    let model = model(&airframe_of(&plain()));
    let mut pusher = FixedWing::new(model, &two, rotors_and_pusher, level);
    let (used, torques) = (pusher.motors_mut().used(), pusher.motors_mut().torques());
    vec![
        (
            "LiftGroup::new, drag 1, two rotors of 5 N: 0.1 for each N",
            FixedWing::lift_drag_of(&two, rotors(five)) == 0.1,
        ),
        (
            "set_thrust_scale scales lift rotors too",
            scaled.lift_mut().map(|lift| lift.thrust_scale()) == Some([0.5; SLOTS]),
        ),
        (
            "FixedWing::new with lift rotors: one pusher, which turns nothing",
            used.iter().filter(|used| **used).count() == 1
                && used[1]
                && torques == [Vec3::zeros(); SLOTS],
        ),
    ]
}

/// A rotor of 10 N at full power lifts the body of 1 kg by 10 - 9.80665 m/s2, 3E45FD80, from rest.
pub fn rise() -> Vec<u8> {
    let mut bytes = lifted(ROTORS, &[]).bytes();
    bytes.extend(state_bytes(&one_at(1.0)));
    push(&mut bytes, &still(1.0 / 64.0).numbers());
    bytes
}

const RISE: [&str; 1] = [
    "1 0 00000000 00000000 B845FD80 00000000 00000000 BB45FD80 3F800000 00000000 00000000 \
     00000000 00000000 00000000 00000000",
];

fn flights() -> Vec<Case> {
    vec![("fly's rise on one lift rotor of 10 N", fly(&rise()) == RISE)]
}
