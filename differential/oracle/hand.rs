//! Document 01's cases: "Flown by hand" and the examples of "What the bench replies"; and document
//! 02's refused winds, thrust scales, thrust exponents and, in `lift` and `thin_air`, lift rotors and the
//! air's density.

pub mod lift;
pub mod thin_air;

use core::hint::black_box;

use stable_flight::Vec3;
use stable_flight::mixers::{MixRow, Slot};

use crate::aero;
use crate::arguments::{EXPONENTS, TURNING};
use crate::blocks::{self, Airframe, NO_LIFT_BYTES, Refusal, SLOTS, STATE_BYTES, State, Tick};
use crate::blocks::{UNSCALED_BYTES, mix, read_airframe, read_state, write_state};
use crate::fly::fly;
use crate::inputs::{AirframeBlock, motor, push, state_bytes};
use crate::lag;
use crate::limits;
use crate::tick::{self, Report, falloff, model, run};
use crate::words::same;

/// A case: what it says and whether it holds.
type Case = (&'static str, bool);

/// Prints a line for each case and the count; true if all hold.
pub fn check() -> bool {
    let cases: Vec<Case> = [
        lags(),
        shares(),
        functions(),
        rows(),
        replies(),
        ticks(),
        winds(),
        scale_blocks(),
        scales(),
        thrusts(),
        logarithms(),
        powers(),
        exponents(),
        pulls(),
        lift::all(),
        thin_air::all(),
        flights(),
    ]
    .concat();
    for (says, holds) in &cases {
        println!("{} {says}", if *holds { "ok  " } else { "FAIL" });
    }
    let held = cases.iter().filter(|(_, holds)| *holds).count();
    println!("{held} of {} cases hold", cases.len());
    held == cases.len()
}

fn approach(value: f32, command: f32, low: f32, alpha: f32) -> f32 {
    let mut value = value;
    lag::approach_saturated(&mut value, command, &(low..=1.0), 0.0, alpha);
    value
}

fn lags() -> Vec<Case> {
    vec![
        (
            "approach 0 to 1, factor 0.5: 0.5",
            approach(0.0, 1.0, 0.0, 0.5) == 0.5,
        ),
        (
            "NaN command, running 0.5, factor 0.5: 0.25",
            approach(0.5, f32::NAN, 0.0, 0.5) == 0.25,
        ),
        (
            "+infinity, running 1: 1",
            approach(1.0, f32::INFINITY, 0.0, 0.5) == 1.0,
        ),
        (
            "servo -7, running 0, factor 1: -1",
            approach(0.0, -7.0, -1.0, 1.0) == -1.0,
        ),
    ]
}

/// A plain airframe in range: ones, and what the places want.
pub fn plain() -> AirframeBlock {
    let mut numbers = [1.0; 41];
    numbers[7..30].fill(0.0);
    numbers[10] = 50.0;
    numbers[12] = 0.9;
    numbers[35] = 2.0;
    numbers[36] = 0.0;
    numbers[37] = 0.0;
    AirframeBlock {
        pitch_speed: false,
        numbers,
        wash: None,
        lift: None,
        rows: Vec::new(),
    }
}

fn airframe_of(block: &AirframeBlock) -> Airframe {
    read_airframe(&block.bytes()).unwrap_or(Airframe::zero())
}

fn share(share: f32, speed: f32) -> f32 {
    let mut model = model(&airframe_of(&plain()));
    model.thrust_falloff = falloff(true, 20.0);
    model.falloff_share(black_box(share), black_box(speed))
}

fn shares() -> Vec<Case> {
    vec![
        (
            "PitchSpeed 20, share 0.25, speed 5: 0.5",
            share(0.25, 5.0) == 0.5,
        ),
        ("PitchSpeed 20, speed NaN: 1", share(0.25, f32::NAN) == 1.0),
        ("PitchSpeed 20, share 0, speed 5: 0", share(0.0, 5.0) == 0.0),
        (
            "PitchSpeed 20, share -0, speed 5: 0",
            share(-0.0, 5.0) == 0.0,
        ),
        ("sharpness 0: blend 0.75", blend_without_sharpness() == 0.75),
        (
            "thrust 0.6125, disc 1, sink loss 0.5, axial -1: added 0",
            added() == 0.0,
        ),
    ]
}

fn blend_without_sharpness() -> f32 {
    let mut block = plain();
    block.numbers[10] = 0.0;
    aero::stall_blend(&model(&airframe_of(&block)).aero, 0.3)
}

fn added() -> f32 {
    tick::wash([1.0, 0.0, 0.0, 0.0, 0.0, 0.5, 0.0]).added(0.6125, -1.0)
}

fn functions() -> Vec<Case> {
    let atan2 = libm::atan2f(-0.0, -1.0);
    vec![
        ("atan2(-0, -1) = 40490FDB", atan2.to_bits() == 0x4049_0FDB),
        (
            "sqrt(2) = 3FB504F3",
            libm::sqrtf(2.0).to_bits() == 0x3FB5_04F3,
        ),
    ]
}

/// A row as it is read, of no lift rotor.
fn mixed(slot: Slot, factors: [f32; 3]) -> blocks::Row {
    blocks::Row {
        lift: false,
        mix: MixRow::new(slot, factors),
    }
}

fn one_servo() -> Airframe {
    let mut airframe = airframe_of(&plain());
    mix(&mut airframe, &[mixed(Slot::Servo(3), [0.5, 0.0, 0.0])]);
    airframe
}

fn twice() -> Airframe {
    let first = mixed(Slot::Motor(2), [1.0, 0.5, 0.25]);
    let later = mixed(Slot::Motor(2), [0.0, -1.0, 2.0]);
    let mut airframe = airframe_of(&plain());
    airframe.numbers[39] = 0.5;
    airframe.numbers[40] = 0.25;
    mix(&mut airframe, &[first, later]);
    airframe
}

fn rows() -> Vec<Case> {
    let weights = one_servo().weights;
    let later = twice().torques[2];
    vec![
        (
            "one servo, factor 0.5: weight 2",
            weights[3] == Vec3::new(2.0, 0.0, 0.0),
        ),
        (
            "a later row of the same slot wins",
            later == Vec3::new(0.0, -0.5, 0.5),
        ),
    ]
}

fn reads(bytes: &[u8], number: u8, place: u8) -> bool {
    let refusal = read_airframe(bytes).err().unwrap_or(Refusal::of(0));
    refusal == Refusal { number, place }
}

/// The plain block with its first two bytes replaced.
fn headed(first: u8, second: u8) -> Vec<u8> {
    let mut bytes = plain().bytes();
    bytes[0] = first;
    bytes[1] = second;
    bytes
}

fn with_rows(count: usize) -> Vec<u8> {
    let mut block = plain();
    block.rows = vec![motor(0, [0.0; 3]); count];
    block.bytes()
}

fn replies() -> Vec<Case> {
    let mut no_mass = plain();
    no_mass.numbers[0] = f32::NAN;
    let mut row_bit = with_rows(1);
    row_bit[166] = 1;
    let short = read_state(&[0; 115]) == Err(Refusal::of(limits::LENGTH));
    let fast = State {
        rates: [0.0, 101.0, 0.0],
        ..at_rest()
    };
    let outside = read_state(&state_bytes(&fast)) == Err(Refusal::of(limits::STATE));
    vec![
        (
            "a 166-byte airframe block in range: 0",
            reads(&plain().bytes(), 0, 0),
        ),
        ("a state block of 115 bytes: 1", short),
        ("first byte 20 hex: 2", reads(&headed(0x20, 0), 2, 0)),
        ("first byte 18 hex: 3", reads(&headed(0x18, 0), 3, 0)),
        ("second byte 20 hex: 4", reads(&headed(0x10, 0x20), 4, 0)),
        ("second byte 40 hex: 4", reads(&headed(0x10, 0x40), 4, 0)),
        ("second byte 80 hex: 4", reads(&headed(0x10, 0x80), 4, 0)),
        ("a reserved bit in a row: 4", reads(&row_bit, 4, 0)),
        ("second byte 11 hex: 5", reads(&headed(0x10, 0x11), 5, 0)),
        ("mass NaN: 6, place 1", reads(&no_mass.bytes(), 6, 1)),
        ("rate 101 rad/s: 7", outside),
        ("1 byte: 1", reads(&[0x20], 1, 0)),
        (
            "a 167-byte airframe block: 1",
            reads(&[&plain().bytes()[..], &[0]].concat(), 1, 0),
        ),
        ("16 rows pass", reads(&with_rows(16), 0, 0)),
        ("17 rows get 5", reads(&with_rows(17), 5, 0)),
        ("115 bytes lent for a state: left as found", unwritten(115)),
    ]
}

/// Whether a state is not written into so many bytes, and they stay.
fn unwritten(length: usize) -> bool {
    let mut lent = vec![7; length];
    let refused = write_state(&at_rest(), &mut lent) == Err(Refusal::of(limits::LENGTH));
    refused && lent.iter().all(|byte| *byte == 7)
}

/// All numbers 0 but w, which is 1, and motors as built.
pub fn at_rest() -> State {
    State {
        attitude: [1.0, 0.0, 0.0, 0.0],
        thrust_scale: [1.0; SLOTS],
        ..State::zero()
    }
}

fn still(step: f32) -> Tick {
    Tick {
        step,
        wind: [0.0; 3],
        motors: [0.0; 8],
        servos: [0.0; 8],
    }
}

fn answered(airframe: &Airframe, state: &State, tick: &Tick, answer: u8, place: u8) -> bool {
    let (report, next) = tick::tick(airframe, state, tick);
    let refusal = Refusal {
        number: answer,
        place,
    };
    let bits =
        |state: &State| -> Vec<u32> { state.numbers().iter().map(|x| x.to_bits()).collect() };
    match answer {
        0 => report.answer == 0,
        _ => report == Report::refused(refusal) && bits(&next) == bits(state),
    }
}

/// Northernmost and flying north: the next position is outside the envelope.
pub fn far_north() -> State {
    State {
        position: [1_000_000.0, 0.0, 0.0],
        velocity: [150.0, 0.0, 0.0],
        ..at_rest()
    }
}

/// 9's example: the position leaves the envelope though nothing accelerates it north.
fn departs() -> bool {
    let tick = Tick {
        wind: [150.0, 0.0, 0.0],
        ..still(1.0 / 64.0)
    };
    answered(&airframe_of(&plain()), &far_north(), &tick, 9, 0)
}

fn unused_motor_stays() -> bool {
    let running = State {
        motors: [0.5; 8],
        ..at_rest()
    };
    let full = Tick {
        motors: [1.0; 8],
        ..still(0.02)
    };
    let (report, next) = tick::tick(&airframe_of(&plain()), &running, &full);
    report.answer == 0 && next.motors == [0.5; 8] && same(report.thrust, 2.0)
}

fn ticks() -> Vec<Case> {
    let airframe = airframe_of(&plain());
    let rest = at_rest();
    let fast = State {
        rates: [0.0, 0.0, 101.0],
        ..rest
    };
    let mut torque = airframe.clone();
    torque.torques[7].z = 100.5;
    let mut weight = airframe.clone();
    weight.weights[0].x = 101.5;
    let short_run = run(&airframe, &rest, &[0; 79]) == (1, rest, 0);
    let empty_run = run(&airframe, &rest, &[]) == (0, rest, 0);
    vec![
        (
            "step 0.02 passes",
            answered(&airframe, &rest, &still(0.02), 0, 0),
        ),
        (
            "step 0.0201 gets 8",
            answered(&airframe, &rest, &still(0.0201), 8, 0),
        ),
        (
            "step 0 gets 8",
            answered(&airframe, &rest, &still(0.0), 8, 0),
        ),
        (
            "a tick from a state at 101 rad/s gets 7",
            answered(&airframe, &fast, &still(0.0), 7, 0),
        ),
        (
            "the zero airframe's tick gets 6",
            answered(&Airframe::zero(), &fast, &still(0.0), 6, 1),
        ),
        (
            "a hand-made torque of 100.5: 6, place 50",
            answered(&torque, &rest, &still(0.02), 6, 50),
        ),
        (
            "a hand-made weight of 101.5: 6, place 51",
            answered(&weight, &rest, &still(0.02), 6, 51),
        ),
        ("position 1,000,000 m north at 150 m/s: 9", departs()),
        (
            "an unused motor keeps its running value and pulls",
            unused_motor_stays(),
        ),
        ("a trace of 79 bytes: 1", short_run),
        ("an empty trace: 0, the start, no tick", empty_run),
    ]
}

/// 200 m/s and the next float below it, either way.
pub const USABLE: [f32; 4] = [-200.0, -200f32.next_down(), 200f32.next_down(), 200.0];

/// The next float beyond 200 m/s either way, both infinities and a NaN of each sign.
pub const UNUSABLE: [f32; 6] = [
    -200f32.next_up(),
    200f32.next_up(),
    f32::NEG_INFINITY,
    f32::INFINITY,
    f32::NAN,
    -f32::NAN,
];

/// Each component as the wind north, as the wind east and as the wind down, the other two 0.
pub fn each_way(components: &[f32]) -> Vec<[f32; 3]> {
    let each = |x: &f32| [[*x, 0.0, 0.0], [0.0, *x, 0.0], [0.0, 0.0, *x]];
    components.iter().flat_map(each).collect()
}

/// Whether every tick of `step` in a wind with one of these components gets the answer.
fn blown(
    airframe: &Airframe,
    state: &State,
    step: f32,
    components: &[f32],
    (answer, place): (u8, u8),
) -> bool {
    let mut winds = each_way(components).into_iter();
    winds.all(|wind| {
        let tick = Tick {
            wind,
            ..still(step)
        };
        answered(airframe, state, &tick, answer, place)
    })
}

fn winds() -> Vec<Case> {
    let (airframe, rest, step) = (airframe_of(&plain()), at_rest(), 1.0 / 64.0);
    let fast = State {
        rates: [0.0, 0.0, 101.0],
        ..rest
    };
    let calm = |components: &[f32], answer| blown(&airframe, &rest, step, components, (answer, 0));
    vec![
        ("wind of 200 m/s and just below: 0", calm(&USABLE, 0)),
        ("one float beyond 200 m/s: 10", calm(&UNUSABLE[..2], 10)),
        ("wind of either infinity: 10", calm(&UNUSABLE[2..4], 10)),
        ("wind of NaN: 10", calm(&UNUSABLE[4..], 10)),
        (
            "unusable wind and a departure: 10",
            blown(&airframe, &far_north(), step, &UNUSABLE, (10, 0)),
        ),
        (
            "unusable wind and a step of 0: 8",
            blown(&airframe, &far_north(), 0.0, &UNUSABLE, (8, 0)),
        ),
        (
            "unusable wind from a state at 101 rad/s: 7",
            blown(&airframe, &fast, 0.0, &UNUSABLE, (7, 0)),
        ),
        (
            "unusable wind on the zero airframe: 6, place 1",
            blown(&Airframe::zero(), &fast, 0.0, &UNUSABLE, (6, 1)),
        ),
    ]
}

/// 0 of both signs, the smallest number above it, the float below 1, and 1.
pub const SCALES: [f32; 5] = [0.0, -0.0, f32::from_bits(1), 1f32.next_down(), 1.0];

/// The next float beyond either limit, both infinities and a NaN of each sign.
pub const NO_SCALES: [f32; 6] = [
    1f32.next_up(),
    -f32::from_bits(1),
    f32::NEG_INFINITY,
    f32::INFINITY,
    f32::NAN,
    -f32::NAN,
];

/// The state at rest with one of these thrust scales in one slot, each in each.
pub fn scaled(scales: &[f32]) -> Vec<State> {
    let slots = (0..SLOTS).flat_map(|slot| scales.iter().map(move |scale| (slot, *scale)));
    let state = |(slot, scale): (usize, f32)| {
        let mut state = at_rest();
        state.thrust_scale[slot] = scale;
        state
    };
    slots.map(state).collect()
}

fn scale_blocks() -> Vec<Case> {
    let tired = State {
        thrust_scale: [0.125, 0.25, 0.375, 0.5, 0.625, 0.75, 0.875, 1.0],
        ..at_rest()
    };
    let block = [&state_bytes(&tired)[..], &[0; 2]].concat();
    let refused = |length: usize| read_state(&block[..length]) == Err(Refusal::of(limits::LENGTH));
    let reads = |state: &State| read_state(&state_bytes(state));
    vec![
        (
            "state blocks of 180 and of 148 bytes: their scales",
            [180, 148].map(|length| read_state(&block[..length])) == [Ok(tired); 2],
        ),
        (
            "a state block of 116 bytes: scales of 1",
            read_state(&block[..116]) == Ok(at_rest()),
        ),
        (
            "0, 115, 117, 147, 149, 179, 181 bytes: 1",
            [0, 115, 117, 147, 149, 179, 181].into_iter().all(refused),
        ),
        (
            "a state block has 180 bytes, older ones 148 and 116",
            [STATE_BYTES, NO_LIFT_BYTES, UNSCALED_BYTES] == [180, 148, 116],
        ),
        (
            "a refused state block: scales of 0",
            State::zero().thrust_scale == [0.0; SLOTS],
        ),
        (
            "116, 147, 148, 149, 179, 181 bytes lent for a state: left as found",
            [116, 147, 148, 149, 179, 181].into_iter().all(unwritten),
        ),
        (
            "a block with a scale at its limits, in each slot: 0",
            scaled(&SCALES).iter().all(|state| reads(state).is_ok()),
        ),
        (
            "one float beyond, an infinity or NaN, in each slot: 7",
            (scaled(&NO_SCALES).iter())
                .all(|state| reads(state) == Err(Refusal::of(limits::STATE))),
        ),
    ]
}

/// Whether a tick leaves the bits of the state's thrust scales.
fn scales_stay(state: &State) -> bool {
    let (report, next) = tick::tick(&airframe_of(&plain()), state, &still(0.02));
    let bits = |state: &State| state.thrust_scale.map(f32::to_bits);
    report.answer == 0 && bits(&next) == bits(state)
}

/// Whether ticks of `step` from each state at rest with one of these scales get the answer.
fn tired(airframe: &Airframe, scales: &[f32], step: f32, (answer, place): (u8, u8)) -> bool {
    let mut states = scaled(scales).into_iter();
    states.all(|state| answered(airframe, &state, &still(step), answer, place))
}

fn scales() -> Vec<Case> {
    let airframe = airframe_of(&plain());
    vec![
        (
            "a tick with a scale at its limits, in each slot: 0",
            tired(&airframe, &SCALES, 0.02, (0, 0)),
        ),
        (
            "a tick with a scale beyond its limits: 7",
            tired(&airframe, &NO_SCALES, 0.02, (7, 0)),
        ),
        (
            "a scale beyond its limits and a step of 0: 7",
            tired(&airframe, &NO_SCALES, 0.0, (7, 0)),
        ),
        (
            "a scale at its limits and a step of 0: 8",
            tired(&airframe, &SCALES, 0.0, (8, 0)),
        ),
        (
            "a scale beyond its limits on the zero airframe: 6, place 1",
            tired(&Airframe::zero(), &NO_SCALES, 0.0, (6, 1)),
        ),
        (
            "a tick leaves the bits of each scale",
            scaled(&SCALES).iter().all(scales_stay),
        ),
    ]
}

/// The thrust reported where one motor, which no row names, runs at `running` with this scale: max
/// thrust 10 N, `speed` along body x in still air.
fn pull(block: &AirframeBlock, scale: f32, running: f32, speed: f32) -> f32 {
    let mut block = block.clone();
    block.numbers[34] = 10.0;
    let mut state = at_rest();
    state.velocity[0] = speed;
    state.motors[5] = running;
    state.thrust_scale[5] = scale;
    let (report, next) = tick::tick(&airframe_of(&block), &state, &still(0.02));
    if report.answer == 0 && next.motors == state.motors {
        report.thrust
    } else {
        f32::NAN
    }
}

/// A plain airframe with PitchSpeed 20, whose motors have half of their thrust left at 5 m/s where
/// their share is 0.25.
pub fn pitched() -> AirframeBlock {
    let mut block = plain();
    block.pitch_speed = true;
    block.numbers[36] = 20.0;
    block
}

/// Two motors at half command that turn the nose to the right and to the left, 1 Nm for each N, the
/// second half as strong as the first.
pub fn lopsided() -> (AirframeBlock, State) {
    let mut block = plain();
    block.rows = vec![motor(0, [0.0, 0.0, 1.0]), motor(1, [0.0, 0.0, -1.0])];
    let mut state = at_rest();
    state.motors[..2].fill(0.5);
    state.thrust_scale[1] = 0.5;
    (block, state)
}

/// 0.25 N to the right and 0.125 N to the left, for 1/64 s, with an inertia of 1.
fn yaws() -> bool {
    let (block, state) = lopsided();
    let half = Tick {
        motors: [0.5; 8],
        ..still(1.0 / 64.0)
    };
    let (report, next) = tick::tick(&airframe_of(&block), &state, &half);
    same(report.thrust, 0.375) && next.rates == [0.0, 0.0, 0.125 / 64.0]
}

fn thrusts() -> Vec<Case> {
    let third = f32::from_bits(0x3EAA_AAAB);
    vec![
        (
            "10 N, running 0.5, scale 0.5, still air: 1.25 N",
            pull(&plain(), 0.5, 0.5, 0.0) == 1.25,
        ),
        (
            "the same at 5 m/s, PitchSpeed 20: 0.625 N, by the share 0.25",
            pull(&pitched(), 0.5, 0.5, 5.0) == 0.625,
        ),
        (
            "scale 1/3, running 0.7: 3FD11111, the scale multiplied first",
            pull(&plain(), third, 0.7, 0.0).to_bits() == 0x3FD1_1111,
        ),
        (
            "scale 0 or -0: no thrust",
            [0.0, -0.0].map(|scale| pull(&plain(), scale, 1.0, 0.0)) == [0.0; 2],
        ),
        ("scale 1: as built", pull(&plain(), 1.0, 0.5, 0.0) == 2.5),
        ("the weaker of two motors: the nose turns to it", yaws()),
    ]
}

/// Whether f gives each of the answers, by its bits.
fn gives<X: Copy>(f: impl Fn(X) -> f32, answers: &[(X, u32)]) -> bool {
    answers.iter().all(|(x, bits)| f(*x).to_bits() == *bits)
}

/// ln 2^n is n times 0.6931472 for each n that a float has: m is 1, and the series 0.
fn logarithms_of_powers() -> bool {
    (-149..128).all(|n| libm::logf(2f64.powi(n) as f32) == n as f32 * 0.6931472)
}

/// Numbers that no motor runs at.
const NO_SHARES: [f32; 7] = [
    1f32.next_up(),
    1.5,
    -f32::from_bits(1),
    f32::NEG_INFINITY,
    f32::INFINITY,
    f32::NAN,
    -f32::NAN,
];

/// The bits are worked out in exact fractions, each result rounded to an f32 before it is used. So
/// 0.001 is 3F83126F, 1.024, times 2^-10: s is 3C4246ED, z 39136F93, the sum 3F800189, twice s times
/// it 3CC24941, and 10 times 0.6931472 is 40DDCE9E.
fn logarithms() -> Vec<Case> {
    let (below, least) = (0x3F35_04F2, 0x3F35_04F3);
    let log_at = |bits| libm::logf(f32::from_bits(bits));
    vec![
        ("ln 1 = 0", libm::logf(1.0) == 0.0),
        ("ln 2^n = n times 0.6931472, each n", logarithms_of_powers()),
        ("ln 2^-149 = C2CE8ED0", gives(log_at, &[(1, 0xC2CE_8ED0)])),
        (
            "subnormal numbers are scaled: ln 3 * 2^-149 = C2CC5C53",
            gives(log_at, &[(3, 0xC2CC_5C53), (0x007F_FFFF, 0xC2AE_AC50)]),
        ),
        (
            "ln 0.001 = C0DD0C55",
            gives(libm::logf, &[(0.001, 0xC0DD_0C55)]),
        ),
        (
            "the least m, and the float below it as twice as much",
            gives(log_at, &[(least, 0xBEB1_7219), (below, 0xBEB1_721B)]),
        ),
        (
            "ln of 0 or -0 is -infinity, of infinity infinity",
            gives(libm::logf, &[(0.0, 0xFF80_0000), (-0.0, 0xFF80_0000)])
                && libm::logf(f32::INFINITY) == f32::INFINITY,
        ),
        (
            "ln of a number below 0 or of NaN: NaN",
            [-f32::from_bits(1), -1.0, f32::NEG_INFINITY, f32::NAN]
                .map(libm::logf)
                .iter()
                .all(|log| log.is_nan()),
        ),
    ]
}

/// Worked out as the logarithms are, from them on: 1.8 times ln 0.7 is BF245B17, k -1, r 3D51700F. By
/// two products 0.3 cubed is 3CDD2F1C.
fn powers() -> Vec<Case> {
    let power = |(v, e): (f32, f32)| libm::powf(v, e);
    let all = |v: f32, answer: u32| EXPONENTS.iter().all(|e| gives(power, &[((v, *e), answer)]));
    let none = |v: &f32| EXPONENTS.iter().all(|e| libm::powf(*v, *e).is_nan());
    let (below, above) = (2f32.next_down(), 2f32.next_up());
    vec![
        (
            "0.001 to the power 1 = 3A83126E, not itself",
            gives(power, &[((0.001, 1.0), 0x3A83_126E)]),
        ),
        (
            "0.7 to the power 1.8 = 3F06B714",
            gives(power, &[((0.7, 1.8), 0x3F06_B714)]),
        ),
        (
            "0.3 to the power 3 = 3CDD2F1A, not its cube by products",
            gives(power, &[((0.3, 3.0), 0x3CDD_2F1A)]),
        ),
        (
            "0.7 to the powers next to 2: 3EFAE148, 3EFAE146",
            gives(
                power,
                &[((0.7, below), 0x3EFA_E148), ((0.7, above), 0x3EFA_E146)],
            ),
        ),
        ("1 to any power: 1", all(1.0, 0x3F80_0000)),
        ("0 or -0 to any power: +0", all(0.0, 0) && all(-0.0, 0)),
        (
            "NaN, below 0 or above 1 to any power: NaN",
            NO_SHARES.iter().all(none),
        ),
        (
            "1e-13 to the power 3, the exponential of -89.8: 0",
            gives(power, &[((1.0e-13, 3.0), 0)]),
        ),
    ]
}

/// The next float beyond either limit, a thousandth beyond, 0, both infinities and a NaN of each sign.
const NO_EXPONENTS: [f32; 9] = [
    1f32.next_down(),
    0.999,
    0.0,
    3f32.next_up(),
    3.001,
    f32::NEG_INFINITY,
    f32::INFINITY,
    f32::NAN,
    -f32::NAN,
];

/// The airframe with this exponent of its motors' thrust.
pub fn with_exponent(mut block: AirframeBlock, exponent: f32) -> AirframeBlock {
    block.numbers[35] = exponent;
    block
}

fn exponents() -> Vec<Case> {
    let block = |exponent: &f32| with_exponent(plain(), *exponent).bytes();
    let ticked = |exponent: &f32, answer, place| {
        let mut made = airframe_of(&plain());
        made.numbers[35] = *exponent;
        answered(&made, &at_rest(), &still(0.02), answer, place)
    };
    vec![
        (
            "exponents 1, 1.8, 3, 2 and its neighbours: 0",
            EXPONENTS
                .iter()
                .all(|exponent| reads(&block(exponent), 0, 0)),
        ),
        (
            "beyond 1 or 3, an infinity or NaN: 6, place 36",
            NO_EXPONENTS
                .iter()
                .all(|exponent| reads(&block(exponent), 6, 36)),
        ),
        (
            "a hand-made airframe's tick with the first: 0",
            EXPONENTS.iter().all(|exponent| ticked(exponent, 0, 0)),
        ),
        (
            "with the second: 6, place 36",
            NO_EXPONENTS.iter().all(|exponent| ticked(exponent, 6, 36)),
        ),
    ]
}

/// A motor of 10 N on the plain airframe with this exponent, at rest.
fn pull_by(exponent: f32, running: f32) -> f32 {
    pull(&with_exponent(plain(), exponent), 1.0, running, 0.0)
}

/// A pull is 10 times a power of `powers`, rounded once more.
fn pulls() -> Vec<Case> {
    let by = |(exponent, running)| pull_by(exponent, running);
    let square = |v: &f32| gives(by, &[((2.0, *v), (10.0 * (*v * *v)).to_bits())]);
    let none = |exponent: &f32| pull_by(*exponent, 0.0) == 0.0 && pull_by(*exponent, -0.0) == 0.0;
    let pitched = with_exponent(pitched(), 3.0);
    vec![
        (
            "10 N, exponent 2: the square by its bits",
            TURNING.iter().chain(&[0.1, 0.3, 0.7]).all(square),
        ),
        (
            "10 N, running 0.001, exponent 1: 3C23D70A",
            gives(by, &[((1.0, 0.001), 0x3C23_D70A)]),
        ),
        (
            "10 N, running 0.7, exponents 1.8 and 3: 40A864D9, 405B851C",
            gives(by, &[((1.8, 0.7), 0x40A8_64D9), ((3.0, 0.7), 0x405B_851C)]),
        ),
        (
            "10 N, running 1: 10 N by any exponent",
            EXPONENTS
                .iter()
                .all(|exponent| pull_by(*exponent, 1.0) == 10.0),
        ),
        (
            "running 0 or -0: no thrust by any exponent",
            EXPONENTS.iter().all(none),
        ),
        (
            "running 1e-13: no thrust by 3, 15F79688 by 2",
            gives(by, &[((3.0, 1.0e-13), 0), ((2.0, 1.0e-13), 0x15F7_9688)]),
        ),
        (
            "running 1e-13 by 3, PitchSpeed 20: no thrust at 5 m/s and at rest",
            [5.0, 0.0].map(|speed| pull(&pitched, 1.0, 1.0e-13, speed)) == [0.0; 2],
        ),
    ]
}

/// The lines of two ticks of free fall.
const FALL: [&str; 2] = [
    "1 0 00000000 00000000 3B1CE80A 00000000 00000000 3E1CE80A 3F800000 00000000 00000000 \
     00000000 00000000 00000000 00000000",
    "2 0 00000000 00000000 3BEB5C0F 00000000 00000000 3E9CE80A 3F800000 00000000 00000000 \
     00000000 00000000 00000000 00000000",
];

/// The lines of the two ticks where their wind is NaN: the state at rest stays.
const NO_FALL: [&str; 2] = [
    "1 10 00000000 00000000 00000000 00000000 00000000 00000000 3F800000 00000000 00000000 \
     00000000 00000000 00000000 00000000",
    "2 10 00000000 00000000 00000000 00000000 00000000 00000000 3F800000 00000000 00000000 \
     00000000 00000000 00000000 00000000",
];

/// The lines of a fall with a state of 148 or 116 bytes: fly takes 180, and the tick then begins in the
/// middle of the first one, with a step of 0.
const OLDER_FALL: [&str; 2] = [
    "1 8 00000000 00000000 00000000 00000000 00000000 00000000 3F800000 00000000 00000000 \
     00000000 00000000 00000000 00000000",
    "0 1 0",
];

/// A fall's input: no rows, no wash, from rest two ticks of 1/64 s in these winds.
fn fall_in(winds: [[f32; 3]; 2]) -> Vec<u8> {
    let mut bytes = plain().bytes();
    bytes.extend(state_bytes(&at_rest()));
    for wind in winds {
        push(&mut bytes, &[1.0 / 64.0]);
        push(&mut bytes, &wind);
        bytes.extend([0; 64]);
    }
    bytes
}

/// The wind down is the velocity down, so that the air speed is 0 in both ticks.
pub fn fall() -> Vec<u8> {
    let fallen = f32::from_bits(0x3E1C_E80A);
    fall_in([[0.0; 3], [0.0, 0.0, fallen]])
}

/// The falls with states of 148 and of 116 bytes.
pub fn older_falls() -> [Vec<u8>; 2] {
    let (fall, at) = (fall(), plain().bytes().len());
    let ticks = &fall[at + STATE_BYTES..];
    [NO_LIFT_BYTES, UNSCALED_BYTES].map(|kept| [&fall[..at + kept], ticks].concat())
}

pub fn fall_in_nan() -> Vec<u8> {
    fall_in([[f32::NAN; 3]; 2])
}

fn flights() -> Vec<Case> {
    let fall = fall();
    let short = &fall[..fall.len() - 1];
    vec![
        (
            "fly's fall of two ticks in a wind that goes down with it",
            fly(&fall) == FALL,
        ),
        (
            "fly's fall of two ticks in a wind of NaN: 10, at rest",
            fly(&fall_in_nan()) == NO_FALL,
        ),
        (
            "a byte short of the second tick",
            fly(short) == [FALL[0], "0 1 0"],
        ),
        ("fly of nothing", fly(&[]) == ["0 1 0"]),
        ("fly of a bad header alone", fly(&[0x20, 0]) == ["0 2 0"]),
        ("fly of a short airframe", fly(&fall[..165]) == ["0 1 0"]),
        ("fly of a short state", fly(&fall[..345]) == ["0 1 0"]),
        ("fly of 116 bytes of state", fly(&fall[..282]) == ["0 1 0"]),
        ("fly of 148 bytes of state", fly(&fall[..314]) == ["0 1 0"]),
        (
            "fly of 148 or 116 bytes of state and two ticks: it takes 180",
            older_falls().map(|fall| fly(&fall)) == [OLDER_FALL; 2],
        ),
        ("fly without ticks", fly(&fall[..346]).is_empty()),
    ]
}
