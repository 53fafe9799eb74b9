//! Inputs of fly from a seed: airframes, states and ticks, plausible ones, ones at every limit,
//! and damaged blocks.

use crate::arguments::{SPECIAL, TELLING_HEIGHTS, TURNING, exponent, near, row_heights};
use crate::blocks::{
    AIRFRAME_NUMBERS, LIFT_NUMBERS, LIFT_PLACE, NO_LIFT_BYTES, SLOTS, STATE_BYTES, State,
    TICK_BYTES, TICK_NUMBERS, UNSCALED_BYTES, WASH_NUMBERS, write_state,
};
use crate::density::ENDS_M;
use crate::limits::{self, Range};
use crate::rng::Rng;

/// What a mixer row drives: a motor along body x, a servo or a lift rotor.
#[derive(Debug, Clone, Copy, PartialEq)]
pub enum Kind {
    Motor,
    Servo,
    Lift,
}

/// A mixer row before it is packed.
#[derive(Debug, Clone, Copy)]
pub struct Row {
    pub kind: Kind,
    pub slot: u8,
    pub factors: [f32; 3],
}

impl Row {
    fn head(&self) -> u8 {
        let kind = match self.kind {
            Kind::Motor => 0,
            Kind::Servo => 0b1000_0000,
            Kind::Lift => 0b0000_1000,
        };
        kind | self.slot << 4
    }
}

/// An airframe block before it is packed.
#[derive(Debug, Clone)]
pub struct AirframeBlock {
    pub pitch_speed: bool,
    pub numbers: [f32; AIRFRAME_NUMBERS],
    pub wash: Option<[f32; WASH_NUMBERS]>,
    pub lift: Option<[f32; LIFT_NUMBERS]>,
    pub rows: Vec<Row>,
}

impl AirframeBlock {
    pub fn bytes(&self) -> Vec<u8> {
        let header = 1 << 12
            | u16::from(self.pitch_speed) << 10
            | u16::from(self.wash.is_some()) << 9
            | u16::from(self.lift.is_some()) << 8
            | self.rows.len() as u16;
        let mut bytes = header.to_be_bytes().to_vec();
        push(&mut bytes, &self.numbers);
        push(&mut bytes, self.wash.as_ref().map_or(&[], |wash| &wash[..]));
        push(&mut bytes, self.lift.as_ref().map_or(&[], |lift| &lift[..]));
        for row in &self.rows {
            bytes.push(row.head());
            push(&mut bytes, &row.factors);
        }
        bytes
    }

    /// Sets the number at `place`, 1 to 48 or 52 to 57; says whether the block has it.
    pub fn set(&mut self, place: usize, number: f32) -> bool {
        let at = match place {
            ..42 => self.numbers.get_mut(place - 1),
            ..LIFT_PLACE => self.wash.as_mut().map(|wash| &mut wash[place - 42]),
            _ => self.lift.as_mut().map(|lift| &mut lift[place - LIFT_PLACE]),
        };
        let there = at.is_some();
        at.into_iter().for_each(|at| *at = number);
        there
    }
}

pub fn push(bytes: &mut Vec<u8>, numbers: &[f32]) {
    for number in numbers {
        bytes.extend(number.to_be_bytes());
    }
}

pub fn state_bytes(state: &State) -> Vec<u8> {
    let mut bytes = vec![0; STATE_BYTES];
    // As many bytes as it needs are lent, so the write is never refused.
    let _ = write_state(state, &mut bytes);
    bytes
}

/// Plausible ranges of the 41 airframe numbers, a small survey aeroplane's.
const PLAUSIBLE: [Range; AIRFRAME_NUMBERS] = [
    (0.5, 20.0),
    (0.02, 2.0),
    (0.02, 2.0),
    (0.03, 3.0),
    (0.2, 2.0),
    (1.0, 4.0),
    (0.15, 0.6),
    (0.0, 0.5),
    (3.0, 6.0),
    (0.15, 0.6),
    (5.0, 80.0),
    (0.02, 0.1),
    (0.6, 1.0),
    (-1.0, -0.2),
    (-0.3, 0.3),
    (-0.2, 0.05),
    (-0.7, -0.2),
    (0.0, 0.3),
    (0.05, 0.3),
    (-0.05, 0.05),
    (-0.05, 0.1),
    (-2.8, -0.1),
    (0.0, 1.0),
    (-15.0, -2.0),
    (-1.2, 1.2),
    (0.0, 1.0),
    (0.03, 0.25),
    (-0.1, 0.02),
    (-0.3, -0.05),
    (-0.15, 0.15),
    (0.2, 0.8),
    (0.2, 0.8),
    (0.2, 0.8),
    (0.02, 0.3),
    (3.0, 60.0),
    (1.0, 3.0),
    (0.0, 0.6),
    (-0.1, 0.1),
    (0.02, 0.4),
    (0.0, 0.6),
    (-0.1, 0.1),
];

/// Plausible ranges of a tailsitter's wash numbers.
const PLAUSIBLE_WASH: [Range; WASH_NUMBERS] = [
    (0.03, 0.5),
    (0.2, 1.0),
    (0.1, 1.0),
    (-0.4, 0.4),
    (-3.0, 3.0),
    (0.5, 2.0),
    (0.0, 0.5),
];

/// Plausible ranges of the lift numbers of a small quadplane.
const PLAUSIBLE_LIFT: [Range; LIFT_NUMBERS] = [
    (1.0, 15.0),
    (1.0, 3.0),
    (0.0, 0.5),
    (-0.1, 0.1),
    (0.02, 0.4),
    (0.0, 0.05),
];

/// A number anywhere in `range`, at its limits, or special ones inside it.
fn anywhere(rng: &mut Rng, range: Range) -> f32 {
    let number = match rng.below(6) {
        0 => range.0,
        1 => range.1,
        2 => f32::from_bits(rng.pick(&SPECIAL)),
        3 => rng.scaled(-20, 4),
        _ => rng.between(range.0, range.1),
    };
    if limits::within(number, range) {
        number
    } else {
        rng.between(range.0, range.1)
    }
}

fn factor(rng: &mut Rng) -> f32 {
    match rng.below(8) {
        0 | 1 => 0.0,
        2 => -0.0,
        3 => rng.pick(&[0.01, 10.0, -0.01, -10.0]),
        4 => rng.pick(&[1.0, -1.0, 0.5, -0.5]),
        _ => rng.between(0.01, 2.0) * rng.pick(&[1.0, -1.0]),
    }
}

/// A row of any kind; a lift rotor's only where `lift` says that there may be one.
pub fn row(rng: &mut Rng, lift: bool) -> Row {
    let kind = match rng.below(4) {
        0 | 1 => Kind::Servo,
        2 if lift => Kind::Lift,
        _ => Kind::Motor,
    };
    Row {
        kind,
        slot: rng.below(SLOTS) as u8,
        factors: [factor(rng), factor(rng), factor(rng)].map(keep_small),
    }
}

/// A random size between 0 and 0.01 is no row factor.
fn keep_small(factor: f32) -> f32 {
    if limits::row_factor(factor) {
        factor
    } else {
        0.01
    }
}

pub const fn motor(slot: u8, factors: [f32; 3]) -> Row {
    Row {
        kind: Kind::Motor,
        slot,
        factors,
    }
}

pub const fn servo(slot: u8, factors: [f32; 3]) -> Row {
    Row {
        kind: Kind::Servo,
        slot,
        factors,
    }
}

pub const fn lift(slot: u8, factors: [f32; 3]) -> Row {
    Row {
        kind: Kind::Lift,
        slot,
        factors,
    }
}

/// One prop, ailerons, elevator, rudder.
const PLANE: [Row; 5] = [
    motor(0, [0.0, 0.0, 0.0]),
    servo(0, [1.0, 0.0, 0.0]),
    servo(1, [-1.0, 0.0, 0.0]),
    servo(2, [0.0, 1.0, 0.0]),
    servo(3, [0.0, 0.0, 1.0]),
];

/// Two props out on the wing, two elevons.
const TAILSITTER: [Row; 4] = [
    motor(0, [0.0, 0.0, 1.0]),
    motor(1, [0.0, 0.0, -1.0]),
    servo(0, [0.5, 0.5, 0.0]),
    servo(1, [-0.5, 0.5, 0.0]),
];

/// A slot named twice: the later row wins.
const TWICE: [Row; 6] = [
    motor(3, [1.0, -1.0, 1.0]),
    motor(3, [-1.0, 0.5, 0.25]),
    servo(7, [1.0, 1.0, 0.0]),
    servo(2, [0.3, 0.0, 0.7]),
    servo(7, [0.0, 0.5, -1.0]),
    motor(7, [0.0, 2.0, -2.0]),
];

/// Four lift rotors, a pusher on the slot of one of them, elevons between them.
const QUADPLANE: [Row; 7] = [
    lift(0, [-0.7, 0.7, 1.0]),
    lift(1, [0.7, -0.7, 1.0]),
    servo(0, [0.5, 0.5, 0.0]),
    lift(2, [0.7, 0.7, -1.0]),
    lift(3, [-0.7, -0.7, -1.0]),
    servo(1, [-0.5, 0.5, 0.0]),
    motor(3, [0.0, 0.0, 0.0]),
];

/// Slots named twice, and by both groups: a later row wins in its own.
const TWICE_EACH: [Row; 8] = [
    lift(3, [1.0, -1.0, 1.0]),
    motor(3, [1.0, -1.0, 0.5]),
    servo(3, [0.3, 0.0, 0.7]),
    lift(3, [-1.0, 0.5, 0.25]),
    motor(5, [0.0, 0.25, -0.5]),
    lift(5, [0.5, 2.0, -2.0]),
    servo(5, [0.0, 1.0, 0.0]),
    motor(5, [0.25, 0.0, 0.0]),
];

/// Lift rotors on all slots, a motor along body x on half of them, each with a torque of its own.
fn all_slots() -> Vec<Row> {
    let turn = |slot: u8| f32::from(slot + 1) * if slot.is_multiple_of(2) { 0.25 } else { -0.25 };
    let rotor = |slot: u8| lift(slot, [turn(slot), -0.5 * turn(slot), turn(7 - slot)]);
    let even = (0..SLOTS as u8).step_by(2);
    let both = even.flat_map(|slot| {
        [
            rotor(slot),
            motor(slot, [0.0, 0.0, turn(slot)]),
            rotor(slot + 1),
        ]
    });
    both.collect()
}

fn rows(rng: &mut Rng, lift: bool) -> Vec<Row> {
    match rng.below(if lift { 12 } else { 6 }) {
        0 | 1 => PLANE.to_vec(),
        2 => TAILSITTER.to_vec(),
        3 => TWICE.to_vec(),
        6 | 7 => QUADPLANE.to_vec(),
        8 => TWICE_EACH.to_vec(),
        9 => all_slots(),
        4 | 10 => (0..rng.below(17)).map(|_| row(rng, lift)).collect(),
        _ => (0..16).map(|_| row(rng, lift)).collect(),
    }
}

/// An airframe in range: five of six plausible, the others anywhere within the limits. Half of them
/// have a wash, half lift numbers.
pub fn airframe(rng: &mut Rng) -> AirframeBlock {
    let pitch_speed = rng.once_in(2);
    let plausible = !rng.once_in(6);
    let mut draw = |place: usize, plain: Range| {
        if plausible {
            rng.between(plain.0, plain.1)
        } else {
            anywhere(rng, limits::airframe(place, pitch_speed))
        }
    };
    let mut numbers = core::array::from_fn(|at| draw(at + 1, PLAUSIBLE[at]));
    let wash = core::array::from_fn(|at| draw(at + 42, PLAUSIBLE_WASH[at]));
    let mut lift = core::array::from_fn(|at| draw(at + LIFT_PLACE, PLAUSIBLE_LIFT[at]));
    if plausible && pitch_speed {
        numbers[36] = rng.between(12.0, 40.0);
    }
    numbers[35] = exponent(rng);
    lift[1] = exponent(rng);
    if rng.once_in(4) {
        lift[5] = rng.pick(&[0.0, -0.0, 10.0]);
    }
    // A soft stall, so that both sides of the blend count.
    if plausible && rng.once_in(3) {
        numbers[10] = rng.between(0.0, 4.0);
    }
    let lift = rng.once_in(2).then_some(lift);
    AirframeBlock {
        pitch_speed,
        numbers,
        wash: rng.once_in(2).then_some(wash),
        lift,
        rows: rows(rng, lift.is_some()),
    }
}

type Quaternion = [f64; 4];

fn turn(axis: usize, degrees: f64) -> Quaternion {
    let half = degrees.to_radians() / 2.0;
    let mut q = [half.cos(), 0.0, 0.0, 0.0];
    q[axis + 1] = half.sin();
    q
}

fn times(a: Quaternion, b: Quaternion) -> Quaternion {
    [
        a[0] * b[0] - a[1] * b[1] - a[2] * b[2] - a[3] * b[3],
        a[0] * b[1] + a[1] * b[0] + a[2] * b[3] - a[3] * b[2],
        a[0] * b[2] - a[1] * b[3] + a[2] * b[0] + a[3] * b[1],
        a[0] * b[3] + a[1] * b[2] - a[2] * b[1] + a[3] * b[0],
    ]
}

/// Yaw, then pitch, then roll, in degrees.
fn attitude(yaw: f64, pitch: f64, roll: f64) -> [f32; 4] {
    times(times(turn(2, yaw), turn(1, pitch)), turn(0, roll)).map(|x| x as f32)
}

fn three(rng: &mut Rng, size: f32) -> [f32; 3] {
    core::array::from_fn(|_| rng.between(-size, size))
}

fn running(rng: &mut Rng, range: Range) -> [f32; SLOTS] {
    core::array::from_fn(|_| match rng.below(8) {
        0 => range.0,
        1 => range.1,
        2 => -0.0,
        3 => f32::from_bits(rng.pick(&[1, 0x007F_FFFF, 0x0080_0000])),
        _ => rng.between(range.0, range.1),
    })
}

/// Thrust scales: in half of the states all are 1, in the others each is anywhere in its range, often
/// 0, -0, 1 or subnormal.
pub fn scales(rng: &mut Rng) -> [f32; SLOTS] {
    if rng.once_in(2) {
        return [1.0; SLOTS];
    }
    running(rng, limits::SCALE)
}

/// Puts one running value in three at the edges of a power.
pub fn put_at_edges(rng: &mut Rng, running: &mut [f32; SLOTS]) {
    for value in running {
        if rng.once_in(3) {
            *value = rng.pick(&TURNING);
        }
    }
}

/// Running values of lift rotors, whether or not there are any: in a third of the states all stand, in
/// the others each runs at any value, often at the edges of a power.
fn lifting(rng: &mut Rng) -> [f32; SLOTS] {
    if rng.once_in(3) {
        return [0.0; SLOTS];
    }
    let mut lifting = running(rng, limits::MOTOR);
    put_at_edges(rng, &mut lifting);
    lifting
}

/// A height anywhere over the table of densities and beyond it: often at a row, next to one or so near
/// that a flight crosses it, at 0 of either sign, next to it, at the table's ends, or far away.
fn height(rng: &mut Rng) -> f32 {
    let row = rng.pick(&row_heights());
    let end = rng.pick(&[ENDS_M.0, ENDS_M.1]);
    match rng.below(16) {
        0 => row,
        1 => rng.pick(&near(row, 1)),
        2 | 3 => row + rng.between(-1.0, 1.0),
        4 => rng.pick(&[0.0, -0.0]),
        5 => rng.pick(&[1.0e-9, -1.0e-9, f32::from_bits(1), -f32::from_bits(1)]),
        6 => rng.scaled(-126, 0),
        7 => rng.pick(&near(end, 2)),
        8 => rng.scaled(13, 19),
        9 => rng.between(-1.0e6, 1.0e6),
        10 => rng.pick(&TELLING_HEIGHTS),
        _ => rng.between(-2000.0, 6000.0),
    }
}

/// Puts three states of four at such a height; the others, and those at the envelope's edge, stay.
fn put_at_height(rng: &mut Rng, state: &mut State) {
    let (lowest, highest) = limits::POSITION;
    let inside = lowest < state.position[2] && state.position[2] < highest;
    if inside && !rng.once_in(4) {
        state.position[2] = -height(rng);
    }
}

/// A state within the envelope, as `state` gives them, with any thrust scales, with motors at the
/// edges of a power, with lift rotors that run, and at any height.
pub fn tired_state(rng: &mut Rng) -> State {
    let mut state = State {
        thrust_scale: scales(rng),
        lift_motors: lifting(rng),
        ..state(rng)
    };
    put_at_edges(rng, &mut state.motors);
    put_at_height(rng, &mut state);
    state
}

/// A state within the envelope: level, inverted, stalled, tail first, at rest, or at the edge. The
/// motors are as built, and the lift rotors stand.
pub fn state(rng: &mut Rng) -> State {
    let degrees = |rng: &mut Rng, low: f32, high: f32| f64::from(rng.between(low, high));
    let yaw = if rng.once_in(3) {
        0.0
    } else {
        degrees(rng, -180.0, 180.0)
    };
    let ahead = rng.between(5.0, 40.0);
    let heading = yaw.to_radians();
    let level = [
        ahead * heading.cos() as f32,
        ahead * heading.sin() as f32,
        rng.between(-2.0, 2.0),
    ];
    let mut state = State {
        position: three(rng, 500.0),
        velocity: level,
        attitude: attitude(yaw, degrees(rng, -5.0, 10.0), degrees(rng, -20.0, 20.0)),
        rates: three(rng, 1.0),
        motors: running(rng, limits::MOTOR),
        servos: running(rng, limits::SERVO),
        thrust_scale: [1.0; SLOTS],
        lift_motors: [0.0; SLOTS],
    };
    match rng.below(8) {
        0 => state.attitude = attitude(yaw, degrees(rng, -5.0, 5.0), 180.0),
        1 => state.attitude = attitude(yaw, degrees(rng, 15.0, 80.0), degrees(rng, -90.0, 90.0)),
        2 | 5 => tail_first(rng, &mut state),
        3 => at_rest(rng, &mut state),
        4 => at_edge(rng, &mut state),
        _ => {}
    }
    state
}

/// Nose up and sinking, the air from behind.
fn tail_first(rng: &mut Rng, state: &mut State) {
    state.attitude = attitude(0.0, f64::from(rng.between(80.0, 100.0)), 0.0);
    state.velocity = [0.0, rng.between(-1.0, 1.0), rng.between(0.0, 12.0)];
}

fn at_rest(rng: &mut Rng, state: &mut State) {
    state.velocity = [rng.pick(&[0.0, -0.0, 1.0e-45, 1.0e-30, 1.0e-20]), 0.0, 0.0];
    state.rates = [0.0, rng.pick(&[0.0, -0.0, 1.0e-7, 3.0e-5]), 0.0];
    state.attitude = rng.pick(&[
        [1.0, 0.0, 0.0, 0.0],
        [-1.0, 0.0, -0.0, 0.0],
        [0.0, 1.0, 0.0, 0.0],
    ]);
}

/// Some of the numbers at the envelope's edge, the quaternion's norm too.
fn at_edge(rng: &mut Rng, state: &mut State) {
    let edge = |rng: &mut Rng, old: f32, range: Range| match rng.below(4) {
        0 => range.0,
        1 => range.1,
        _ => old,
    };
    match rng.below(3) {
        0 => state.position = state.position.map(|x| edge(rng, x, limits::POSITION)),
        1 => state.velocity = state.velocity.map(|x| edge(rng, x, limits::VELOCITY)),
        _ => state.rates = state.rates.map(|x| edge(rng, x, limits::RATE)),
    }
    let norm = rng.pick(&[0.9f64, 0.901, 1.0, 1.05, 1.1]).sqrt();
    let scaled = state.attitude.map(|x| (f64::from(x) * norm) as f32);
    let edged = State {
        attitude: scaled,
        ..*state
    };
    if edged.inside() {
        *state = edged;
    }
}

fn special(rng: &mut Rng) -> f32 {
    f32::from_bits(rng.pick(&SPECIAL))
}

/// A command: plausible ones in `range`, others of any kind.
fn command(rng: &mut Rng, range: Range) -> f32 {
    match rng.below(10) {
        0 => special(rng),
        1 => rng.scaled(-4, 6),
        2 => rng.bits(),
        _ => rng.between(range.0, range.1),
    }
}

fn step(rng: &mut Rng) -> f32 {
    match rng.below(16) {
        0 => rng.pick(&[0.0, -0.0, 0.0201, -0.01, 1.0, f32::NAN, f32::INFINITY]),
        1 => rng.pick(&[
            limits::STEP_S.0.next_down(),
            limits::STEP_S.1.next_up(),
            1.0e-40,
        ]),
        2 => rng.pick(&[limits::STEP_S.0, limits::STEP_S.1]),
        3 => rng.between(limits::STEP_S.0, limits::STEP_S.1),
        4..8 => 1.0 / 256.0,
        8..12 => 0.01,
        _ => 1.0 / 64.0,
    }
}

/// A component of the wind at its limits: the last floats that pass, and the first that do not.
fn gust(rng: &mut Rng) -> f32 {
    let (low, high) = limits::WIND_MPS;
    match rng.below(8) {
        0..4 => rng.pick(&[low, low.next_up(), high.next_down(), high]),
        _ => outside(rng, limits::WIND_MPS),
    }
}

/// A light wind with a gust in one component.
fn gusty(rng: &mut Rng) -> [f32; 3] {
    let mut wind = three(rng, 12.0);
    wind[rng.below(3)] = gust(rng);
    wind
}

/// Any wind, most of them usable.
fn wind(rng: &mut Rng) -> [f32; 3] {
    match rng.below(16) {
        0 => gusty(rng),
        1 => [special(rng), rng.between(-3.0, 3.0), 0.0],
        2 => [special(rng), special(rng), special(rng)],
        3 => core::array::from_fn(|_| rng.scaled(-30, 6)),
        4 => core::array::from_fn(|_| rng.scaled(4, 8)),
        5 => three(rng, limits::WIND_MPS.1),
        6..11 => [0.0; 3],
        _ => three(rng, 12.0),
    }
}

/// The 20 numbers of a tick. `calm` keeps to plausible winds and commands.
pub fn tick(rng: &mut Rng, calm: bool) -> [f32; TICK_NUMBERS] {
    let mut tick = [0.0; TICK_NUMBERS];
    tick[0] = if calm { 0.01 } else { step(rng) };
    let wind = if calm { three(rng, 4.0) } else { wind(rng) };
    tick[1..4].copy_from_slice(&wind);
    for at in 4..TICK_NUMBERS {
        let range = if at < 12 {
            limits::MOTOR
        } else {
            limits::SERVO
        };
        tick[at] = if calm {
            rng.between(range.0, range.1)
        } else {
            command(rng, range)
        };
    }
    tick
}

/// A whole input of fly: an airframe, a state and up to `most` ticks, every third one calm.
pub fn flight(rng: &mut Rng, most: usize) -> Vec<u8> {
    let calm = rng.once_in(3);
    let mut bytes = airframe(rng).bytes();
    bytes.extend(state_bytes(&tired_state(rng)));
    for _ in 0..1 + rng.below(most) {
        push(&mut bytes, &tick(rng, calm));
    }
    bytes
}

/// A calm tick; where `steps` vary, its step is any that is accepted.
fn calm_tick(rng: &mut Rng, steps: bool) -> [f32; TICK_NUMBERS] {
    let (least, most) = limits::STEP_S;
    let mut calm = tick(rng, true);
    if steps {
        let any = rng.between(least, most);
        calm[0] = rng.pick(&[least, most, 1.0 / 256.0, 0.01, any]);
    }
    calm
}

/// A long input of fly: up to `most` ticks, mostly calm ones, each held for a while. Now and then a
/// wild one comes between; one flight in five has wild ticks only. In every other flight the step
/// changes with the tick that is held. In one flight of four one tick in eight is in a gust.
pub fn long_flight(rng: &mut Rng, most: usize) -> Vec<u8> {
    let wild_once_in = rng.pick(&[1, 8, 32, 128, 1024]);
    let held_once_in = rng.pick(&[2, 16, 64]);
    let gust_once_in = rng.pick(&[8, 128, 1024, 1024]);
    let steps = rng.once_in(2);
    let mut bytes = airframe(rng).bytes();
    bytes.extend(state_bytes(&tired_state(rng)));
    let mut held = calm_tick(rng, steps);
    for _ in 0..1 + rng.below(most) {
        if rng.once_in(held_once_in) {
            held = calm_tick(rng, steps);
        }
        let wild = rng.once_in(wild_once_in);
        let mut one = if wild { tick(rng, false) } else { held };
        if rng.once_in(gust_once_in) {
            one[1 + rng.below(3)] = gust(rng);
        }
        push(&mut bytes, &one);
    }
    bytes
}

/// An input damaged in one place.
pub fn damaged(rng: &mut Rng) -> Vec<u8> {
    let airframe = airframe(rng);
    match rng.below(12) {
        0 => bad_header(rng, airframe),
        1 | 2 => bad_row(rng, airframe),
        3..6 => bad_number(rng, airframe),
        6 | 7 => bad_state(rng, airframe),
        8 => older(rng, airframe),
        _ => cut(rng, airframe),
    }
}

fn with_state_and_tick(rng: &mut Rng, airframe: &AirframeBlock) -> Vec<u8> {
    let mut bytes = airframe.bytes();
    bytes.extend(state_bytes(&tired_state(rng)));
    push(&mut bytes, &any_tick(rng));
    bytes
}

/// A calm or a wild tick.
fn any_tick(rng: &mut Rng) -> [f32; TICK_NUMBERS] {
    let calm = rng.once_in(2);
    tick(rng, calm)
}

/// Version, falloff kind, a reserved bit, lift numbers that are there or not, or the row count; now
/// and then two of them.
fn bad_header(rng: &mut Rng, airframe: AirframeBlock) -> Vec<u8> {
    let mut bytes = with_state_and_tick(rng, &airframe);
    for _ in 0..1 + rng.below(2) {
        match rng.below(4) {
            0 => bytes[0] ^= 1 << (4 + rng.below(4)),
            1 => bytes[0] |= 0b1000,
            2 if rng.once_in(2) => bytes[0] ^= 1,
            2 => bytes[1] |= 1 << (5 + rng.below(3)),
            _ => bytes[1] = bytes[1] & 0xE0 | (17 + rng.below(15)) as u8,
        }
    }
    let kept = rng.pick(&[2, 3, bytes.len()]);
    bytes.truncate(kept);
    bytes
}

/// A reserved bit in a row, or a bad factor. The bit of a lift rotor comes up as often as the other
/// three: on a servo's row, and on a motor's with and without lift numbers.
fn bad_row(rng: &mut Rng, mut airframe: AirframeBlock) -> Vec<u8> {
    let any = row(rng, airframe.lift.is_some());
    airframe.rows.push(any);
    airframe.rows.truncate(16);
    let at = rng.below(airframe.rows.len());
    if rng.once_in(2) {
        let bad = rng.pick(&[0.0099, 10.1, -1.0e-30, f32::NAN, f32::INFINITY, 1.0e-45]);
        airframe.rows[at].factors[rng.below(3)] = bad;
        return with_state_and_tick(rng, &airframe);
    }
    let head = airframe.bytes().len() - 13 * (airframe.rows.len() - at);
    let mut bytes = with_state_and_tick(rng, &airframe);
    bytes[head] |= 1 << rng.pick(&[0, 1, 2, 3, 3, 3]);
    bytes
}

/// A number just outside its range, or none at all.
fn outside(rng: &mut Rng, range: Range) -> f32 {
    match rng.below(6) {
        0 => f32::NAN,
        1 => rng.pick(&[f32::INFINITY, f32::NEG_INFINITY]),
        2 | 3 => range.0.next_down(),
        _ => range.1.next_up(),
    }
}

/// One or two airframe numbers out of range, one in three of them the lift rotors'; now and then a
/// row's factor besides.
fn bad_number(rng: &mut Rng, mut airframe: AirframeBlock) -> Vec<u8> {
    for _ in 0..1 + rng.below(2) {
        let place = if rng.once_in(3) {
            LIFT_PLACE + rng.below(LIFT_NUMBERS)
        } else {
            1 + rng.below(48)
        };
        let bad = outside(rng, limits::airframe(place, airframe.pitch_speed));
        if !airframe.set(place, bad) {
            airframe.numbers[36] = bad;
        }
    }
    if rng.once_in(8) {
        airframe
            .rows
            .iter_mut()
            .take(1)
            .for_each(|row| row.factors[1] = 10.5);
    }
    with_state_and_tick(rng, &airframe)
}

fn bad_state(rng: &mut Rng, airframe: AirframeBlock) -> Vec<u8> {
    let mut state = tired_state(rng);
    let (axis, slot) = (rng.below(3), rng.below(SLOTS));
    match rng.below(10) {
        0 => state.position[axis] = outside(rng, limits::POSITION),
        1 => state.velocity[axis] = outside(rng, limits::VELOCITY),
        2 => state.rates[axis] = outside(rng, limits::RATE),
        3 => {
            state.attitude = rng.pick(&[[0.9, 0.0, 0.0, 0.0], [0.8, 0.7, 0.0, 0.0], [f32::NAN; 4]])
        }
        4 => state.motors[slot] = outside(rng, limits::MOTOR),
        5 => state.servos[slot] = outside(rng, limits::SERVO),
        6 | 7 => state.lift_motors[slot] = outside(rng, limits::MOTOR),
        _ => state.thrust_scale[slot] = outside(rng, limits::SCALE),
    }
    let mut bytes = airframe.bytes();
    bytes.extend(state_bytes(&state));
    push(&mut bytes, &any_tick(rng));
    bytes
}

/// A state of 148 or 116 bytes, with ticks behind it.
fn older(rng: &mut Rng, airframe: AirframeBlock) -> Vec<u8> {
    let kept = rng.pick(&[NO_LIFT_BYTES, UNSCALED_BYTES]);
    let mut bytes = airframe.bytes();
    bytes.extend(&state_bytes(&tired_state(rng))[..kept]);
    for _ in 0..1 + rng.below(3) {
        push(&mut bytes, &any_tick(rng));
    }
    bytes
}

/// Cut or drawn out around a boundary.
fn cut(rng: &mut Rng, airframe: AirframeBlock) -> Vec<u8> {
    let mut bytes = with_state_and_tick(rng, &airframe);
    let end = airframe.bytes().len();
    let states = [UNSCALED_BYTES, NO_LIFT_BYTES, STATE_BYTES].map(|bytes| end + bytes);
    let [unscaled, unlifted, ticks] = states;
    let boundary = rng.pick(&[
        0,
        2,
        166,
        end,
        unscaled,
        unlifted,
        ticks,
        ticks + TICK_BYTES,
    ]);
    let length = (boundary + rng.below(3)).saturating_sub(1);
    bytes.resize(length, 0);
    bytes
}

/// The input with number `index` from `seed`: two whole flights, then a damaged one.
pub fn input(seed: u64, index: u64) -> Vec<u8> {
    let mut rng = Rng::new(seed ^ index.wrapping_mul(0xD134_2543_DE82_EF95));
    if index % 3 == 2 {
        damaged(&mut rng)
    } else {
        flight(&mut rng, 24)
    }
}
