//! The library's rows of numbers: an airframe's 145, a state's 45, a tick's 20, a report's 3. A second
//! reading of include/bench.h.

use stable_flight::Vec3;

use crate::blocks::{
    AIRFRAME_NUMBERS, Airframe, LIFT_NUMBERS, SLOTS, STATE_NUMBERS, State, TICK_NUMBERS, Tick,
    WASH_NUMBERS,
};

/// How many numbers an airframe's and a report's row have.
pub const AIRFRAME_ROW: usize = 145;
pub const REPORT_ROW: usize = 3;

pub type AirframeRow = [f32; AIRFRAME_ROW];
pub type StateRow = [f32; STATE_NUMBERS];
pub type TickRow = [f32; TICK_NUMBERS];

/// Where the thrust scales of a state's row start, and the lift rotors' running values.
pub const SCALES_AT: usize = 29;
pub const LIFT_MOTORS_AT: usize = 37;

/// Where the parts of an airframe's row start, behind the numbers with places 1 to 48.
pub const FALLOFF_AT: usize = AIRFRAME_NUMBERS + WASH_NUMBERS;
pub const WASH_AT: usize = FALLOFF_AT + 1;
pub const USED_AT: usize = WASH_AT + 1;
pub const TORQUES_AT: usize = USED_AT + SLOTS;
pub const WEIGHTS_AT: usize = TORQUES_AT + 3 * SLOTS;
pub const LIFT_AT: usize = WEIGHTS_AT + 3 * SLOTS;
pub const LIFT_FLAG_AT: usize = LIFT_AT + LIFT_NUMBERS;
pub const LIFT_USED_AT: usize = LIFT_FLAG_AT + 1;
pub const LIFT_TORQUES_AT: usize = LIFT_USED_AT + SLOTS;

/// `N` numbers of `row` from `at` on.
fn part<const N: usize>(row: &[f32], at: usize) -> [f32; N] {
    core::array::from_fn(|place| row[at + place])
}

fn put(row: &mut [f32], at: usize, numbers: &[f32]) {
    row[at..at + numbers.len()].copy_from_slice(numbers);
}

fn put_vectors(row: &mut [f32], at: usize, vectors: &[Vec3; SLOTS]) {
    for (slot, v) in vectors.iter().enumerate() {
        put(row, at + 3 * slot, &[v.x, v.y, v.z]);
    }
}

fn vectors(row: &[f32], at: usize) -> [Vec3; SLOTS] {
    core::array::from_fn(|slot| {
        let [x, y, z] = part(row, at + 3 * slot);
        Vec3::new(x, y, z)
    })
}

fn flag(set: bool) -> f32 {
    if set { 1.0 } else { 0.0 }
}

/// Either zero is no, every other number and NaN is yes.
fn is_set(number: f32) -> bool {
    number != 0.0
}

pub fn airframe_row(airframe: &Airframe) -> AirframeRow {
    let mut row = [0.0; AIRFRAME_ROW];
    put(&mut row, 0, &airframe.numbers);
    put(
        &mut row,
        AIRFRAME_NUMBERS,
        &airframe.wash.unwrap_or_default(),
    );
    row[FALLOFF_AT] = flag(airframe.pitch_speed);
    row[WASH_AT] = flag(airframe.wash.is_some());
    put(&mut row, USED_AT, &airframe.used.map(flag));
    put_vectors(&mut row, TORQUES_AT, &airframe.torques);
    put_vectors(&mut row, WEIGHTS_AT, &airframe.weights);
    put(&mut row, LIFT_AT, &airframe.lift.unwrap_or_default());
    row[LIFT_FLAG_AT] = flag(airframe.lift.is_some());
    put(&mut row, LIFT_USED_AT, &airframe.lift_used.map(flag));
    put_vectors(&mut row, LIFT_TORQUES_AT, &airframe.lift_torques);
    row
}

pub fn airframe_of(row: &AirframeRow) -> Airframe {
    Airframe {
        pitch_speed: is_set(row[FALLOFF_AT]),
        numbers: part(row, 0),
        wash: is_set(row[WASH_AT]).then(|| part(row, AIRFRAME_NUMBERS)),
        used: part::<SLOTS>(row, USED_AT).map(is_set),
        torques: vectors(row, TORQUES_AT),
        weights: vectors(row, WEIGHTS_AT),
        lift: is_set(row[LIFT_FLAG_AT]).then(|| part(row, LIFT_AT)),
        lift_used: part::<SLOTS>(row, LIFT_USED_AT).map(is_set),
        lift_torques: vectors(row, LIFT_TORQUES_AT),
    }
}

pub fn state_row(state: &State) -> StateRow {
    let mut row = [0.0; STATE_NUMBERS];
    put(&mut row, 0, &state.position);
    put(&mut row, 3, &state.velocity);
    put(&mut row, 6, &state.attitude);
    put(&mut row, 10, &state.rates);
    put(&mut row, 13, &state.motors);
    put(&mut row, 21, &state.servos);
    put(&mut row, SCALES_AT, &state.thrust_scale);
    put(&mut row, LIFT_MOTORS_AT, &state.lift_motors);
    row
}

pub fn state_of(row: &StateRow) -> State {
    State {
        position: part(row, 0),
        velocity: part(row, 3),
        attitude: part(row, 6),
        rates: part(row, 10),
        motors: part(row, 13),
        servos: part(row, 21),
        thrust_scale: part(row, SCALES_AT),
        lift_motors: part(row, LIFT_MOTORS_AT),
    }
}

pub fn tick_row(tick: &Tick) -> TickRow {
    let mut row = [0.0; TICK_NUMBERS];
    row[0] = tick.step;
    put(&mut row, 1, &tick.wind);
    put(&mut row, 4, &tick.motors);
    put(&mut row, 12, &tick.servos);
    row
}

pub fn tick_of(row: &TickRow) -> Tick {
    Tick {
        step: row[0],
        wind: part(row, 1),
        motors: part(row, 4),
        servos: part(row, 12),
    }
}
