//! Airframes made by hand: rows of 145 numbers that no block gives, for the prepared tick. A case is
//! 210 numbers: the airframe's, the state's and the tick's.

use std::fs;
use std::io;
use std::path::{Path, PathBuf};

use bench::raw;
use oracle::arguments::SPECIAL;
use oracle::blocks::{LIFT_PLACE, SLOTS, STATE_NUMBERS, TICK_NUMBERS, read_airframe};
use oracle::inputs;
use oracle::limits::{self, Range};
use oracle::rng::Rng;
use oracle::rows::{AIRFRAME_ROW, LIFT_MOTORS_AT, SCALES_AT, StateRow};
use oracle::rows::{FALLOFF_AT, LIFT_AT, LIFT_FLAG_AT, LIFT_TORQUES_AT, LIFT_USED_AT};
use oracle::rows::{TORQUES_AT, USED_AT, WEIGHTS_AT};
use oracle::rows::{airframe_of, airframe_row, state_of, state_row, tick_of};
use oracle::tick::{Report, tick};
use oracle::words::case;

use super::figures::Figures;
use super::ticks::Side;
use crate::shrink;

const STATE_AT: usize = AIRFRAME_ROW;
const TICK_AT: usize = STATE_AT + STATE_NUMBERS;
const NUMBERS: usize = TICK_AT + TICK_NUMBERS;
const TICKS: usize = 8;

type Case = [f32; NUMBERS];

/// The numbers of `case` from `at` on.
fn part<const N: usize>(case: &Case, at: usize) -> [f32; N] {
    core::array::from_fn(|place| case[at + place])
}

/// What the oracle reports and hands back.
fn expected(case: &Case) -> (Report, StateRow) {
    let airframe = airframe_of(&part(case, 0));
    let state = state_of(&part(case, STATE_AT));
    let (report, next) = tick(&airframe, &state, &tick_of(&part(case, TICK_AT)));
    (report, state_row(&next))
}

fn differs(case: &Case, report: &Report, next: &StateRow) -> bool {
    let mut side = Side::new(part(case, STATE_AT), is_set(case[LIFT_FLAG_AT]));
    side.call(|state, report| {
        raw::tick_prepared(&case[..STATE_AT], state, &case[TICK_AT..], report)
    });
    !side.gave(report, next)
}

/// A number near `range`'s limits, in or out of it, or any at all.
fn near(rng: &mut Rng, (low, high): Range) -> f32 {
    match rng.below(12) {
        0 => low.next_down(),
        1 => high.next_up(),
        2 => f32::from_bits(rng.pick(&SPECIAL)),
        3 | 4 => low,
        5 | 6 => high,
        _ => rng.between(low, high),
    }
}

/// A flag of a row: either zero is no, every other number and NaN is yes.
fn is_set(number: f32) -> bool {
    number != 0.0
}

/// Changes one number of an airframe's row.
fn change(rng: &mut Rng, row: &mut [f32]) {
    let pitch_speed = is_set(row[FALLOFF_AT]);
    let at = rng.below(STATE_AT);
    row[at] = match at {
        ..FALLOFF_AT => near(rng, limits::airframe(at + 1, pitch_speed)),
        ..TORQUES_AT | LIFT_FLAG_AT..LIFT_TORQUES_AT => {
            rng.pick(&[0.0, -0.0, 1.0, f32::NAN, -2.0, 1.0e-45])
        }
        ..WEIGHTS_AT => near(rng, limits::TORQUE),
        ..LIFT_AT => near(rng, limits::WEIGHT),
        ..LIFT_FLAG_AT => near(
            rng,
            limits::airframe(LIFT_PLACE + at - LIFT_AT, pitch_speed),
        ),
        _ => near(rng, limits::TORQUE),
    };
}

/// Torques and weights that no rows give.
fn skew(rng: &mut Rng, row: &mut [f32]) {
    for at in [USED_AT, LIFT_USED_AT] {
        for number in &mut row[at..at + SLOTS] {
            *number = rng.pick(&[0.0, 1.0]);
        }
    }
    for (from, to) in [(TORQUES_AT, LIFT_AT), (LIFT_TORQUES_AT, STATE_AT)] {
        for number in &mut row[from..to] {
            *number = rng.between(-2.0, 2.0);
        }
    }
}

/// Takes the lift flag away and leaves the rest, of which a number or a torque is then none at all; or
/// sets the flag over what was there without it.
fn unflag(rng: &mut Rng, row: &mut [f32]) {
    if !is_set(row[LIFT_FLAG_AT]) {
        row[LIFT_FLAG_AT] = rng.pick(&[1.0, f32::NAN, -1.0]);
        return;
    }
    row[LIFT_FLAG_AT] = rng.pick(&[0.0, -0.0]);
    let any = LIFT_USED_AT + rng.below(STATE_AT - LIFT_USED_AT);
    let number = LIFT_AT + rng.below(LIFT_FLAG_AT - LIFT_AT);
    row[any] = rng.pick(&[f32::NAN, 101.0, f32::INFINITY]);
    row[number] = rng.pick(&[-0.001, f32::NAN, 1.0e30]);
}

fn airframe(rng: &mut Rng, row: &mut [f32]) {
    // What the generator makes is in range, so it is read.
    if let Ok(airframe) = read_airframe(&inputs::airframe(rng).bytes()) {
        row.copy_from_slice(&airframe_row(&airframe));
    }
    if rng.once_in(2) {
        skew(rng, row);
    }
    if rng.once_in(6) {
        unflag(rng, row);
    }
    for _ in 0..rng.below(4) {
        change(rng, row);
    }
}

fn state(rng: &mut Rng, row: &mut [f32]) {
    row.copy_from_slice(&state_row(&inputs::tired_state(rng)));
    if rng.once_in(8) {
        row[rng.below(STATE_NUMBERS)] = f32::from_bits(rng.pick(&SPECIAL));
    }
    if rng.once_in(8) {
        row[SCALES_AT + rng.below(SLOTS)] = near(rng, limits::SCALE);
    }
    if rng.once_in(8) {
        row[LIFT_MOTORS_AT + rng.below(SLOTS)] = near(rng, limits::MOTOR);
    }
}

fn next_tick(rng: &mut Rng, row: &mut [f32]) {
    let calm = !rng.once_in(4);
    row.copy_from_slice(&inputs::tick(rng, calm));
}

/// Flies some ticks of one airframe from `seed`; the case that differs, where one does.
pub fn differing(seed: u64, figures: &mut Figures) -> Option<Vec<f32>> {
    let rng = &mut Rng::new(seed);
    let mut case = [0.0; NUMBERS];
    airframe(rng, &mut case[..STATE_AT]);
    state(rng, &mut case[STATE_AT..TICK_AT]);
    for _ in 0..TICKS {
        next_tick(rng, &mut case[TICK_AT..]);
        let (report, next) = expected(&case);
        let (airframe, next_state) = (airframe_of(&part(&case, 0)), state_of(&next));
        let (start, tick) = (state_of(&part(&case, STATE_AT)), part(&case, TICK_AT));
        figures.ticked(
            &report,
            Some(&airframe),
            start.height_m(),
            &next_state,
            &tick,
        );
        if differs(&case, &report, &next) {
            return Some(case.to_vec());
        }
        case[STATE_AT..TICK_AT].copy_from_slice(&next);
    }
    None
}

fn still_differs(numbers: &[f32]) -> bool {
    let Ok(case) = numbers.try_into() else {
        return false;
    };
    let (report, next) = expected(case);
    differs(case, &report, &next)
}

/// Writes the smallest case found: its numbers and the oracle's reply.
pub fn write(numbers: Vec<f32>, folder: &Path) -> io::Result<PathBuf> {
    let numbers = shrink::numbers(numbers, still_differs);
    let mut text = format!(
        "# a prepared tick: {AIRFRAME_ROW} + {STATE_NUMBERS} + {TICK_NUMBERS} numbers > the oracle's \
         state\n"
    );
    if let Ok(shown) = numbers.as_slice().try_into() {
        let (report, next) = expected(shown);
        text += &format!("# the oracle reports {report:?}\n{}\n", case(shown, &next));
    }
    let file = folder.join("difference-library-row.txt");
    fs::write(&file, text)?;
    Ok(file)
}
