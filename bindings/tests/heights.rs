//! The air's density by height: the rows of its table, the heights between and beyond them, and that a
//! tick has the density of the height where it starts.

use bench::{AIRFRAME_NUMBERS, REPORT_NUMBERS, STATE_NUMBERS, STATE_POSITION, STATE_VELOCITY, State};
use bench::{TICK_STEP, density, place, raw};

use crate::{calm, sample};

const SEA_LEVEL: f32 = 1.225;
/// The ends of the table, with their densities.
const FOOT: (f32, f32) = (-1000.0, 1.3470);
const TOP: (f32, f32) = (5000.0, 0.7361);

/// ISO 2533's law at a geopotential height, rounded to four decimals.
fn law(height_m: f64) -> f32 {
    let share = 1.0 - 0.0065 * height_m / 288.15;
    ((1.225 * share.powf(4.25588) * 10_000.0).round() / 10_000.0) as f32
}

fn row_heights() -> impl Iterator<Item = f32> {
    (0..61).map(|row| FOOT.0 + 100.0 * row as f32)
}

#[test]
fn rows_are_the_law_to_four_decimals() {
    for height in row_heights() {
        assert_eq!(density(height), law(f64::from(height)), "at {height} m");
    }
    assert_eq!((density(0.0), density(-0.0)), (SEA_LEVEL, SEA_LEVEL));
}

/// From row to row a height each 0.1 m, and the floats next to each row.
#[test]
fn the_density_never_grows_and_never_leaves_its_two_rows() {
    for height in row_heights().take(60) {
        let (thick, thin) = (density(height), density(height + 100.0));
        let mut below = density(height.next_down());
        let tenths = (0..1000).map(|at| height + 0.1 * at as f32);
        for here in tenths.chain([(height + 100.0).next_down(), height + 100.0]) {
            let value = density(here);
            assert!(thin <= value && value <= thick, "{value} at {here} m");
            assert!(value <= below, "{value} at {here} m");
            below = value;
        }
    }
}

#[test]
fn beyond_the_ends_it_is_the_end_s() {
    for beyond in [0.0, 1.0, 1.0e6, f32::MAX, f32::INFINITY] {
        assert_eq!(density(FOOT.0 - beyond), FOOT.1);
        assert_eq!(density(TOP.0 + beyond), TOP.1);
    }
    assert!(density(f32::NAN).is_nan());
}

/// An airframe of 1 everywhere that its limits want more than 0, whose nose goes up by the pressure alone.
fn pitching() -> [f32; AIRFRAME_NUMBERS] {
    let mut numbers = [0.0; AIRFRAME_NUMBERS];
    for one in [
        place::MASS_KG,
        place::INERTIA_KGM2_ROLL,
        place::INERTIA_KGM2_PITCH,
        place::INERTIA_KGM2_YAW,
        place::WING_AREA_M2,
        place::SPAN_M,
        place::CHORD_M,
        place::OSWALD,
        place::C_PITCH_0,
        place::SERVO_TIME_CONSTANT_S,
        place::MAX_THRUST_N,
        place::TIME_CONSTANT_S,
    ] {
        numbers[one as usize - 1] = 1.0;
    }
    numbers[place::THRUST_EXPONENT as usize - 1] = 2.0;
    numbers
}

/// 4 m/s ahead at this height, level.
fn ahead(height_m: f32) -> State {
    let mut state = [0.0; STATE_NUMBERS];
    state[STATE_POSITION + 2] = -height_m;
    state[STATE_VELOCITY] = 4.0;
    state[bench::STATE_ATTITUDE] = 1.0;
    bench::motors_as_built(&mut state);
    state
}

/// The density by which the nose goes up: the torque is 8 times as much, the pitch rate after 1/64 s an
/// eighth.
fn pressed(height_m: f32) -> f32 {
    let (mut state, mut report) = (ahead(height_m), [0.0; REPORT_NUMBERS]);
    let mut tick = calm();
    tick[TICK_STEP] = 1.0 / 64.0;
    assert_eq!(raw::tick_prepared(&pitching(), &mut state, &tick, &mut report), 0);
    8.0 * state[bench::STATE_RATES + 1]
}

#[test]
fn a_tick_has_the_density_where_it_starts() {
    let others = [-50.0, -1.0e-9, 99.99999, 1234.5, 2491.0, 3791.0, -1500.0, 9000.0, -1.0e6, 1.0e6];
    for height in row_heights().chain(others) {
        assert_eq!(pressed(height), density(height), "from {height} m");
    }
}

/// 0 and -0, and the floats next to them, which the table's line rounds away.
#[test]
fn at_sea_level_a_tick_is_what_it_was() {
    for height in [0.0, -0.0, 1.0e-45, -1.0e-45, 1.0e-9, -1.0e-9] {
        assert_eq!(pressed(height), SEA_LEVEL);
    }
}

/// From a high field, over rows of the table, the pair mirrors: east, i, k, p and r are opposite.
#[test]
fn a_pair_from_a_high_field_mirrors() {
    let sample = sample();
    for height in [120.0, 3500.0, 5000.5, -999.5] {
        let mut start = sample.state;
        start[STATE_POSITION + 2] = -height;
        let (run, reflected) = sample.airframe.mirrored_pair(&start, &sample.trace).expect("a whole trace");
        let opposite = [1, 4, 7, 9, 10, 12];
        for (at, (one, other)) in run.state.iter().zip(reflected.state).enumerate() {
            let turned = if opposite.contains(&at) { -other } else { other };
            assert_eq!(*one, turned, "number {at} from {height} m");
        }
        assert_eq!(run.accepted, reflected.accepted);
    }
}
