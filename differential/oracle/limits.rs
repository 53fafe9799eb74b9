//! Document 01's limits, and document 02's of the wind, the thrust scales, the thrust exponent and the
//! lift rotors. NaN is outside all of them; -0 is 0.

/// Wrong length.
pub const LENGTH: u8 = 1;
pub const VERSION: u8 = 2;
pub const FALLOFF_KIND: u8 = 3;
pub const RESERVED: u8 = 4;
pub const ROW_COUNT: u8 = 5;
pub const AIRFRAME: u8 = 6;
pub const STATE: u8 = 7;
pub const STEP: u8 = 8;
pub const DEPARTURE: u8 = 9;
pub const WIND: u8 = 10;

pub type Range = (f32, f32);

pub fn within(number: f32, (low, high): Range) -> bool {
    low <= number && number <= high
}

const COEFFICIENT: Range = (-100.0, 100.0);
const SHARE: Range = (0.0, 1.0);
const TIME_CONSTANT: Range = (0.001, 10.0);
const DEFLECTION: Range = (-1.6, 1.6);

/// The range of the airframe number at `place`, 1 to 48 and 52 to 57; wash from 42 on, lift rotors
/// from 52 on.
pub fn airframe(place: usize, pitch_speed: bool) -> Range {
    match place {
        1 => (0.01, 1000.0),
        2..=4 => (0.0001, 1000.0),
        5 => (0.01, 100.0),
        6 => (0.1, 100.0),
        7 => (0.01, 10.0),
        10 => (0.0, 1.6),
        11 => (0.0, 1000.0),
        13 => (0.1, 2.0),
        23 | 26 => SHARE,
        8..=30 => COEFFICIENT,
        31..=33 => DEFLECTION,
        34 | 39 => TIME_CONSTANT,
        35 => (0.01, 10000.0),
        36 => (1.0, 3.0),
        37 if pitch_speed => (0.1, 10000.0),
        37 => (0.0, 10000.0),
        38 => (-10.0, 10.0),
        40 => (0.0, 10.0),
        41 => (-10.0, 10.0),
        42 => (0.001, 100.0),
        43 | 44 => (0.0, 10.0),
        45 | 46 => (-100.0, 100.0),
        47 | 48 => (0.0, 10.0),
        52 => (0.01, 10000.0),
        53 => (1.0, 3.0),
        54 => (0.0, 10.0),
        55 => (-10.0, 10.0),
        56 => TIME_CONSTANT,
        57 => (0.0, 10.0),
        _ => panic!("no airframe number has place {place}"),
    }
}

/// Where bad row factors, motor torques, surface weights and lift rotors' torques are reported.
pub const ROW_PLACE: u8 = 49;
pub const TORQUE_PLACE: u8 = 50;
pub const WEIGHT_PLACE: u8 = 51;
pub const LIFT_TORQUE_PLACE: u8 = 58;

pub const TORQUE: Range = (-100.0, 100.0);
pub const WEIGHT: Range = (-101.0, 101.0);

/// A row factor is 0 or of size 0.01 to 10.
pub fn row_factor(factor: f32) -> bool {
    factor == 0.0 || within(factor.abs(), (0.01, 10.0))
}

pub const POSITION: Range = (-1_000_000.0, 1_000_000.0);
pub const VELOCITY: Range = (-1000.0, 1000.0);
pub const RATE: Range = (-100.0, 100.0);
pub const NORM: Range = (0.9, 1.1);
/// A running value of a motor of either group.
pub const MOTOR: Range = (0.0, 1.0);
pub const SERVO: Range = (-1.0, 1.0);
/// Each motor's thrust scale.
pub const SCALE: Range = (0.0, 1.0);
pub const STEP_S: Range = (1.0 / 1024.0, 0.02);
/// Each component of a tick's wind.
pub const WIND_MPS: Range = (-200.0, 200.0);

/// Whether a tick can be flown in this wind.
pub fn wind(components: [f32; 3]) -> bool {
    components.iter().all(|x| within(*x, WIND_MPS))
}
