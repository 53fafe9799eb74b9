//! Arguments for the elementary functions and the density: the special numbers, the neighbours of every
//! branch point, and seeded random ones.

use crate::density::{ENDS_M, table};
use crate::rng::Rng;

/// Zeros, subnormals, ones, the largest, infinities and NaNs of either sign.
pub const SPECIAL: [u32; 30] = [
    0x0000_0000,
    0x8000_0000,
    0x0000_0001,
    0x8000_0001,
    0x0000_0002,
    0x0040_0000,
    0x8040_0000,
    0x007F_FFFF,
    0x807F_FFFF,
    0x0080_0000,
    0x8080_0000,
    0x0080_0001,
    0x3F80_0000,
    0xBF80_0000,
    0x3F00_0000,
    0xBF00_0000,
    0x4000_0000,
    0xC000_0000,
    0x7F7F_FFFF,
    0xFF7F_FFFF,
    0x7F80_0000,
    0xFF80_0000,
    0x7FC0_0000,
    0xFFC0_0000,
    0x7F80_0001,
    0xFF80_0001,
    0x7FFF_FFFF,
    0xFFFF_FFFF,
    0x7F00_0000,
    0x3EAA_AAAB,
];

/// `x` and its `count` nearest neighbours on each side.
pub fn near(x: f32, count: u32) -> Vec<f32> {
    let mut all = vec![x];
    let (mut down, mut up) = (x, x);
    for _ in 0..count {
        down = down.next_down();
        up = up.next_up();
        all.push(down);
        all.push(up);
    }
    all
}

fn near_each(points: &[f32], count: u32) -> Vec<f32> {
    points.iter().flat_map(|x| near(*x, count)).collect()
}

fn both_signs(points: &[f32]) -> Vec<f32> {
    points.iter().flat_map(|x| [*x, -*x]).collect()
}

pub fn special() -> Vec<f32> {
    SPECIAL.iter().map(|bits| f32::from_bits(*bits)).collect()
}

/// Odd and even powers of two, squares, and numbers whose root lies near a tie.
pub fn for_sqrt() -> Vec<f32> {
    let mut all = special();
    for exponent in (-149..128).step_by(7) {
        let power = 2f64.powi(exponent) as f32;
        all.extend([power, power.next_down(), power.next_up()]);
    }
    for whole in [3.0f32, 5.0, 7.0, 4095.0, 4096.0, 4097.0, 8191.0] {
        all.extend(near(whole * whole, 2));
    }
    all.extend(near_each(&[2.0, 1.0, 4.0, 0.25, 1.0e-40, 1.225], 3));
    all
}

/// The limits -87 and 88, 0, where k changes, and the middle of each k from -126 to 127, so that
/// exp takes each of its 254 powers of two.
pub fn for_exp() -> Vec<f32> {
    let mut all = special();
    all.extend(near_each(&[-87.0, 88.0, -60.0, 60.0, 0.0, 1.0, -1.0], 3));
    for k in -126..128 {
        let change = (f64::from(k) - 0.5) * core::f64::consts::LN_2;
        let middle = f64::from(k) * core::f64::consts::LN_2;
        all.extend(near(change as f32, 1));
        all.push((middle as f32).clamp(-87.0, 88.0));
    }
    all.extend(near_each(
        &[-86.99, -87.3, 87.99, 88.7, 89.0, 127.0, -104.0],
        1,
    ));
    all
}

/// Numbers whose logarithms tell 1/7, 1/5 and 1/3 from the floats next to them, above and below.
const TELLING_FRACTIONS: [u32; 5] = [
    0x3F35_358D,
    0x3F36_BEF4,
    0x3F35_17B3,
    0x3F35_0540,
    0x3F35_07F0,
];

/// Where m leaps from twice its least to its least, over all n; 1; each power of two below the normal
/// range, and some above it.
pub fn for_log() -> Vec<f32> {
    let mut all = special();
    let power = |n: i32| 2f64.powi(n);
    for n in (-148..128).step_by(8) {
        let leap = (f64::from(0.70710677f32) * power(n)) as f32;
        all.extend(near(leap, 1));
    }
    for n in (-149..-124).chain((-120..128).step_by(10)) {
        all.extend(near(power(n) as f32, 1));
    }
    all.extend(TELLING_FRACTIONS.map(f32::from_bits));
    all.extend(near_each(&[1.0, 0.70710677, 1.4142135], 3));
    all.extend(near_each(
        &[1.0e-13, 0.001, 0.1, 0.3, 0.7, 2.7182817, 10.0],
        1,
    ));
    all
}

/// Exponents of a motor's thrust: both limits, a toroidal propeller's, 2 and its neighbours.
pub const EXPONENTS: [f32; 6] = [1.0, 1.8, 2f32.next_down(), 2.0, 2f32.next_up(), 3.0];

/// Any of these exponents, or one between the limits; 2 in almost half of all.
pub fn exponent(rng: &mut Rng) -> f32 {
    match rng.below(5) {
        0 | 1 => 2.0,
        2 | 3 => rng.pick(&EXPONENTS),
        _ => rng.between(1.0, 3.0),
    }
}

/// Running values at the edges of a power: 0 of both signs, subnormal ones, one whose power 3 is 0 and
/// one whose powers next to 2 are, and 1 with the float below it.
pub const TURNING: [f32; 9] = [
    0.0,
    -0.0,
    f32::from_bits(1),
    f32::from_bits(0x007F_FFFF),
    f32::MIN_POSITIVE,
    1.0e-13,
    1.0e-19,
    1f32.next_down(),
    1.0,
];

/// Each of the exponents with running values, with numbers that are none, and with shares from 0.001
/// to 0.963.
pub fn for_pow() -> Vec<(f32, f32)> {
    let mut all = special();
    all.extend(TURNING);
    all.extend(near_each(&[1.0, 0.70710677, 0.5], 1));
    all.extend((0..27).map(|n| 0.001 + 0.037 * n as f32));
    let with = |v: f32| EXPONENTS.map(|e| (v, e));
    all.into_iter().flat_map(with).collect()
}

/// A random power: the number mostly from 0 to 1, the exponent mostly from 1 to 3.
pub fn random_power(rng: &mut Rng) -> (f32, f32) {
    let v = match rng.below(4) {
        0 => random(rng, 2.0),
        1 => rng.scaled(-50, 0).abs(),
        _ => rng.between(0.0, 1.0),
    };
    let e = if rng.once_in(8) {
        random(rng, 4.0)
    } else {
        exponent(rng)
    };
    (v, e)
}

/// Heights whose densities tell the line between two rows, as 02 rounds it, from others: by times 0.01
/// for over 100, by the product over 100, by a slope for each metre, by a fused sum, from the next row.
pub const TELLING_HEIGHTS: [f32; 10] = [
    -170.0, -146.0, 830.0, 854.0, 1883.5, 2018.0, 2491.0, 2691.0, 3791.0, 4973.5,
];

/// The heights of the rows of the table of densities.
pub fn row_heights() -> Vec<f32> {
    table().iter().map(|row| row.height_m).collect()
}

/// Each row with the floats next to it, 0 among them, the middles between the rows, numbers so near to 0
/// that they are rounded away, the table's ends and beyond them, and the telling heights.
pub fn for_density() -> Vec<f32> {
    let rows = row_heights();
    let middles = rows.windows(2).map(|two| (two[0] + two[1]) / 2.0);
    let mut all = special();
    all.extend(near_each(&rows, 1));
    all.extend(middles);
    all.extend(near_each(&[ENDS_M.0, ENDS_M.1], 3));
    all.extend(both_signs(&[1.0e-9, 1.0e-3, 99.99999, 50.0]));
    all.extend(both_signs(&[2000.0, 1.0e6, 16_777_216.0]));
    all.extend([6000.0, 5050.0, -1050.0]);
    all.extend(TELLING_HEIGHTS);
    all
}

/// A random height: three of four from -2000 m to 6000 m.
pub fn random_height(rng: &mut Rng) -> f32 {
    if rng.once_in(4) {
        return random(rng, 1.0e6);
    }
    rng.between(-2000.0, 6000.0)
}

/// The size limit 4, the quarter turns and the odd eighths, both signs.
pub fn for_sin_cos() -> Vec<f32> {
    let mut all = special();
    let eighth = core::f64::consts::FRAC_PI_4;
    let points: Vec<f32> = (1..6).map(|n| (eighth * f64::from(n)) as f32).collect();
    all.extend(near_each(&both_signs(&points), 3));
    all.extend(near_each(
        &both_signs(&[4.0, 3.5, 1.0, 0.1, 1.0e-3, 1.0e-20]),
        2,
    ));
    all
}

/// 1 and its neighbours, 0, and where the tangent passes the branch, both signs.
pub fn for_asin() -> Vec<f32> {
    let mut all = special();
    let points = [
        1.0, 0.38268343, 0.70710678, 0.92387953, 0.5, 1.0e-4, 0.99, 1.5, 1.0e-30,
    ];
    all.extend(near_each(&both_signs(&points), 3));
    all
}

/// Both arguments special, the diagonal, the branch at 0.41421356, and the axes.
pub fn for_atan2() -> Vec<(f32, f32)> {
    let mut all = Vec::new();
    let few = [
        0x0000_0000,
        0x8000_0000,
        0x0000_0001,
        0x8000_0001,
        0x3F80_0000,
        0xBF80_0000,
        0x7F7F_FFFF,
        0xFF7F_FFFF,
        0x7F80_0000,
        0xFF80_0000,
        0x7FC0_0000,
        0xFF80_0001,
    ];
    for y in few {
        for x in few {
            all.push((f32::from_bits(y), f32::from_bits(x)));
        }
    }
    for signs in [(1.0f32, 1.0f32), (1.0, -1.0), (-1.0, 1.0), (-1.0, -1.0)] {
        for size in near_each(&[0.41421356, 1.0, 0.5, 1.0e-3, 3.0e-39], 3) {
            all.push((signs.0 * size, signs.1));
            all.push((signs.0, signs.1 * size));
        }
    }
    all
}

/// One random number: any bits, a size near one, or within `limit`.
pub fn random(rng: &mut Rng, limit: f32) -> f32 {
    match rng.below(4) {
        0 => rng.bits(),
        1 => rng.scaled(-12, 8),
        2 => rng.scaled(-126, 127),
        _ => rng.between(-limit, limit),
    }
}

/// A random pair; every other one of like size.
pub fn random_pair(rng: &mut Rng) -> (f32, f32) {
    let y = random(rng, 200.0);
    if rng.once_in(2) {
        return (y, random(rng, 200.0));
    }
    (y, y * rng.scaled(-3, 3))
}
