//! Stands for the crate `libm`: the elementary functions as document 01 spells them, the logarithm
//! and the power as document 02 does. f32, one rounding for each operation, nothing fused, left to
//! right.

use core::f32::consts::{FRAC_PI_2, FRAC_PI_4, PI};

/// Square root, correctly rounded: the hardware's. Below 0 it is NaN.
pub fn sqrtf(x: f32) -> f32 {
    x.sqrt()
}

/// `t` plus or minus a half, by the sign of `argument`, cut to its whole part.
fn nearest(t: f32, argument: f32) -> i32 {
    if argument >= 0.0 {
        (t + 0.5) as i32
    } else {
        (t - 0.5) as i32
    }
}

/// 2 to the power `k`, exact; `k` within -126..127.
fn power_of_two(k: i32) -> f32 {
    f32::from_bits(((k + 127) as u32) << 23)
}

/// log2(e), and ln(2) in two parts.
const LOG2_E: f32 = f32::from_bits(0x3FB8_AA3B);
const LN_2_HIGH: f32 = f32::from_bits(0x3F31_7200);
const LN_2_LOW: f32 = f32::from_bits(0x35BF_BE8E);

/// e to the power `x`.
pub fn expf(x: f32) -> f32 {
    if x.is_nan() {
        return f32::NAN;
    }
    if x < -87.0 {
        return 0.0;
    }
    if x > 88.0 {
        return f32::INFINITY;
    }
    let k = nearest(x * LOG2_E, x);
    let whole = k as f32;
    let r = x - whole * LN_2_HIGH - whole * LN_2_LOW;
    let sum = 1.0 / 5040.0;
    let sum = sum * r + 1.0 / 720.0;
    let sum = sum * r + 1.0 / 120.0;
    let sum = sum * r + 1.0 / 24.0;
    let sum = sum * r + 1.0 / 6.0;
    let sum = sum * r + 0.5;
    let sum = sum * r + 1.0;
    let sum = sum * r + 1.0;
    sum * power_of_two(k)
}

/// The quarter turns in `x` (size at most 4), mod 4, and the rest, in rad.
fn quadrant(x: f32) -> (i32, f32) {
    let q = nearest(x * 0.63661977, x);
    let turns = q as f32;
    let r = x - turns * 1.5703125;
    let r = r - turns * 4.837512969970703e-4;
    let r = r - turns * 7.549789954891882e-8;
    (q & 3, r)
}

fn sin_rest(r: f32) -> f32 {
    let z = r * r;
    r + r * z * (-1.0 / 6.0 + z * (1.0 / 120.0 + z * (-1.0 / 5040.0 + z / 362880.0)))
}

fn cos_rest(r: f32) -> f32 {
    let z = r * r;
    1.0 - z / 2.0 + z * z * (1.0 / 24.0 + z * (-1.0 / 720.0 + z / 40320.0))
}

/// Whether sine and cosine are given at `x`: its size is at most 4. NaN is beyond.
fn within_four(x: f32) -> bool {
    x.abs() <= 4.0
}

/// Sine of `x` rad.
pub fn sinf(x: f32) -> f32 {
    if !within_four(x) {
        return f32::NAN;
    }
    match quadrant(x) {
        (0, r) => sin_rest(r),
        (1, r) => cos_rest(r),
        (2, r) => -sin_rest(r),
        (_, r) => -cos_rest(r),
    }
}

/// Cosine of `x` rad.
pub fn cosf(x: f32) -> f32 {
    if !within_four(x) {
        return f32::NAN;
    }
    match quadrant(x) {
        (0, r) => cos_rest(r),
        (1, r) => -sin_rest(r),
        (2, r) => -cos_rest(r),
        (_, r) => sin_rest(r),
    }
}

/// The angle whose tangent is `a`, 0 to 1, in rad.
fn eighth_turn(a: f32) -> f32 {
    let far = a > 0.41421356;
    let a = if far { (a - 1.0) / (a + 1.0) } else { a };
    let z = a * a;
    let sum = 0.0805374449538 * z - 0.138776856032;
    let sum = sum * z + 0.199777106478;
    let sum = sum * z - 0.333329491539;
    let angle = sum * z * a + a;
    if far { angle + FRAC_PI_4 } else { angle }
}

/// The angle of the point (`x`, `y`), in rad; -0 counts as 0.
pub fn atan2f(y: f32, x: f32) -> f32 {
    if y.is_nan() || x.is_nan() {
        return f32::NAN;
    }
    if y == 0.0 && x == 0.0 {
        return 0.0;
    }
    let (y_size, x_size) = (y.abs(), x.abs());
    let steep = y_size > x_size;
    let a = if steep {
        x_size / y_size
    } else {
        y_size / x_size
    };
    let angle = eighth_turn(a);
    let angle = if steep { FRAC_PI_2 - angle } else { angle };
    let angle = if x < 0.0 { PI - angle } else { angle };
    if y < 0.0 { -angle } else { angle }
}

/// The angle whose sine is `s`, in rad.
pub fn asinf(s: f32) -> f32 {
    atan2f(s, sqrtf((1.0 - s) * (1.0 + s)))
}

/// The least m of a logarithm, and ln(2).
const LEAST_M: f32 = 0.70710677;
const LN_2: f32 = 0.6931472;

/// m and n of `v` = m·2^n, for `v` above 0 and finite: m is at least its least and under the double of
/// it. An f64 has room to double and halve every f32 exactly, a subnormal one too.
fn m_and_n(v: f32) -> (f32, i32) {
    let least = f64::from(LEAST_M);
    let (mut m, mut n) = (f64::from(v), 0);
    while m < least {
        m *= 2.0;
        n -= 1;
    }
    while m >= 2.0 * least {
        m /= 2.0;
        n += 1;
    }
    (m as f32, n)
}

/// ln `v`: minus infinity at 0, NaN below it.
pub fn logf(v: f32) -> f32 {
    if v.is_nan() || v < 0.0 {
        return f32::NAN;
    }
    if v == 0.0 {
        return f32::NEG_INFINITY;
    }
    if v == f32::INFINITY {
        return v;
    }
    let (m, n) = m_and_n(v);
    let s = (m - 1.0) / (m + 1.0);
    let z = s * s;
    let sum = 1.0 / 7.0 + z / 9.0;
    let sum = 1.0 / 5.0 + z * sum;
    let sum = 1.0 / 3.0 + z * sum;
    let sum = 1.0 + z * sum;
    2.0 * s * sum + n as f32 * LN_2
}

/// `v`, 0 to 1, to the power `e`, before the cap at 1; NaN for another `v`.
pub fn uncapped_powf(v: f32, e: f32) -> f32 {
    if v == 0.0 {
        return 0.0;
    }
    if !(0.0..=1.0).contains(&v) {
        return f32::NAN;
    }
    expf(e * logf(v))
}

/// `v`, 0 to 1, to the power `e`, at most 1; NaN for another `v`. For a motor's share with an exponent
/// that is not 2; no knee is ever handed in, so that nothing else reaches it.
pub fn powf(v: f32, e: f32) -> f32 {
    let power = uncapped_powf(v, e);
    if power > 1.0 { 1.0 } else { power }
}
