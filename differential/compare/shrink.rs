//! Makes a differing input smaller while it still differs.

/// How plain a number is, plainest first: significant bits, distance from 1, sign.
fn plainness(x: f32) -> (u32, u32, bool) {
    let bits = x.to_bits();
    let mantissa = bits & 0x007F_FFFF;
    let significant = 23 - (mantissa | 0x0080_0000).trailing_zeros();
    let exponent = (bits >> 23) & 0xFF;
    (significant, exponent.abs_diff(127), bits >> 31 != 0)
}

/// Plainer numbers to try in place of `x`.
fn plainer(x: f32) -> Vec<f32> {
    let bits = x.to_bits();
    let mantissa = bits & 0x007F_FFFF;
    let exponent = (bits >> 23) & 0xFF;
    let mut tries = vec![0x3F80_0000, 0, bits & 0x7FFF_FFFF];
    for kept in 0..23 {
        tries.push(bits & !(0x007F_FFFF >> kept));
    }
    if mantissa != 0 {
        tries.push(bits & (bits - 1));
    }
    for nearer in [127, exponent.midpoint(127), step_towards_127(exponent)] {
        tries.push((bits & 0x807F_FFFF) | (nearer << 23));
    }
    tries.into_iter().map(f32::from_bits).collect()
}

fn step_towards_127(exponent: u32) -> u32 {
    match exponent {
        0..127 => exponent + 1,
        127 => 127,
        _ => exponent - 1,
    }
}

/// The plainest numbers found from `numbers` on for which `differs` still holds.
pub fn numbers(mut numbers: Vec<f32>, differs: impl Fn(&[f32]) -> bool) -> Vec<f32> {
    loop {
        let mut changed = false;
        for place in 0..numbers.len() {
            for try_this in plainer(numbers[place]) {
                if plainness(try_this) >= plainness(numbers[place]) {
                    continue;
                }
                let mut tried = numbers.clone();
                tried[place] = try_this;
                if differs(&tried) {
                    numbers = tried;
                    changed = true;
                }
            }
        }
        if !changed {
            return numbers;
        }
    }
}
