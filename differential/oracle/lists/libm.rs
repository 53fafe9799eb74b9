//! Lists of the elementary functions, and of the density.

use crate::arguments;
use crate::density;
use crate::rng::Rng;
use crate::words::case;

const HOW: &str = "compare as numbers: zeros alike, NaNs alike.";

fn unary(name: &str, how: &str, f: fn(f32) -> f32, fixed: Vec<f32>, limit: f32) -> String {
    let mut text =
        format!("# {name}: argument > answer. Made by differential/lists ({how}); {HOW}\n");
    let mut rng = Rng::new(name.bytes().map(u64::from).sum());
    let random = (0..200).map(|_| arguments::random(&mut rng, limit));
    for x in fixed.into_iter().chain(random) {
        text += &case(&[x], &[f(x)]);
        text.push('\n');
    }
    text
}

/// The list of a function of two numbers, which `words` names.
fn binary(
    words: &str,
    how: &str,
    f: fn(f32, f32) -> f32,
    arguments: impl Iterator<Item = (f32, f32)>,
) -> String {
    let mut text = format!("# {words} > answer. Made by differential/lists ({how}); {HOW}\n");
    for (x, y) in arguments {
        text += &case(&[x, y], &[f(x, y)]);
        text.push('\n');
    }
    text
}

pub fn sqrtf() -> String {
    let fixed = arguments::for_sqrt();
    unary("sqrtf", "hardware square root", libm::sqrtf, fixed, 1000.0)
}

/// Whether exp answers near each of its 254 powers of two, 2^-126 to 2^127.
fn near_every_power(arguments: &[f32]) -> bool {
    let near: Vec<f64> = arguments
        .iter()
        .map(|x| f64::from(libm::expf(*x)).log2().round())
        .collect();
    (-126..128).all(|k| near.contains(&f64::from(k)))
}

pub fn expf() -> String {
    let fixed = arguments::for_exp();
    assert!(near_every_power(&fixed), "a power of two is missing");
    unary("expf", "document 01's formula", libm::expf, fixed, 90.0)
}

pub fn sinf() -> String {
    let fixed = arguments::for_sin_cos();
    unary("sinf", "document 01's formula", libm::sinf, fixed, 4.0)
}

pub fn cosf() -> String {
    let fixed = arguments::for_sin_cos();
    unary("cosf", "document 01's formula", libm::cosf, fixed, 4.0)
}

pub fn asinf() -> String {
    let fixed = arguments::for_asin();
    unary("asinf", "document 01's formula", libm::asinf, fixed, 1.0)
}

pub fn atan2f() -> String {
    let mut rng = Rng::new(2);
    let random = (0..200).map(|_| arguments::random_pair(&mut rng));
    let all = arguments::for_atan2().into_iter().chain(random);
    binary("atan2f: y x", "document 01's formula", libm::atan2f, all)
}

pub fn logf() -> String {
    let fixed = arguments::for_log();
    unary("logf", "document 02's formula", libm::logf, fixed, 4.0)
}

pub fn density() -> String {
    let mut rng = Rng::new(4);
    let random = (0..200).map(|_| arguments::random_height(&mut rng));
    let mut text = format!(
        "# density: height_m > density_kgpm3. Made by differential/lists (document 02's table by ISO \
         2533's law, straight between its rows); {HOW}\n"
    );
    for height_m in arguments::for_density().into_iter().chain(random) {
        text += &case(&[height_m], &[density::density(height_m)]);
        text.push('\n');
    }
    text
}

pub fn powf() -> String {
    let mut rng = Rng::new(3);
    let random = (0..200).map(|_| arguments::random_power(&mut rng));
    let all = arguments::for_pow().into_iter().chain(random);
    binary(
        "powf: v e",
        "document 02's power, at most 1",
        libm::powf,
        all,
    )
}
