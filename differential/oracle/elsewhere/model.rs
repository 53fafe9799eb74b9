//! Stands for the originals' `model`: the checks of a model's parameters. The tick never calls
//! them; document 01's own limits are in `limits`.

/// What a check found wrong, and with which parameter.
#[derive(Debug, Clone, Copy, PartialEq)]
pub enum ModelError {
    NotPositive(&'static str),
    Negative(&'static str),
    NotFinite(&'static str),
    NotFraction(&'static str),
    DelayTooLong(&'static str),
}

type Named = (&'static str, f32);

fn check(
    numbers: &[Named],
    good: impl Fn(f32) -> bool,
    error: fn(&'static str) -> ModelError,
) -> Result<(), ModelError> {
    match numbers.iter().find(|(_, number)| !good(*number)) {
        Some((name, _)) => Err(error(name)),
        None => Ok(()),
    }
}

pub fn check_positive(numbers: &[Named]) -> Result<(), ModelError> {
    let good = |x: f32| x.is_finite() && x > 0.0;
    check(numbers, good, ModelError::NotPositive)
}

pub fn check_non_negative(numbers: &[Named]) -> Result<(), ModelError> {
    let good = |x: f32| x.is_finite() && x >= 0.0;
    check(numbers, good, ModelError::Negative)
}

pub fn check_finite(numbers: &[Named]) -> Result<(), ModelError> {
    check(numbers, f32::is_finite, ModelError::NotFinite)
}

pub fn check_fraction(numbers: &[Named]) -> Result<(), ModelError> {
    let good = |x: f32| (0.0..=1.0).contains(&x);
    check(numbers, good, ModelError::NotFraction)
}
