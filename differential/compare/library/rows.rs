//! Rows compared: as numbers where they were computed, by their bits where they must be as found.

use oracle::blocks::Refusal;
use oracle::rows::{LIFT_MOTORS_AT, SCALES_AT};
use oracle::words::same;

pub fn same_numbers(a: &[f32], b: &[f32]) -> bool {
    a.len() == b.len() && a.iter().zip(b).all(|(x, y)| same(*x, *y))
}

pub fn same_bits(a: &[f32], b: &[f32]) -> bool {
    let mut pairs = a.iter().zip(b);
    a.len() == b.len() && pairs.all(|(x, y)| x.to_bits() == y.to_bits())
}

/// A state's row as it must be: the numbers `computed`, or as `found` by its bits where refused.
pub fn kept_or(accepted: bool, row: &[f32], found: &[f32], computed: &[f32]) -> bool {
    if accepted {
        same_numbers(row, computed)
    } else {
        same_bits(row, found)
    }
}

/// Whether what no tick changes in a state's row is that of another, by the bits but for a NaN's: the
/// thrust scales and, where there are no lift numbers, the lift running values.
pub fn same_kept(row: &[f32], start: &[f32], lifted: bool) -> bool {
    let end = if lifted { LIFT_MOTORS_AT } else { row.len() };
    let mut pairs = row[SCALES_AT..end].iter().zip(&start[SCALES_AT..end]);
    pairs.all(|(x, y)| x.to_bits() == y.to_bits() || (x.is_nan() && y.is_nan()))
}

/// The library's reply for an answer and its place.
pub fn reply(number: u8, place: u8) -> u64 {
    u64::from(number) + 16 * u64::from(place)
}

/// The reply for what a read gave.
pub fn reply_to<T>(read: &Result<T, Refusal>) -> u64 {
    match read {
        Ok(_) => 0,
        Err(refusal) => reply(refusal.number, refusal.place),
    }
}
