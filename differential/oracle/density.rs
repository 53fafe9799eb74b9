//! The air's density by height, read a second time from 02, 6: a row each 100 m, made by ISO 2533's law,
//! straight lines between the rows, the end values beyond them.

use std::sync::LazyLock;

/// How many rows the table has, and how far they are apart.
pub const ROWS: usize = 61;
pub const APART_M: f32 = 100.0;
/// The heights of its first and of its last row.
pub const ENDS_M: (f32, f32) = (-1000.0, 5000.0);

#[derive(Debug, Clone, Copy, PartialEq)]
pub struct Row {
    pub height_m: f32,
    pub density_kgpm3: f32,
}

static TABLE: LazyLock<[Row; ROWS]> = LazyLock::new(|| core::array::from_fn(made));

/// The rows from the lowest to the highest.
pub fn table() -> &'static [Row; ROWS] {
    &TABLE
}

/// The row with number `at`, from 0 on.
fn made(at: usize) -> Row {
    let height_m = f64::from(ENDS_M.0) + f64::from(APART_M) * at as f64;
    Row {
        height_m: height_m as f32,
        density_kgpm3: (ten_thousandths(height_m) / 10_000.0) as f32,
    }
}

/// The law's density at this geopotential height in units of the fourth decimal, rounded to a whole
/// number of them.
pub fn ten_thousandths(height_m: f64) -> f64 {
    let share = 1.0 - 0.0065 * height_m / 288.15;
    (1.225 * share.powf(4.25588) * 10_000.0).round()
}

/// The density at this height, by the highest row that is not above it, searched from the top.
pub fn density(height_m: f32) -> f32 {
    if height_m.is_nan() {
        return f32::NAN;
    }
    let not_above = |row: &Row| row.height_m <= height_m;
    let at = table().iter().rposition(not_above);
    at.map_or(table()[0].density_kgpm3, |at| from_row(at, height_m))
}

/// On the line from the row `at` to the next; the last row's density where there is none.
fn from_row(at: usize, height_m: f32) -> f32 {
    let row = table()[at];
    let Some(next) = table().get(at + 1) else {
        return row.density_kgpm3;
    };
    let share = (height_m - row.height_m) / APART_M;
    row.density_kgpm3 + (next.density_kgpm3 - row.density_kgpm3) * share
}

/// The same for the benchmark: the row is guessed by a quotient, which is never too low, and from there
/// on searched downwards.
pub fn density_quickly(height_m: f32) -> f32 {
    let (lowest, highest) = ENDS_M;
    let height_m = height_m.clamp(lowest, highest);
    // A NaN is turned into 0 here; the line makes it NaN again.
    let mut at = ((height_m - lowest) / APART_M) as usize;
    while table()[at].height_m > height_m {
        at -= 1;
    }
    from_row(at, height_m)
}

/// What the floats from -2000 m to 6000 m have: how many they are, how many have a density that is not
/// within those of their two rows, and how many a larger one than the float just below.
#[derive(Debug, Default, PartialEq)]
pub struct Counts {
    pub floats: u64,
    pub off_rows: u64,
    pub rising: u64,
}

/// Goes over the floats from -2000 m up to 6000 m.
pub fn counts() -> Counts {
    let mut counts = Counts::default();
    let (mut height_m, mut below) = (-2000f32, f32::INFINITY);
    while height_m <= 6000.0 {
        let here = density(height_m);
        counts.floats += 1;
        counts.off_rows += u64::from(!within_rows(height_m, here));
        counts.rising += u64::from(here > below);
        (height_m, below) = (height_m.next_up(), here);
    }
    counts
}

/// Whether a density at this height is within those of the rows above and below it; beyond the table's
/// ends it must be the end's.
fn within_rows(height_m: f32, density_kgpm3: f32) -> bool {
    let above = table().partition_point(|row| row.height_m <= height_m);
    let thickest = table()[above.saturating_sub(1)].density_kgpm3;
    let thinnest = table()[above.min(ROWS - 1)].density_kgpm3;
    thinnest <= density_kgpm3 && density_kgpm3 <= thickest
}
