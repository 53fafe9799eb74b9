//! Stands for the constant of the air's density in the originals' `aero`: a density that is handed in
//! (02, 6). It is 1.225 kg/m³, the constant itself, wherever none is.

use core::cell::Cell;
use core::ops::{Div, Mul};

thread_local! {
    static DENSITY_KGPM3: Cell<f32> = const { Cell::new(1.225) };
}

/// In the constant's place: a number times it, or over it, is times or over the density handed in, so
/// that the originals' formulas keep their order and their roundings.
#[derive(Debug, Clone, Copy)]
pub(crate) struct Handed;

impl Mul<Handed> for f32 {
    type Output = f32;

    fn mul(self, _: Handed) -> f32 {
        self * DENSITY_KGPM3.get()
    }
}

impl Div<Handed> for f32 {
    type Output = f32;

    fn div(self, _: Handed) -> f32 {
        self / DENSITY_KGPM3.get()
    }
}

/// Does `work` with this density handed in; after it the density is what it was before.
pub(crate) fn with_density<T>(density_kgpm3: f32, work: impl FnOnce() -> T) -> T {
    let before = DENSITY_KGPM3.replace(density_kgpm3);
    let done = work();
    DENSITY_KGPM3.set(before);
    done
}
