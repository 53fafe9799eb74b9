//! Stands in the place of the original's tests: calls the private sum of the wash's pressure.

use super::PropWash;

impl PropWash {
    /// `added` of module 5, in Pa.
    pub(crate) fn added(&self, thrust_n: f32, axial_mps: f32) -> f32 {
        self.added_pa(thrust_n, axial_mps)
    }
}
