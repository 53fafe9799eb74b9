//! Stands in the place of the original's tests: sets and shows the surfaces' private values.

use stable_flight::Vec3;

use super::{SLOTS, Surfaces};

impl Surfaces {
    pub(crate) fn set_weights(&mut self, weights: [Vec3; SLOTS]) {
        self.weights = weights;
    }

    pub(crate) fn set_running(&mut self, running: [f32; SLOTS]) {
        self.running = running;
    }

    pub(crate) fn weights(&self) -> [Vec3; SLOTS] {
        self.weights
    }

    pub(crate) fn running(&self) -> [f32; SLOTS] {
        self.running
    }
}
