//! Stands in the place of the original's tests: sets and shows the motors' private values.

use stable_flight::Vec3;

use super::{Motors, SLOTS};

impl Motors {
    pub(crate) fn set_slots(&mut self, used: [bool; SLOTS], torques: [Vec3; SLOTS]) {
        self.used = used;
        self.torque_per_thrust_m = torques;
    }

    pub(crate) fn set_running(&mut self, running: [f32; SLOTS]) {
        self.running = running;
    }

    pub(crate) fn used(&self) -> [bool; SLOTS] {
        self.used
    }

    pub(crate) fn torques(&self) -> [Vec3; SLOTS] {
        self.torque_per_thrust_m
    }

    pub(crate) fn running(&self) -> [f32; SLOTS] {
        self.running
    }

    pub(crate) fn thrust_scale(&self) -> [f32; SLOTS] {
        self.thrust_scale
    }
}
