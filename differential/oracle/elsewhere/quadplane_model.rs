//! Stands for the originals' `quadplane_model`, which is not at hand: of the lift rotors what the wing
//! reads.

use crate::motors::MotorLayout;

#[derive(Debug, Clone, Copy, PartialEq)]
pub struct LiftRotors {
    /// In-plane drag of all rotors together at full thrust.
    pub drag_n_per_mps: f32,
    pub motor_time_constant_s: f32,
    layout: MotorLayout,
}

impl LiftRotors {
    pub(crate) fn new(
        layout: MotorLayout,
        motor_time_constant_s: f32,
        drag_n_per_mps: f32,
    ) -> Self {
        LiftRotors {
            drag_n_per_mps,
            motor_time_constant_s,
            layout,
        }
    }

    pub(crate) fn motor_layout(&self) -> MotorLayout {
        self.layout
    }
}

#[derive(Debug, Clone, Copy, PartialEq)]
pub struct QuadPlaneModel {
    pub lift: LiftRotors,
}
