//! Stands for the originals' `lockstep`: the calls a vehicle's physics answers.

use stable_flight::{ActuatorCommand, Vec3};

use crate::body::{Body, Loads, MassProperties};
use crate::ground::Ground;

pub(crate) trait Dynamics {
    fn mass(&self) -> MassProperties;
    fn ground(&self) -> Ground;
    fn max_step_s(&self) -> f32;
    fn begin(&mut self, h: f32);
    fn loads(&mut self, command: &ActuatorCommand, body: &Body, wind_ned_mps: Vec3) -> Loads;
    fn lift_n(&self, body: &Body) -> f32;
}
