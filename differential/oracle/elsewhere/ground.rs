//! Stands for the originals' `ground`: what a body rests on. The tick knows no ground.

use stable_flight::nalgebra::UnitQuaternion;

#[derive(Debug, Clone, Copy, PartialEq)]
pub struct Ground {
    pub mass_kg: f32,
    pub friction: f32,
    pub rest: UnitQuaternion<f32>,
}
