//! Stands for the originals' `perturbations`: the longest delay a model may name, in s. The
//! tick has no delay.

pub const MAX_ACTUATOR_DELAY_S: f32 = 0.05;
