//! Stands in the place of the original's tests: reaches a wing's motors, surfaces and lift rotors, and
//! shows the thrust of its last step.

use stable_flight::Vec3;
use stable_flight::mixers::TableMixer;

use super::{FixedWing, Lift, LiftGroup, LiftRotors, Motors, Surfaces};
use crate::body::Body;

/// A pusher's slot that no row has, so that every row is a lift rotor's.
const NO_SLOT: u8 = u8::MAX;

fn group<const N: usize>(mixer: &TableMixer<N>, rotors: LiftRotors) -> LiftGroup {
    let lift = Lift {
        rotors,
        pusher_slot: NO_SLOT,
    };
    LiftGroup::new(mixer, &lift)
}

/// The original lift group without rows, with this drag for each N of thrust in place of its own.
fn group_with(rotors: LiftRotors, drag_per_thrust_n_per_mps: f32) -> LiftGroup {
    LiftGroup {
        drag_per_thrust_n_per_mps,
        ..group(&TableMixer::new([]), rotors)
    }
}

impl FixedWing {
    pub(crate) fn motors_mut(&mut self) -> &mut Motors {
        &mut self.motors
    }

    pub(crate) fn surfaces_mut(&mut self) -> &mut Surfaces {
        &mut self.surfaces
    }

    /// The motors of the original lift group of these rows.
    pub(crate) fn lift_motors_of<const N: usize>(
        mixer: &TableMixer<N>,
        rotors: LiftRotors,
    ) -> Motors {
        group(mixer, rotors).motors
    }

    /// The drag for each N of thrust that the original lift group of these rows has.
    pub(crate) fn lift_drag_of<const N: usize>(mixer: &TableMixer<N>, rotors: LiftRotors) -> f32 {
        group(mixer, rotors).drag_per_thrust_n_per_mps
    }

    /// Gives the wing lift rotors with this drag for each N of thrust, and shows their motors.
    pub(crate) fn put_lift(&mut self, rotors: LiftRotors, drag: f32) -> &mut Motors {
        &mut self.lift.insert(group_with(rotors, drag)).motors
    }

    /// The lift rotors' motors, where the wing has lift rotors.
    pub(crate) fn lift_mut(&mut self) -> Option<&mut Motors> {
        self.lift.as_mut().map(|lift| &mut lift.motors)
    }

    /// Lift rotors by themselves, made ready by `ready`, through a step of their lag with the factor
    /// `alpha`: their motors after it, force and torque.
    pub(crate) fn lift_step(
        rotors: LiftRotors,
        drag: f32,
        ready: impl FnOnce(&mut Motors),
        (commands, alpha): (&[f32; 8], f32),
        air_mps: Vec3,
    ) -> (Motors, Vec3, Vec3) {
        let mut lift = group_with(rotors, drag);
        ready(&mut lift.motors);
        lift.alpha = alpha;
        let (force_n, torque_nm) = lift.wrench(commands, air_mps);
        (lift.motors, force_n, torque_nm)
    }

    /// The thrust `loads` summed over the slots, in N: the motors have spun, so it is the same
    /// sum again, at the same air speed along body x.
    pub(crate) fn thrust_n(&self, body: &Body, wind_ned_mps: Vec3) -> f32 {
        let air_ned_mps = body.air_relative_velocity_ned_mps(wind_ned_mps);
        let air_mps = body.attitude.inverse_transform_vector(&air_ned_mps);
        let falloff = |share| self.model.falloff_share(share, air_mps.x);
        self.motors.wrench_with(falloff).0
    }
}
