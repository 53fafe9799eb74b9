//! The originals as a bench drives them: one wing and one body kept from tick to tick, with as
//! many of the tick's tests around them as asked. For the benchmark; `tick` is for answers.

use stable_flight::ActuatorCommand;

use crate::air::with_density;
use crate::blocks::{Airframe, SLOTS, State, Tick};
use crate::body::Body;
use crate::density::density_quickly;
use crate::limits;
use crate::lockstep::Dynamics;
use crate::tick::{body, state_after, vector, wing};
use crate::wing::FixedWing;

/// Which of the tick's tests are made.
#[derive(Debug, Clone, Copy, PartialEq)]
pub enum Tests {
    /// None: the originals as they stand.
    Bare,
    /// State, step, wind and departure at each tick; the airframe once, when the driver is made.
    AirframeOnce,
    /// The airframe too at each tick.
    All,
}

pub struct Driver {
    airframe: Airframe,
    wing: FixedWing,
    body: Body,
    /// The lift rotors' running values where the airframe has no lift numbers.
    unlifted: [f32; SLOTS],
    tests: Tests,
}

impl Driver {
    /// A driver at `state`; none where the airframe is refused.
    pub fn new(airframe: &Airframe, state: &State, tests: Tests) -> Option<Self> {
        if airframe.refusal().is_some() {
            return None;
        }
        Some(Driver {
            airframe: airframe.clone(),
            wing: wing(airframe, state),
            body: body(state),
            unlifted: state.lift_motors,
            tests,
        })
    }

    pub fn state(&mut self) -> State {
        state_after(&self.body, &mut self.wing, self.unlifted)
    }

    /// One tick; says whether it was accepted. A refused one leaves the state.
    pub fn tick(&mut self, tick: &Tick) -> bool {
        if self.tests == Tests::Bare {
            self.fly_on(tick);
            return true;
        }
        if self.tests == Tests::All && self.airframe.refusal().is_some() {
            return false;
        }
        self.tested(tick)
    }

    fn tested(&mut self, tick: &Tick) -> bool {
        let before = self.state();
        let flyable = limits::within(tick.step, limits::STEP_S) && limits::wind(tick.wind);
        if !before.inside() || !flyable {
            return false;
        }
        self.fly_on(tick);
        let kept = self.state().inside();
        if !kept {
            self.put_back(&before);
        }
        kept
    }

    /// The originals' tick in the air of the height where it starts.
    fn fly_on(&mut self, tick: &Tick) {
        let density_kgpm3 = density_quickly(-self.body.position_ned_m.z);
        with_density(density_kgpm3, || self.fly_in_air(tick));
    }

    fn fly_in_air(&mut self, tick: &Tick) {
        let command = ActuatorCommand {
            motors: tick.motors,
            servos: tick.servos,
        };
        self.wing.begin(tick.step);
        let loads = self.wing.loads(&command, &self.body, vector(tick.wind));
        self.body.step(&self.wing.mass(), &loads, tick.step);
    }

    fn put_back(&mut self, state: &State) {
        self.body = body(state);
        self.wing.motors_mut().set_running(state.motors);
        self.wing.surfaces_mut().set_running(state.servos);
        if let Some(lift) = self.wing.lift_mut() {
            lift.set_running(state.lift_motors);
        }
    }
}
