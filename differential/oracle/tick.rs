//! The tick and the run of document 01: its tests, and 02's of the wind, the thrust scales and the lift
//! rotors, around the original `set_thrust_scale`, `begin`, `loads` and `step`, in the air of 02, 6.

use stable_flight::mixers::TableMixer;
use stable_flight::nalgebra::UnitQuaternion;
use stable_flight::{ActuatorCommand, Vec3};

use crate::air::with_density;
use crate::blocks::{Airframe, Refusal, SLOTS, State, TICK_BYTES, Tick, read_tick, rotors};
use crate::body::Body;
use crate::density::density;
use crate::fixed_wing::{AeroCoefficients, FixedWingModel, ThrustFalloff};
use crate::limits;
use crate::lockstep::Dynamics;
use crate::tailsitter_model::PropWash;
use crate::wing::{FixedWing, Rotors};

/// What a tick reports: its answer, the place for 6, the angles in rad and the thrust in N.
#[derive(Debug, Clone, Copy, PartialEq)]
pub struct Report {
    pub answer: u8,
    pub place: u8,
    pub alpha: f32,
    pub beta: f32,
    pub thrust: f32,
}

impl Report {
    pub fn refused(refusal: Refusal) -> Self {
        Report {
            answer: refusal.number,
            place: refusal.place,
            alpha: 0.0,
            beta: 0.0,
            thrust: 0.0,
        }
    }
}

/// One tick: the report and the state handed back.
pub fn tick(airframe: &Airframe, state: &State, tick: &Tick) -> (Report, State) {
    let refused = |refusal| (Report::refused(refusal), *state);
    if let Some(refusal) = airframe.refusal() {
        return refused(refusal);
    }
    if !state.inside() {
        return refused(Refusal::of(limits::STATE));
    }
    if !limits::within(tick.step, limits::STEP_S) {
        return refused(Refusal::of(limits::STEP));
    }
    if !limits::wind(tick.wind) {
        return refused(Refusal::of(limits::WIND));
    }
    let (report, next) = fly_on(airframe, state, tick);
    if !next.inside() {
        return refused(Refusal::of(limits::DEPARTURE));
    }
    (report, next)
}

/// The originals' tick in the air of the height where it starts, nothing tested.
fn fly_on(airframe: &Airframe, state: &State, tick: &Tick) -> (Report, State) {
    let density_kgpm3 = density(state.height_m());
    with_density(density_kgpm3, || fly_in_air(airframe, state, tick))
}

/// The originals' tick in the air handed in.
pub(crate) fn fly_in_air(airframe: &Airframe, state: &State, tick: &Tick) -> (Report, State) {
    let mut wing = wing(airframe, state);
    let mut body = body(state);
    let wind = vector(tick.wind);
    let command = ActuatorCommand {
        motors: tick.motors,
        servos: tick.servos,
    };
    wing.begin(tick.step);
    let loads = wing.loads(&command, &body, wind);
    let report = Report {
        answer: 0,
        place: 0,
        alpha: wing.aero().alpha_rad,
        beta: wing.aero().beta_rad,
        thrust: wing.thrust_n(&body, wind),
    };
    body.step(&wing.mass(), &loads, tick.step);
    (report, state_after(&body, &mut wing, state.lift_motors))
}

/// The original wing with the airframe's slots and the state's running values and thrust scales.
/// `FixedWing::new` itself would lay the motors out by an arm of 0 and a yaw torque of the motor arm,
/// and beside lift rotors it has one motor along body x, without torque.
pub(crate) fn wing(airframe: &Airframe, state: &State) -> FixedWing {
    let placed = Rotors {
        motor_arm_m: airframe.at(41),
        wash: airframe.wash.map(wash),
        lift: None,
    };
    let no_rows = TableMixer::new([]);
    let mut wing = FixedWing::new(
        model(airframe),
        &no_rows,
        placed,
        UnitQuaternion::identity(),
    );
    let motors = wing.motors_mut();
    motors.set_slots(airframe.used, airframe.torques);
    motors.set_running(state.motors);
    let surfaces = wing.surfaces_mut();
    surfaces.set_weights(airframe.weights);
    surfaces.set_running(state.servos);
    // Before there are lift rotors, which this would scale too: theirs stay 1, as they are made.
    wing.set_thrust_scale(state.thrust_scale);
    if let Some(numbers) = airframe.lift {
        let lift = wing.put_lift(rotors(numbers), numbers[5]);
        lift.set_slots(airframe.lift_used, airframe.lift_torques);
        lift.set_running(state.lift_motors);
    }
    wing
}

pub(crate) fn body(state: &State) -> Body {
    let [w, i, j, k] = state.attitude;
    Body {
        position_ned_m: vector(state.position),
        velocity_ned_mps: vector(state.velocity),
        attitude: UnitQuaternion { w, i, j, k },
        angular_velocity_radps: vector(state.rates),
        ..Body::default()
    }
}

/// The state of the body and the wing; where this has no lift rotors, their running values are those
/// of `unlifted`.
pub(crate) fn state_after(body: &Body, wing: &mut FixedWing, unlifted: [f32; SLOTS]) -> State {
    let attitude = body.attitude;
    State {
        position: array(body.position_ned_m),
        velocity: array(body.velocity_ned_mps),
        attitude: [attitude.w, attitude.i, attitude.j, attitude.k],
        rates: array(body.angular_velocity_radps),
        motors: wing.motors_mut().running(),
        servos: wing.surfaces_mut().running(),
        thrust_scale: wing.motors_mut().thrust_scale(),
        lift_motors: wing.lift_mut().map_or(unlifted, |lift| lift.running()),
    }
}

/// The body's 13 numbers in the state block's order.
pub(crate) fn body_numbers(body: &Body) -> Vec<f32> {
    let attitude = body.attitude;
    [
        &array(body.position_ned_m)[..],
        &array(body.velocity_ned_mps),
        &[attitude.w, attitude.i, attitude.j, attitude.k],
        &array(body.angular_velocity_radps),
    ]
    .concat()
}

pub(crate) fn vector([x, y, z]: [f32; 3]) -> Vec3 {
    Vec3::new(x, y, z)
}

pub(crate) fn array(v: Vec3) -> [f32; 3] {
    [v.x, v.y, v.z]
}

/// The originals' model by place.
pub(crate) fn model(airframe: &Airframe) -> FixedWingModel {
    FixedWingModel {
        mass_kg: airframe.at(1),
        inertia_kgm2: airframe.three(2),
        wing_area_m2: airframe.at(5),
        span_m: airframe.at(6),
        chord_m: airframe.at(7),
        aero: coefficients(airframe),
        max_deflection_rad: airframe.three(31),
        servo_time_constant_s: airframe.at(34),
        max_thrust_n: airframe.at(35),
        thrust_exponent: airframe.at(36),
        thrust_falloff: falloff(airframe.pitch_speed, airframe.at(37)),
        thrust_line_below_cg_m: airframe.at(38),
        motor_time_constant_s: airframe.at(39),
        motor_delay_s: 0.0,
        ground_friction: 0.0,
        max_step_s: limits::STEP_S.1,
    }
}

pub(crate) fn falloff(pitch_speed: bool, number: f32) -> ThrustFalloff {
    if pitch_speed {
        ThrustFalloff::PitchSpeed { full_mps: number }
    } else {
        ThrustFalloff::Linear { n_per_mps: number }
    }
}

/// Places 8 to 30: the coefficients in their order, without the knee.
fn coefficients(airframe: &Airframe) -> AeroCoefficients {
    AeroCoefficients {
        c_lift_0: airframe.at(8),
        c_lift_alpha: airframe.at(9),
        alpha_stall_rad: airframe.at(10),
        stall_sharpness: airframe.at(11),
        c_drag_0: airframe.at(12),
        oswald: airframe.at(13),
        c_side_beta: airframe.at(14),
        c_side_rudder: airframe.at(15),
        c_roll_beta: airframe.at(16),
        c_roll_p: airframe.at(17),
        c_roll_r: airframe.at(18),
        c_roll_aileron: airframe.at(19),
        c_roll_rudder: airframe.at(20),
        c_pitch_0: airframe.at(21),
        c_pitch_0_knee: None,
        c_pitch_alpha: airframe.at(22),
        post_stall_pitch_share: airframe.at(23),
        c_pitch_q: airframe.at(24),
        c_pitch_elevator: airframe.at(25),
        surface_stall_share: airframe.at(26),
        c_yaw_beta: airframe.at(27),
        c_yaw_p: airframe.at(28),
        c_yaw_r: airframe.at(29),
        c_yaw_rudder: airframe.at(30),
    }
}

/// Places 42 to 48.
pub(crate) fn wash(numbers: [f32; 7]) -> PropWash {
    let [disc, surface, roll, pitch, stall_pitch, sink_loss, damping] = numbers;
    PropWash {
        disc_area_m2: disc,
        surface_fraction: surface,
        roll_fraction: roll,
        damping_fraction: damping,
        sink_loss,
        pitch_moment: pitch,
        stall_pitch_moment: stall_pitch,
    }
}

/// A run over a trace: its answer, 0 or 1, its last state and its count.
pub fn run(airframe: &Airframe, start: &State, trace: &[u8]) -> (u8, State, u64) {
    if !trace.len().is_multiple_of(TICK_BYTES) {
        return (limits::LENGTH, *start, 0);
    }
    let (mut state, mut accepted) = (*start, 0);
    for block in trace.chunks(TICK_BYTES) {
        let (report, next) = run_tick(airframe, &state, block);
        state = next;
        accepted += u64::from(report.answer == 0);
    }
    (0, state, accepted)
}

/// One tick given as a block.
pub fn run_tick(airframe: &Airframe, state: &State, block: &[u8]) -> (Report, State) {
    match read_tick(block) {
        Ok(one) => tick(airframe, state, &one),
        Err(refusal) => (Report::refused(refusal), *state),
    }
}
