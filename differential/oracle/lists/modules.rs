//! Lists of the originals' modules, one call a case.

use stable_flight::Vec3;
use stable_flight::mixers::{MixRow, Slot};

use super::list;
use crate::aero::{self, Wash};
use crate::arguments::{EXPONENTS, SPECIAL};
use crate::blocks::{self, Airframe, SLOTS, State, layout, mix, rotors};
use crate::body::{Body, Loads, MassProperties};
use crate::hand;
use crate::inputs::{self, Kind, Row};
use crate::lag;
use crate::limits;
use crate::motors::Motors;
use crate::rng::Rng;
use crate::surfaces::Surfaces;
use crate::tick::{array, body, body_numbers, falloff, model, vector, wash};
use crate::wing::FixedWing;
use crate::words::case;

/// A whole number or a flag as a word of a list.
fn whole(number: usize) -> f32 {
    f32::from_bits(number as u32)
}

fn special(rng: &mut Rng) -> f32 {
    f32::from_bits(rng.pick(&SPECIAL))
}

/// Mostly between `low` and `high`; else one of the two, a special number or any bits.
fn mostly(rng: &mut Rng, low: f32, high: f32) -> f32 {
    match rng.below(12) {
        0 => special(rng),
        1 => rng.bits(),
        2 => low,
        3 => high,
        4 => -0.0,
        _ => rng.between(low, high),
    }
}

fn some<const N: usize>(rng: &mut Rng, low: f32, high: f32) -> [f32; N] {
    core::array::from_fn(|_| mostly(rng, low, high))
}

/// As `mostly`, without NaN and infinities.
fn finite(rng: &mut Rng, low: f32, high: f32) -> f32 {
    let number = mostly(rng, low, high);
    if number.is_finite() { number } else { low }
}

pub fn lag_factor() -> String {
    let mut cases = Vec::new();
    let mut add = |h: f32, tau: f32| cases.push(case(&[h, tau], &[lag::factor(h, tau)]));
    for h in [limits::STEP_S.0, limits::STEP_S.1, 1.0 / 64.0, 0.01] {
        for tau in [0.001, 10.0, 0.02, 1.0, 0.0002, 0.00023] {
            add(h, tau);
        }
    }
    let mut rng = Rng::new(11);
    for _ in 0..150 {
        add(
            rng.between(limits::STEP_S.0, limits::STEP_S.1),
            rng.between(0.001, 1.0),
        );
    }
    for _ in 0..150 {
        add(mostly(&mut rng, 0.0, 0.02), mostly(&mut rng, 0.001, 10.0));
    }
    list("lag_factor: h tau > factor", cases)
}

pub fn approach_saturated() -> String {
    let mut rng = Rng::new(12);
    let mut cases = Vec::new();
    for index in 0..400 {
        let low = if index % 2 == 0 { 0.0 } else { -1.0 };
        let wild = index % 4 < 2;
        let value = if wild {
            mostly(&mut rng, low, 1.0)
        } else {
            rng.between(low, 1.0)
        };
        let command = mostly(&mut rng, low, 1.0);
        let alpha = if wild {
            mostly(&mut rng, 0.0, 1.0)
        } else {
            rng.between(0.0, 1.0)
        };
        let mut after = value;
        lag::approach_saturated(&mut after, command, &(low..=1.0), 0.0, alpha);
        cases.push(case(&[value, command, low, 1.0, alpha], &[after]));
    }
    list(
        "approach_saturated: value command low high alpha > value",
        cases,
    )
}

fn vectors(numbers: &[f32]) -> [Vec3; SLOTS] {
    core::array::from_fn(|at| Vec3::new(numbers[3 * at], numbers[3 * at + 1], numbers[3 * at + 2]))
}

fn flat(vectors: [Vec3; SLOTS]) -> Vec<f32> {
    vectors.into_iter().flat_map(array).collect()
}

/// An airframe with only the numbers the motors and the falloff read.
fn powered(pitch_speed: bool, number: f32, max_thrust: f32) -> Airframe {
    let mut airframe = Airframe::zero();
    airframe.pitch_speed = pitch_speed;
    airframe.numbers[34] = max_thrust;
    airframe.numbers[35] = 2.0;
    airframe.numbers[36] = number;
    airframe
}

/// A falloff kind, its number and the max thrust, in range.
fn prop(rng: &mut Rng) -> (bool, f32, f32) {
    let pitch_speed = rng.once_in(2);
    let number = match (rng.below(4), pitch_speed) {
        (0, _) => rng.pick(&[0.1, 10000.0, 1.0]),
        (1, false) => 0.0,
        (_, true) => rng.between(5.0, 40.0),
        (_, false) => rng.between(0.0, 2.0),
    };
    let max_thrust = if rng.once_in(4) {
        rng.pick(&[0.01, 10000.0])
    } else {
        rng.between(1.0, 60.0)
    };
    (pitch_speed, number, max_thrust)
}

pub fn motors() -> String {
    let mut rng = Rng::new(13);
    let mut cases: Vec<String> = (0..140)
        .map(|_| motors_case(&mut rng, 2.0, false))
        .collect();
    for exponent in EXPONENTS {
        cases.extend((0..16).map(|_| motors_case(&mut rng, exponent, true)));
    }
    list(
        "motors: falloff kind (0 Linear, 1 PitchSpeed), falloff number, max thrust, exponent, air \
         speed, factor, used 8 (0 or 1), torques 8 x 3, running 8, thrust scales 8, commands 8 > \
         running 8, thrust, torque 3",
        cases,
    )
}

/// Puts running values at the edges of a power; one time in four one is none at all.
fn put_at_edges(rng: &mut Rng, running: &mut [f32; SLOTS]) {
    inputs::put_at_edges(rng, running);
    if rng.once_in(4) {
        running[rng.below(SLOTS)] = rng.pick(&[f32::NAN, 1.5, -0.5, f32::INFINITY]);
    }
}

/// A case of motors with this exponent, their running values at its edges where `edged`.
fn motors_case(rng: &mut Rng, exponent: f32, edged: bool) -> String {
    let (pitch_speed, number, max_thrust) = prop(rng);
    let wild = rng.once_in(4);
    let speed = mostly(rng, -5.0, 30.0);
    let factor = if wild {
        mostly(rng, 0.0, 1.0)
    } else {
        rng.between(0.0, 1.0)
    };
    let used: [bool; SLOTS] = core::array::from_fn(|_| !rng.once_in(3));
    let torques: [f32; 24] = core::array::from_fn(|_| finite(rng, -1.0, 1.0));
    let mut running: [f32; SLOTS] = if wild {
        some(rng, 0.0, 1.0)
    } else {
        core::array::from_fn(|_| rng.between(0.0, 1.0))
    };
    if edged {
        put_at_edges(rng, &mut running);
    }
    let scales: [f32; SLOTS] = if wild {
        some(rng, 0.0, 1.0)
    } else {
        inputs::scales(rng)
    };
    let commands: [f32; SLOTS] = some(rng, 0.0, 1.0);
    let mut airframe = powered(pitch_speed, number, max_thrust);
    airframe.numbers[35] = exponent;
    let model = model(&airframe);
    let mut motors = Motors::new(&[], &layout(&airframe));
    motors.set_slots(used, vectors(&torques));
    motors.set_running(running);
    motors.set_thrust_scale(scales);
    motors.spin(&commands, factor);
    let (thrust, torque) = motors.wrench_with(|share| model.falloff_share(share, speed));
    let mut words = vec![
        whole(usize::from(pitch_speed)),
        number,
        max_thrust,
        exponent,
        speed,
        factor,
    ];
    words.extend(used.map(|used| whole(usize::from(used))));
    words.extend(torques);
    words.extend(running);
    words.extend(scales);
    words.extend(commands);
    let mut answers = motors.running().to_vec();
    answers.push(thrust);
    answers.extend(array(torque));
    case(&words, &answers)
}

pub fn lift() -> String {
    let mut rng = Rng::new(22);
    let mut cases: Vec<String> = (0..80).map(|_| lift_case(&mut rng, 2.0, false)).collect();
    for exponent in EXPONENTS {
        cases.extend((0..16).map(|_| lift_case(&mut rng, exponent, true)));
    }
    list(
        "lift: max thrust, exponent, drag (places 52, 53, 57), factor, air 3, used 8 (0 or 1), torques \
         8 x 3, running 8, commands 8 > running 8, force 3, torque 3",
        cases,
    )
}

/// A case of lift rotors with this exponent, their running values at its edges where `edged`.
fn lift_case(rng: &mut Rng, exponent: f32, edged: bool) -> String {
    let (_, _, max_thrust) = prop(rng);
    let wild = rng.once_in(4);
    let drag = match rng.below(4) {
        0 => rng.pick(&[0.0, -0.0, 10.0]),
        _ => rng.between(0.0, 0.1),
    };
    let factor = if wild {
        mostly(rng, 0.0, 1.0)
    } else {
        rng.between(0.0, 1.0)
    };
    let air = air(rng);
    let used: [bool; SLOTS] = core::array::from_fn(|_| !rng.once_in(3));
    let torques: [f32; 24] = core::array::from_fn(|_| finite(rng, -1.0, 1.0));
    let mut running: [f32; SLOTS] = if wild {
        some(rng, 0.0, 1.0)
    } else {
        core::array::from_fn(|_| rng.between(0.0, 1.0))
    };
    if edged {
        put_at_edges(rng, &mut running);
    }
    let commands: [f32; SLOTS] = some(rng, 0.0, 1.0);
    let (motors, force, torque) = FixedWing::lift_step(
        rotors([max_thrust, exponent, 0.0, 0.0, 1.0, 0.0]),
        drag,
        |motors| {
            motors.set_slots(used, vectors(&torques));
            motors.set_running(running);
        },
        (&commands, factor),
        vector(air),
    );
    let mut words = vec![max_thrust, exponent, drag, factor];
    words.extend(air);
    words.extend(used.map(|used| whole(usize::from(used))));
    words.extend(torques);
    words.extend(running);
    words.extend(commands);
    let mut answers = motors.running().to_vec();
    answers.extend(array(force));
    answers.extend(array(torque));
    case(&words, &answers)
}

/// The words of rows: the count, then kind (0 motor, 1 servo, 2 lift rotor), slot, roll, pitch, yaw of
/// each.
fn row_words(rows: &[Row]) -> Vec<f32> {
    let mut words = vec![whole(rows.len())];
    for row in rows {
        words.push(whole(match row.kind {
            Kind::Motor => 0,
            Kind::Servo => 1,
            Kind::Lift => 2,
        }));
        words.push(whole(usize::from(row.slot)));
        words.extend(row.factors);
    }
    words
}

fn mix_rows(rows: &[Row]) -> Vec<blocks::Row> {
    let slot = |row: &Row| match row.kind {
        Kind::Servo => Slot::Servo(row.slot),
        _ => Slot::Motor(row.slot),
    };
    let mixed = |row: &Row| blocks::Row {
        lift: row.kind == Kind::Lift,
        mix: MixRow::new(slot(row), row.factors),
    };
    rows.iter().map(mixed).collect()
}

/// Rows of all kinds.
fn some_rows(rng: &mut Rng, most: usize) -> Vec<Row> {
    let count = rng.below(most + 1);
    (0..count).map(|_| inputs::row(rng, true)).collect()
}

fn used_words(used: [bool; SLOTS]) -> [f32; SLOTS] {
    used.map(|used| whole(usize::from(used)))
}

pub fn motor_rows() -> String {
    let mut rng = Rng::new(14);
    let mut cases = Vec::new();
    for index in 0..100 {
        let rows = some_rows(&mut rng, if index % 5 == 0 { 16 } else { 6 });
        let mut layout = || [rng.between(0.0, 10.0), rng.between(-10.0, 10.0)];
        let ([arm, yaw], [lift_arm, lift_yaw]) = (layout(), layout());
        let mut airframe = powered(false, 0.0, 1.0);
        airframe.numbers[39] = arm;
        airframe.numbers[40] = yaw;
        airframe.lift = Some([1.0, 2.0, lift_arm, lift_yaw, 1.0, 0.0]);
        mix(&mut airframe, &mix_rows(&rows));
        let mut words = vec![arm, yaw, lift_arm, lift_yaw];
        words.extend(row_words(&rows));
        let mut answers = used_words(airframe.used).to_vec();
        answers.extend(flat(airframe.torques));
        answers.extend(used_words(airframe.lift_used));
        answers.extend(flat(airframe.lift_torques));
        cases.push(case(&words, &answers));
    }
    list(
        "motor_rows: arm, yaw torque (places 40, 41), arm, yaw torque of the lift rotors (54, 55), row \
         count, then for each row kind (0 motor, 1 servo, 2 lift rotor) slot roll pitch yaw > used 8 (0 \
         or 1), torques 8 x 3, and the same of the lift rotors",
        cases,
    )
}

pub fn surfaces() -> String {
    let mut rng = Rng::new(15);
    let cases = (0..110)
        .map(|index| surfaces_case(&mut rng, index))
        .collect();
    list(
        "surfaces: row count, then for each row kind (0 motor, 1 servo, 2 lift rotor) slot roll pitch \
         yaw; then running 8, commands 8, factor, max deflection 3 > weights 8 x 3, running 8, \
         deflection 3",
        cases,
    )
}

fn surfaces_case(rng: &mut Rng, index: usize) -> String {
    let rows = some_rows(rng, if index % 9 == 0 { 16 } else { 7 });
    let wild = index % 4 == 0;
    let running: [f32; SLOTS] = if wild {
        some(rng, -1.0, 1.0)
    } else {
        core::array::from_fn(|_| rng.between(-1.0, 1.0))
    };
    let commands: [f32; SLOTS] = some(rng, -1.0, 1.0);
    let factor = rng.between(0.0, 1.0);
    let most: [f32; 3] = core::array::from_fn(|_| rng.between(-1.6, 1.6));
    let mut airframe = powered(false, 0.0, 1.0);
    mix(&mut airframe, &mix_rows(&rows));
    let mut surfaces = Surfaces::new(&[]);
    surfaces.set_weights(airframe.weights);
    surfaces.set_running(running);
    surfaces.move_to(&commands, factor);
    let deflection = surfaces.deflection_rad(&vector(most));
    let mut words = row_words(&rows);
    words.extend(running);
    words.extend(commands);
    words.push(factor);
    words.extend(most);
    let mut answers = flat(airframe.weights);
    answers.extend(surfaces.running());
    answers.extend(array(deflection));
    case(&words, &answers)
}

pub fn falloff_share() -> String {
    let mut rng = Rng::new(16);
    let mut cases = Vec::new();
    let mut add = |(pitch_speed, number, max_thrust): (bool, f32, f32), share: f32, speed: f32| {
        let mut model = model(&powered(pitch_speed, number, max_thrust));
        model.thrust_falloff = falloff(pitch_speed, number);
        let kind = whole(usize::from(pitch_speed));
        let left = model.falloff_share(share, speed);
        cases.push(case(&[kind, number, max_thrust, share, speed], &[left]));
    };
    for share in [0.25, 0.0, -0.0, 1.0, 1.0e-45, f32::NAN, -1.0] {
        for speed in [5.0, 20.0, 0.0, -0.0, -3.0, f32::NAN, f32::INFINITY, 1.0e-45] {
            add((true, 20.0, 10.0), share, speed);
            add((false, 0.5, 10.0), share, speed);
        }
    }
    for _ in 0..250 {
        let (of, running) = (prop(&mut rng), rng.between(0.0, 1.0));
        add(of, running * running, mostly(&mut rng, -2.0, 40.0));
    }
    list(
        "falloff_share: falloff kind (0 Linear, 1 PitchSpeed), falloff number, max thrust, \
         thrust share, air speed > share left",
        cases,
    )
}

fn wash_numbers(rng: &mut Rng) -> [f32; 7] {
    core::array::from_fn(|at| {
        let range = limits::airframe(42 + at, false);
        match rng.below(6) {
            0 => range.0,
            1 => range.1,
            2 => rng.between(range.0, range.1),
            _ => rng.between(range.0.max(-3.0), range.1.min(1.0)),
        }
    })
}

pub fn wash_list() -> String {
    let mut rng = Rng::new(17);
    let mut cases = Vec::new();
    for index in 0..260 {
        let numbers = wash_numbers(&mut rng);
        let (thrust, axial) = if index % 3 == 0 {
            (mostly(&mut rng, 0.0, 60.0), mostly(&mut rng, -15.0, 30.0))
        } else {
            (rng.between(0.0, 60.0), rng.between(-15.0, 10.0))
        };
        let props = wash(numbers);
        let mut words = numbers.to_vec();
        words.extend([thrust, axial]);
        let mut answers = vec![props.added(thrust, axial)];
        answers.extend(wash_words(props.wash(thrust, axial)));
        cases.push(case(&words, &answers));
    }
    list(
        "wash: places 42 to 48, thrust, axial air speed > added pressure, pressure, roll \
         pressure, pitch moment, stall pitch moment, damping speed",
        cases,
    )
}

fn wash_words(wash: Wash) -> [f32; 5] {
    [
        wash.pressure_pa,
        wash.roll_pressure_pa,
        wash.pitch_moment_pa,
        wash.stall_pitch_moment_pa,
        wash.damping_mps,
    ]
}

/// The wash with every zero +0: f32::max leaves their signs open, and these are inputs.
fn plus_zeros(wash: Wash) -> Wash {
    Wash {
        pressure_pa: wash.pressure_pa + 0.0,
        roll_pressure_pa: wash.roll_pressure_pa + 0.0,
        pitch_moment_pa: wash.pitch_moment_pa + 0.0,
        stall_pitch_moment_pa: wash.stall_pitch_moment_pa + 0.0,
        damping_mps: wash.damping_mps + 0.0,
    }
}

pub fn stall_blend() -> String {
    let mut rng = Rng::new(18);
    let mut cases = Vec::new();
    let mut add = |stall: f32, sharpness: f32, alpha: f32| {
        let mut airframe = powered(false, 0.0, 1.0);
        airframe.numbers[9] = stall;
        airframe.numbers[10] = sharpness;
        let blend = aero::stall_blend(&model(&airframe).aero, alpha);
        cases.push(case(&[stall, sharpness, alpha], &[blend]));
    };
    for sharpness in [0.0, 1.0, 50.0, 1000.0] {
        for alpha in [0.0, 0.3, -0.3, 1.6, -1.6, 3.1415927, -3.1415927] {
            add(0.3, sharpness, alpha);
        }
    }
    for _ in 0..120 {
        add(
            rng.between(0.0, 1.6),
            rng.between(0.0, 100.0),
            mostly(&mut rng, -1.0, 1.0),
        );
    }
    for _ in 0..60 {
        add(0.4, rng.between(0.0, 1000.0), rng.between(0.3, 0.5));
    }
    for _ in 0..120 {
        add(
            rng.between(0.0, 1.6),
            rng.between(0.0, 3.0),
            rng.between(-3.1, 3.1),
        );
    }
    list("stall_blend: alpha stall, sharpness, alpha > blend", cases)
}

/// Air over the wing, FRD: ahead, stalled, from behind, still, slow, or any.
fn air(rng: &mut Rng) -> [f32; 3] {
    let speed = rng.between(0.0, 40.0);
    match rng.below(10) {
        0 => some(rng, -30.0, 30.0),
        1 => [0.0, -0.0, 0.0],
        2 => [-speed, rng.between(-2.0, 2.0), rng.between(-5.0, 5.0)],
        3 => core::array::from_fn(|_| rng.scaled(-80, 0)),
        4 => core::array::from_fn(|_| rng.scaled(-10, 64)),
        5 => [0.0, speed, 0.0],
        6 => [
            speed,
            rng.between(-8.0, 8.0),
            speed * rng.between(-1.0, 1.0),
        ],
        7 => core::array::from_fn(|_| rng.between(-1000.0, 1000.0)),
        _ => [speed, rng.between(-3.0, 3.0), rng.between(-4.0, 4.0)],
    }
}

pub fn wrench() -> String {
    let mut rng = Rng::new(19);
    let cases = (0..360).map(|_| wrench_case(&mut rng)).collect();
    list(
        "wrench: places 5 to 30 (area, span, chord, coefficients), air 3, rates 3, deflection 3, \
         wash (pressure, roll pressure, pitch moment, stall pitch moment, damping speed) > \
         force 3, torque 3, alpha, beta",
        cases,
    )
}

fn wrench_case(rng: &mut Rng) -> String {
    let block = inputs::airframe(rng);
    let mut airframe = powered(block.pitch_speed, block.numbers[36], block.numbers[34]);
    airframe.numbers = block.numbers;
    let (air, rates) = (air(rng), core::array::from_fn(|_| finite(rng, -2.0, 2.0)));
    let deflection: [f32; 3] = core::array::from_fn(|_| rng.between(-1.0, 1.0));
    let wash = match block.wash {
        Some(numbers) => plus_zeros(wash(numbers).wash(rng.between(0.0, 60.0), air[0])),
        None => Wash::default(),
    };
    let aero = aero::wrench(
        &model(&airframe),
        vector(air),
        vector(rates),
        vector(deflection),
        wash,
    );
    let mut words = airframe.numbers[4..30].to_vec();
    words.extend(air);
    words.extend(rates);
    words.extend(deflection);
    words.extend(wash_words(wash));
    let mut answers = array(aero.force_n).to_vec();
    answers.extend(array(aero.torque_nm));
    answers.extend([aero.alpha_rad, aero.beta_rad]);
    case(&words, &answers)
}

pub fn body_step() -> String {
    let mut rng = Rng::new(20);
    let mut cases: Vec<String> = (0..260).map(|index| body_case(&mut rng, index)).collect();
    cases.extend(small_turns());
    list(
        "body_step: mass, inertia 3, force NED 3, torque FRD 3, h, position 3, velocity 3, \
         attitude w i j k, rates 3 > position 3, velocity 3, attitude w i j k, rates 3",
        cases,
    )
}

fn body_case(rng: &mut Rng, index: usize) -> String {
    let wild = index % 4 == 0;
    let mut load = |size: f32| -> [f32; 3] {
        if wild {
            some(rng, -size, size)
        } else {
            core::array::from_fn(|_| rng.between(-size, size))
        }
    };
    let (force, torque) = (load(200.0), load(5.0));
    let mass = rng.between(0.5, 20.0);
    let inertia: [f32; 3] = core::array::from_fn(|_| rng.between(0.02, 2.0));
    let h = rng.pick(&[limits::STEP_S.0, limits::STEP_S.1, 1.0 / 64.0, 0.01]);
    body_line(mass, inertia, [force, torque], h, &inputs::state(rng))
}

/// Turns around the smallest that counts, about each axis: at a step of 1/64 a rate of 2^-16 has
/// half an angle of 2^-23, whose square is 2^-46.
fn small_turns() -> Vec<String> {
    let smallest = 1.0 / 65536.0_f32;
    let sizes = [
        0.5 * smallest,
        0.75 * smallest,
        smallest.next_down(),
        smallest,
        smallest.next_up(),
        1.25 * smallest,
    ];
    let mut cases = Vec::new();
    for size in sizes {
        for axis in 0..3 {
            let mut state = hand::at_rest();
            state.rates[axis] = size;
            cases.push(body_line(1.0, [1.0; 3], [[0.0; 3]; 2], 1.0 / 64.0, &state));
        }
    }
    cases
}

fn body_line(
    mass: f32,
    inertia: [f32; 3],
    [force, torque]: [[f32; 3]; 2],
    h: f32,
    state: &State,
) -> String {
    let mut body = body(state);
    let properties = MassProperties {
        mass_kg: mass,
        inertia_kgm2: vector(inertia),
    };
    step(&mut body, &properties, force, torque, h);
    let mut words = vec![mass];
    for three in [inertia, force, torque] {
        words.extend(three);
    }
    words.push(h);
    words.extend(&state.numbers()[..13]);
    case(&words, &body_numbers(&body))
}

fn step(body: &mut Body, mass: &MassProperties, force: [f32; 3], torque: [f32; 3], h: f32) {
    let loads = Loads {
        force_ned_n: vector(force),
        torque_nm: vector(torque),
        damping_nm: Vec3::zeros(),
    };
    body.step(mass, &loads, h);
}

/// Rotations and products of attitudes have no list of their own: `body_step` shows the
/// product, and the turn of a vector shows here.
pub fn rotate() -> String {
    let mut rng = Rng::new(21);
    let mut cases = Vec::new();
    for _ in 0..120 {
        let state = inputs::state(&mut rng);
        let vector_in: [f32; 3] = some(&mut rng, -50.0, 50.0);
        let attitude = body(&state).attitude;
        let forward = attitude * vector(vector_in);
        let back = attitude.inverse_transform_vector(&vector(vector_in));
        let mut words = state.attitude.to_vec();
        words.extend(vector_in);
        let mut answers = array(forward).to_vec();
        answers.extend(array(back));
        cases.push(case(&words, &answers));
    }
    list(
        "rotate: attitude w i j k, vector 3 > turned 3, turned by the inverse 3",
        cases,
    )
}
