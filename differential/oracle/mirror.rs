//! Demand 3 on the oracle: a flight and its reflection, tick by tick. It proves nothing; it
//! shows that the originals with document 01's stand-ins have no side.

use stable_flight::Vec3;

use crate::blocks::{
    Airframe, Header, STATE_BYTES, State, TICK_BYTES, Tick, read_airframe, read_state, read_tick,
};
use crate::inputs::input;
use crate::tick::tick;
use crate::words::same;

fn reflected_vectors(vectors: [Vec3; 8]) -> [Vec3; 8] {
    vectors.map(|v| Vec3::new(-v.x, v.y, -v.z))
}

/// The torques of both groups and the weights, in roll and yaw.
pub fn reflected_airframe(airframe: &Airframe) -> Airframe {
    Airframe {
        torques: reflected_vectors(airframe.torques),
        weights: reflected_vectors(airframe.weights),
        lift_torques: reflected_vectors(airframe.lift_torques),
        ..airframe.clone()
    }
}

fn east_negated([north, east, down]: [f32; 3]) -> [f32; 3] {
    [north, -east, down]
}

/// Position and velocity east, i, k, p, r.
pub fn reflected_state(state: &State) -> State {
    let [w, i, j, k] = state.attitude;
    let [p, q, r] = state.rates;
    State {
        position: east_negated(state.position),
        velocity: east_negated(state.velocity),
        attitude: [w, -i, j, -k],
        rates: [-p, q, -r],
        ..*state
    }
}

fn reflected_tick(tick: &Tick) -> Tick {
    Tick {
        wind: east_negated(tick.wind),
        ..*tick
    }
}

fn same_state(a: &State, b: &State) -> bool {
    let numbers = a.numbers().into_iter().zip(b.numbers());
    numbers.into_iter().all(|(x, y)| same(x, y))
}

/// How many ticks of `input` mirror and how many do not; none if its airframe or state is
/// refused.
fn mirror_one(input: &[u8]) -> Option<(u64, u64)> {
    let length = Header::read(input).ok()?.length();
    let airframe = read_airframe(input.get(..length)?).ok()?;
    let rest = &input[length..];
    let mut left = read_state(rest.get(..STATE_BYTES)?).ok()?;
    let mut right = reflected_state(&left);
    let mirrored = reflected_airframe(&airframe);
    let (mut good, mut bad) = (0, 0);
    for block in rest[STATE_BYTES..].chunks_exact(TICK_BYTES) {
        let one = read_tick(block).ok()?;
        let (a, next_left) = tick(&airframe, &left, &one);
        let (b, next_right) = tick(&mirrored, &right, &reflected_tick(&one));
        (left, right) = (next_left, next_right);
        let mirrors = a.answer == b.answer
            && same(a.alpha, b.alpha)
            && same(a.thrust, b.thrust)
            && same(a.beta, -b.beta)
            && same_state(&reflected_state(&left), &right);
        if mirrors { good += 1 } else { bad += 1 }
    }
    Some((good, bad))
}

/// Flies `n` inputs from `seed` and their reflections; true if every tick mirrors.
pub fn check(seed: u64, n: u64) -> bool {
    let ticks = (0..n).filter_map(|index| mirror_one(&input(seed, index)));
    let (good, bad) = ticks.fold((0, 0), |sum, one| (sum.0 + one.0, sum.1 + one.1));
    println!("{good} ticks mirror, {bad} do not");
    bad == 0
}
