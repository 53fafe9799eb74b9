//! Document 02's thin air: the rows of its table, heights between them and beyond, and each place where
//! a tick takes the density, worked out by hand. The bits are worked out in exact fractions, each result
//! rounded to an f32 before it is used.

use super::{Case, added, airframe_of, at_rest, gives, plain, still};
use crate::air::with_density;
use crate::arguments::for_density;
use crate::blocks::{SLOTS, State, Tick, WASH_NUMBERS};
use crate::density::{APART_M, ENDS_M, ROWS, density, density_quickly, table};
use crate::drive::{Driver, Tests};
use crate::hand::lift::{self, ROTORS};
use crate::inputs::{AirframeBlock, servo};
use crate::tick::{self, Report};
use crate::words::same;

pub fn all() -> Vec<Case> {
    [
        rows(),
        between(),
        ends(),
        pressures(),
        uses(),
        starts(),
        sea_level(),
        apart(),
        driven(),
    ]
    .concat()
}

/// The densities of the rows from -1000 m to 5000 m in units of the fourth decimal: the law worked out
/// with 40 digits. None of them is nearer to half a unit than 0.014.
#[rustfmt::skip]
const TEN_THOUSANDTHS: [u32; ROWS] = [
    13470, 13344, 13219, 13095, 12971, 12849, 12727, 12607, 12487, 12368, 12250, 12133, 12017,
    11901, 11786, 11673, 11560, 11448, 11336, 11226, 11116, 11008, 10900, 10793, 10686, 10581,
    10476, 10372, 10269, 10166, 10065, 9964, 9864, 9765, 9666, 9569, 9472, 9375, 9280, 9185,
    9091, 8998, 8905, 8814, 8723, 8632, 8543, 8454, 8366, 8278, 8191, 8105, 8020, 7935, 7851,
    7768, 7685, 7603, 7522, 7441, 7361,
];

/// Rows as 02 writes them: heights and densities.
const WRITTEN: [(f32, f32); 8] = [
    (-1000.0, 1.3470),
    (-900.0, 1.3344),
    (0.0, 1.2250),
    (100.0, 1.2133),
    (1000.0, 1.1116),
    (2000.0, 1.0065),
    (4900.0, 0.7441),
    (5000.0, 0.7361),
];

/// The float nearest to so many ten-thousandths, read from their four decimals.
fn decimal(units: u32) -> Option<f32> {
    let text = format!("{}.{:04}", units / 10_000, units % 10_000);
    text.parse().ok()
}

fn rows() -> Vec<Case> {
    let rows = table();
    let mut heights = rows.windows(2).map(|two| two[1].height_m - two[0].height_m);
    let mut falls = rows.windows(2);
    let mut decimals = rows.iter().zip(TEN_THOUSANDTHS);
    vec![
        (
            "-1000, -900, 0, 100, 1000, 2000, 4900, 5000 m: 1.3470 to 0.7361, as written",
            WRITTEN.iter().all(|(height, row)| density(*height) == *row),
        ),
        (
            "61 rows, each 100 m, from -1000 m to 5000 m",
            heights.all(|apart| apart == APART_M)
                && (rows[0].height_m, rows[ROWS - 1].height_m) == ENDS_M,
        ),
        (
            "each row is the float of its four decimals",
            decimals.all(|(row, units)| decimal(units) == Some(row.density_kgpm3)),
        ),
        (
            "each row is thinner than the one below",
            falls.all(|two| two[1].density_kgpm3 < two[0].density_kgpm3),
        ),
        (
            "at each row its density",
            rows.iter()
                .all(|row| density(row.height_m) == row.density_kgpm3),
        ),
    ]
}

/// 2491 m is in the row 2400 m, 3F777319, whose next is 3F74F766: the quotient is 3F68F5C3, the
/// difference BC1EECC0, their product BC109F20. By times 0.01, by the product over 100, by a slope or
/// rounded at the end alone it would be 3F75309D.
fn between() -> Vec<Case> {
    let least = f32::from_bits(1);
    vec![
        (
            "-50 m, half way from 1.2368 to 1.2250: 3F9D8E22",
            gives(density, &[(-50.0, 0x3F9D_8E22)]),
        ),
        (
            "-1e-9 m, all the way from the row -100 m: 1.225; so is the first float below 0",
            density(-1.0e-9) == 1.225 && density(-least) == 1.225,
        ),
        (
            "99.99999 m, by the row 0: 3F9B4D6A, the quotient 3F7FFFFF",
            gives(density, &[(99.99999, 0x3F9B_4D6A)]),
        ),
        (
            "-100.00001 m, by the row -200 m: 3F9E4F76",
            gives(density, &[(-100f32.next_up(), 0x3F9E_4F76)]),
        ),
        (
            "33 and 1234.5 m: 3F9C4E48, 3F8B0C28",
            gives(density, &[(33.0, 0x3F9C_4E48), (1234.5, 0x3F8B_0C28)]),
        ),
        (
            "2491, 3791, -170 m, rounded at each operation: 3F75309C, 3F565F52, 3F9F606B",
            gives(
                density,
                &[
                    (2491.0, 0x3F75_309C),
                    (3791.0, 0x3F56_5F52),
                    (-170.0, 0x3F9F_606B),
                ],
            ),
        ),
        (
            "NaN: NaN",
            [f32::NAN, -f32::NAN]
                .iter()
                .all(|none| density(*none).is_nan()),
        ),
    ]
}

fn ends() -> Vec<Case> {
    let (low, high) = ENDS_M;
    let below = [
        low,
        low.next_down(),
        -2000.0,
        -1.0e6,
        f32::MIN,
        f32::NEG_INFINITY,
    ];
    let above = [high, high.next_up(), 6000.0, 1.0e6, f32::MAX, f32::INFINITY];
    vec![
        (
            "-1000 m and below, to -infinity: 1.3470",
            below.iter().all(|height| density(*height) == 1.3470),
        ),
        (
            "5000 m and above, to infinity: 0.7361",
            above.iter().all(|height| density(*height) == 0.7361),
        ),
    ]
}

/// At rest at this height.
fn at(height_m: f32) -> State {
    State {
        position: [0.0, 0.0, -height_m],
        ..at_rest()
    }
}

/// The same at 4 m/s ahead.
fn ahead(height_m: f32) -> State {
    State {
        velocity: [4.0, 0.0, 0.0],
        ..at(height_m)
    }
}

/// The plain airframe with a 1 at these places.
fn ones(places: &[usize]) -> AirframeBlock {
    let mut block = plain();
    for place in places {
        block.set(*place, 1.0);
    }
    block
}

/// A tick of 1/64 s in still air: the state after it, where it is accepted.
fn flown(block: &AirframeBlock, state: &State) -> Option<State> {
    let (report, next) = tick::tick(&airframe_of(block), state, &still(1.0 / 64.0));
    (report.answer == 0).then_some(next)
}

/// The density by which a pitch coefficient of 1 turns the nose up at 4 m/s: the torque is 8 times as
/// much, the rate an eighth of it.
fn pressed(height_m: f32) -> f32 {
    flown(&ones(&[21]), &ahead(height_m)).map_or(f32::NAN, |next| 8.0 * next.rates[1])
}

fn pressures() -> Vec<Case> {
    let all =
        |heights: &[f32], answer: f32| heights.iter().all(|height| pressed(*height) == answer);
    vec![
        (
            "ticks from each written row: by its density",
            WRITTEN.iter().all(|(height, row)| pressed(*height) == *row),
        ),
        (
            "from -50, 99.99999, 2491 m: 3F9D8E22, 3F9B4D6A, 3F75309C",
            gives(
                pressed,
                &[
                    (-50.0, 0x3F9D_8E22),
                    (99.99999, 0x3F9B_4D6A),
                    (2491.0, 0x3F75_309C),
                ],
            ),
        ),
        (
            "from -1001, -2000, -1,000,000 m: 1.3470",
            all(&[-1001.0, -2000.0, -1.0e6], 1.3470),
        ),
        (
            "from 5001, 6000, 1,000,000 m: 0.7361",
            all(&[5001.0, 6000.0, 1.0e6], 0.7361),
        ),
        (
            "position down -1000 m is up: 1.1116; 1000 m is down: 1.3470",
            pressed(1000.0) == 1.1116 && pressed(-1000.0) == 1.3470,
        ),
    ]
}

/// 2000 m up, and the density there.
const UP_M: f32 = 2000.0;
const THIN: f32 = 1.0065;

/// The body's motion after a tick at 2000 m with a wash of places 42 to 48 and this thrust, by a motor
/// that no row names.
fn washed(
    block: AirframeBlock,
    wash: [f32; WASH_NUMBERS],
    thrust: f32,
    start: State,
) -> Option<State> {
    let mut block = AirframeBlock {
        wash: Some(wash),
        ..block
    };
    block.set(35, thrust);
    let mut state = start;
    state.motors[5] = 1.0;
    flown(&block, &state)
}

/// The plain airframe's stall blend is 3/4: of a lift coefficient of 1 a quarter is left, and the lift is
/// twice the density.
fn lifts() -> bool {
    let next = flown(&ones(&[8]), &ahead(UP_M));
    next.is_some_and(|next| next.velocity[2] == (9.80665 - 2.0 * THIN) / 64.0)
}

/// An elevator at 1 rad with a coefficient of 1.
fn steers() -> bool {
    let mut block = ones(&[25]);
    block.rows = vec![servo(0, [0.0, 1.0, 0.0])];
    let mut state = ahead(UP_M);
    state.servos[0] = 1.0;
    let held = Tick {
        servos: [1.0; SLOTS],
        ..still(1.0 / 64.0)
    };
    let (_, next) = tick::tick(&airframe_of(&block), &state, &held);
    next.rates == [0.0, THIN / 8.0, 0.0]
}

/// A yaw rate of 1 rad/s that rolls, at 4 m/s: the rate scale is 2 times the density, of which half.
fn rolls() -> bool {
    let turning = State {
        rates: [0.0, 0.0, 1.0],
        ..ahead(UP_M)
    };
    let next = flown(&ones(&[18]), &turning);
    next.is_some_and(|next| next.rates == [THIN / 64.0, 0.0, 1.0])
}

/// Tail first at 1 m/s: with a thrust of twice the density over a disc of 1 the jet has 2 m/s, and a
/// sink loss of 1/2 takes the density from twice the density. All of it pitches.
fn sinks() -> bool {
    let back = State {
        velocity: [-1.0, 0.0, 0.0],
        ..at(UP_M)
    };
    let next = washed(
        plain(),
        [1.0, 1.0, 0.0, 1.0, 0.0, 0.5, 0.0],
        2.0 * THIN,
        back,
    );
    next.is_some_and(|next| next.rates == [0.0, THIN / 64.0, 0.0])
}

/// At rest with the same thrust: the flow has 2 m/s, and its rate scale is the density, of which half
/// rolls by a yaw rate of 1 rad/s.
fn damps() -> bool {
    let turning = State {
        rates: [0.0, 0.0, 1.0],
        ..at(UP_M)
    };
    let wash = [1.0, 0.0, 0.0, 0.0, 0.0, 1.0, 1.0];
    let next = washed(ones(&[18]), wash, 2.0 * THIN, turning);
    next.is_some_and(|next| next.rates == [THIN / 128.0, 0.0, 1.0])
}

/// At 4 m/s with a thrust of eight times the density: wash and free stream have the same pressure, so
/// that half of the stall's pitch moment acts, of which the blend leaves three quarters.
fn shares() -> bool {
    let wash = [1.0, 1.0, 0.0, 0.0, 1.0, 1.0, 0.0];
    let next = washed(plain(), wash, 8.0 * THIN, ahead(UP_M));
    next.is_some_and(|next| next.rates == [0.0, 0.375 * (8.0 * THIN) / 64.0, 0.0])
}

/// The sum of the wash and the jet's root by themselves, as in `added`: half of the density over a disc
/// of 1 has a jet of 1 m/s, and a sink loss of 1/2 at 1 m/s leaves nothing.
fn added_in(density_kgpm3: f32) -> f32 {
    let wash = tick::wash([1.0, 0.0, 0.0, 0.0, 0.0, 0.5, 0.0]);
    with_density(density_kgpm3, || wash.added(density_kgpm3 / 2.0, -1.0))
}

fn uses() -> Vec<Case> {
    vec![
        ("2000 m: the pressure by 1.0065", pressed(UP_M) == THIN),
        ("the lift by it", lifts()),
        ("the elevator by it", steers()),
        ("the rate scale of the free stream", rolls()),
        ("the jet's root and the sink's loss", sinks()),
        ("the flow's root and the wash's rate scale", damps()),
        ("the free stream's share past the stall", shares()),
        (
            "thrust half of the density, disc 1, sink loss 0.5, axial -1: added 0 in any air",
            WRITTEN.iter().all(|(_, row)| added_in(*row) == 0.0),
        ),
    ]
}

/// A tick at 4 m/s ahead from this height in a wind that goes with its speed down: the density that
/// pitches it, and the height after it.
fn moving(height_m: f32, down_mps: f32) -> (f32, f32) {
    let mut state = ahead(height_m);
    state.velocity[2] = down_mps;
    let tick = Tick {
        wind: [0.0, 0.0, down_mps],
        ..still(1.0 / 64.0)
    };
    let (_, next) = tick::tick(&airframe_of(&ones(&[21])), &state, &tick);
    (8.0 * next.rates[1], next.height_m())
}

/// The height of a tick's start, and not that of the next state: 64 m/s are 1 m in 1/64 s.
fn starts() -> Vec<Case> {
    let (falling, lower) = moving(100.0, 64.0);
    let (rising, higher) = moving(100.0, -64.0);
    let (from_below, _) = moving(99.0, -64.0);
    vec![
        (
            "falling from 100 m by a metre: 1.2133",
            falling == 1.2133 && lower < 99.0,
        ),
        (
            "rising from 100 m by a metre: 1.2133",
            rising == 1.2133 && higher > 100.9,
        ),
        (
            "rising from 99 m to the row: 3F9B513F, that of 99 m",
            from_below.to_bits() == 0x3F9B_513F,
        ),
    ]
}

/// A wing with all of its coefficients, beside a wash and lift rotors.
fn whole() -> AirframeBlock {
    let mut block = lift::lifted(ROTORS, &[]);
    for place in 8..=30 {
        block.set(place, 0.25);
    }
    AirframeBlock {
        wash: Some([0.5; WASH_NUMBERS]),
        ..block
    }
}

/// Speeds and rates about all axes, motors of both groups running, ahead and tail first.
fn busy(down: f32) -> [State; 2] {
    [5.0, -3.0].map(|ahead| State {
        position: [1.0, 2.0, down],
        velocity: [ahead, 0.5, 1.0],
        rates: [0.25, -0.5, 0.125],
        motors: [0.5; SLOTS],
        lift_motors: [0.25; SLOTS],
        ..at_rest()
    })
}

fn bits((report, state): &(Report, State)) -> Vec<u32> {
    let told = [report.alpha, report.beta, report.thrust];
    let numbers = told.into_iter().chain(state.numbers());
    numbers.map(f32::to_bits).collect()
}

/// At height 0 of either sign a tick is the originals' with 1.225, which they have where no tick hands
/// in another density.
fn sea_level() -> Vec<Case> {
    let (block, tick) = (airframe_of(&whole()), still(1.0 / 64.0));
    let by_constant = |state: &State| bits(&tick::fly_in_air(&block, state, &tick));
    let by_height = |state: &State| bits(&tick::tick(&block, state, &tick));
    let levels = [0.0, -0.0].map(busy).concat();
    let thin = busy(-UP_M);
    vec![
        (
            "0 and -0: 3F9CCCCD, as the constant",
            gives(density, &[(0.0, 0x3F9C_CCCD), (-0.0, 0x3F9C_CCCD)]),
        ),
        (
            "a tick at 0 or -0 is by the constant's bits, ahead and tail first",
            levels
                .iter()
                .all(|state| by_height(state) == by_constant(state)),
        ),
        (
            "one at 2000 m is not",
            thin.iter()
                .all(|state| by_height(state) != by_constant(state)),
        ),
        (
            "it is that of the constant 1.0065",
            thin.iter()
                .all(|state| by_height(state) == with_density(THIN, || by_constant(state))),
        ),
        ("after it the originals have 1.225 again", added() == 0.0),
    ]
}

/// A tick from rest at this height with a motor and a lift rotor, which no row names, at half of their
/// running values.
fn pulled(height_m: f32) -> (Report, State) {
    let mut state = at(height_m);
    state.motors[5] = 0.5;
    state.lift_motors[3] = 0.5;
    let airframe = airframe_of(&lift::lifted(ROTORS, &[]));
    tick::tick(&airframe, &state, &still(1.0 / 64.0))
}

/// What has nothing to do with the density: thrust, lift rotors and a fall from rest.
fn apart() -> Vec<Case> {
    let pulls = |height_m: f32| {
        let (report, next) = pulled(height_m);
        same(report.thrust, 0.25)
            && next.velocity == [0.25 / 64.0, 0.0, (9.80665 - 2.5) / 64.0]
            && next.rates == [0.0; 3]
    };
    vec![(
        "at any height a motor of 1 N at 0.5 pulls 0.25 N, a lift rotor of 10 N 2.5 N",
        [0.0, UP_M, 7000.0, -1500.0].into_iter().all(pulls),
    )]
}

/// Whether a driver's eight ticks are those of `tick`, falling over the row 0.
fn drives(tests: Tests) -> bool {
    let (block, tick) = (airframe_of(&whole()), still(1.0 / 64.0));
    let mut state = busy(-0.05)[0];
    let Some(mut driver) = Driver::new(&block, &state, tests) else {
        return false;
    };
    (0..8).all(|_| {
        state = tick::tick(&block, &state, &tick).1;
        driver.tick(&tick) && driver.state() == state
    }) && state.height_m() < 0.0
}

fn driven() -> Vec<Case> {
    let alike = |height: &f32| density(*height).to_bits() == density_quickly(*height).to_bits();
    let (none, heights): (Vec<f32>, Vec<f32>) = for_density().into_iter().partition(|x| x.is_nan());
    vec![
        (
            "the benchmark's search is the plain one by its bits",
            heights.iter().all(alike) && none.iter().all(|x| density_quickly(*x).is_nan()),
        ),
        (
            "the benchmark's ticks over a row are the tick's",
            [Tests::Bare, Tests::AirframeOnce, Tests::All]
                .into_iter()
                .all(drives),
        ),
    ]
}
