//! The wind of a tick: each component passes up to 200 m/s either way. One beyond, or a NaN, is
//! refused with 10 by every call that ticks, in a flight and in its reflection alike.

use bench::{Answer, REPORT_NUMBERS, State, TICK_BYTES, Tick, raw};

use crate::{Sample, sample};

const MOST_MPS: f32 = 200.0;
const USABLE: [f32; 6] = [
    MOST_MPS,
    -MOST_MPS,
    MOST_MPS.next_down(),
    -MOST_MPS.next_down(),
    -0.0,
    1.0e-45,
];
const UNUSABLE: [f32; 8] = [
    MOST_MPS.next_up(),
    -MOST_MPS.next_up(),
    f32::MAX,
    f32::INFINITY,
    f32::NEG_INFINITY,
    f32::NAN,
    -f32::NAN,
    f32::from_bits(0x7F80_0001),
];

const WIND_UNUSABLE: u64 = 10;
const ZEROS: [f32; REPORT_NUMBERS] = [0.0; REPORT_NUMBERS];

// Where the velocity of a state and the wind of a tick start.
const VELOCITY: usize = 3;
const WIND: usize = 1;

/// Each component north, east and down, the other two 0.
fn winds(components: &[f32]) -> Vec<[f32; 3]> {
    let each = |x: &f32| [[*x, 0.0, 0.0], [0.0, *x, 0.0], [0.0, 0.0, *x]];
    components.iter().flat_map(each).collect()
}

/// The trace's first tick in this wind.
fn tick_in(sample: &Sample, wind: [f32; 3]) -> Tick {
    let mut tick = bench::read_tick(&sample.trace[..TICK_BYTES]).unwrap();
    tick[WIND..WIND + 3].copy_from_slice(&wind);
    tick
}

/// The replies to a tick by the airframe's block and by its numbers, which must give the same.
fn ticked(sample: &Sample, start: &State, tick: &Tick) -> (u64, State, [f32; REPORT_NUMBERS]) {
    let (mut state, mut report) = (*start, [1.0; REPORT_NUMBERS]);
    let reply = raw::tick(sample.airframe.block(), &mut state, tick, &mut report);
    let (mut other, mut told) = (*start, [1.0; REPORT_NUMBERS]);
    let again = raw::tick_prepared(sample.airframe.numbers(), &mut other, tick, &mut told);
    assert_eq!((reply, state, report), (again, other, told));
    (reply, state, report)
}

/// The aeroplane drifts with the wind, so that none of them makes it depart.
#[test]
fn winds_up_to_the_limit_are_flown() {
    let sample = sample();
    for wind in winds(&USABLE) {
        let mut start = sample.state;
        start[VELOCITY..VELOCITY + 3].copy_from_slice(&wind);
        let tick = tick_in(&sample, wind);
        assert_eq!(ticked(&sample, &start, &tick).0, 0, "{wind:?}");
        assert!(sample.airframe.tick(&mut start, &tick).is_ok());
    }
}

#[test]
fn winds_beyond_the_limit_are_refused() {
    let sample = sample();
    for wind in winds(&UNUSABLE) {
        let tick = tick_in(&sample, wind);
        assert_eq!(
            ticked(&sample, &sample.state, &tick),
            (WIND_UNUSABLE, sample.state, ZEROS),
            "{wind:?}"
        );
        let mut state = sample.state;
        let refused = sample.airframe.tick(&mut state, &tick).unwrap_err();
        assert_eq!((refused, state), (Answer::WindUnusable, sample.state));
        assert_eq!(
            refused.to_string(),
            "a component of the wind is a NaN or beyond 200 m/s"
        );
    }
}

/// At the envelope's edge and on its way out: a tick in any wind that is usable departs.
fn departing(sample: &Sample) -> State {
    let mut state = sample.state;
    (state[0], state[VELOCITY]) = (1_000_000.0, 900.0);
    state
}

#[test]
fn the_wind_is_tested_between_the_step_and_the_departure() {
    let sample = sample();
    let far = departing(&sample);
    assert_eq!(
        ticked(&sample, &far, &tick_in(&sample, [0.0; 3])),
        (9, far, ZEROS)
    );
    for wind in winds(&UNUSABLE) {
        let mut tick = tick_in(&sample, wind);
        assert_eq!(ticked(&sample, &far, &tick), (WIND_UNUSABLE, far, ZEROS));
        tick[0] = 0.0;
        assert_eq!(ticked(&sample, &far, &tick), (8, far, ZEROS));
        let mut spinning = far;
        spinning[10] = 101.0;
        assert_eq!(ticked(&sample, &spinning, &tick), (7, spinning, ZEROS));
        let (mut airframe, mut report) = (*sample.airframe.numbers(), [1.0; REPORT_NUMBERS]);
        airframe[0] = 0.0;
        assert_eq!(
            raw::tick_prepared(&airframe, &mut spinning, &tick, &mut report),
            6 + 16
        );
    }
}

/// The trace's first ticks, every other one in a wind that is refused.
fn gusty(sample: &Sample) -> Vec<u8> {
    let mut trace = Vec::new();
    let blocks = sample.trace.chunks_exact(TICK_BYTES);
    for (block, wind) in blocks.step_by(2).zip(winds(&UNUSABLE)) {
        trace.extend(block);
        trace.extend(bench::write_tick(&tick_in(sample, wind)));
    }
    trace
}

/// After each tick the counts of a run and of a pair show that it was refused, or that it was not.
#[test]
fn a_flight_and_its_reflection_are_refused_at_the_same_ticks() {
    let sample = sample();
    let trace = gusty(&sample);
    let ticks = trace.len() / TICK_BYTES;
    assert_eq!(ticks, 2 * 3 * UNUSABLE.len());
    for flown in 1..=ticks {
        let trace = &trace[..flown * TICK_BYTES];
        let ran = sample.airframe.run(&sample.state, trace).unwrap();
        let (left, right) = sample.airframe.mirrored_pair(&sample.state, trace).unwrap();
        let counts = [ran, left, right].map(|run| run.accepted);
        assert_eq!(counts, [flown.div_ceil(2) as u64; 3]);
        assert_eq!((ran.state, left.state[1]), (left.state, -right.state[1]));
    }
}
