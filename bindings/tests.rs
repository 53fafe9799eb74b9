//! The library through the Rust wrapper: `tests` with BENCH_SAMPLE naming a sample flight and
//! BENCH_SCOPE the page with the limits. Here a flight and refused blocks; beside, the rest.

#[path = "tests/chains.rs"]
mod chains;
#[path = "tests/environments.rs"]
mod environments;
#[path = "tests/exponents.rs"]
mod exponents;
#[path = "tests/heights.rs"]
mod heights;
#[path = "tests/lift.rs"]
mod lift;
#[path = "tests/limits.rs"]
mod limits;
#[path = "tests/nans.rs"]
mod nans;
#[path = "tests/scales.rs"]
mod scales;
#[path = "tests/winds.rs"]
mod winds;

use bench::{AIRFRAME_FALLOFF, AIRFRAME_NUMBERS, AIRFRAME_USED, Airframe, Answer, REPORT_NUMBERS, REPORT_THRUST, SLOTS};
use bench::{STATE_BYTES, STATE_MOTORS, STATE_SCALES, STATE_VELOCITY, State, TICK_BYTES, TICK_NUMBERS, TICK_STEP, Tick};
use bench::{place, raw};

struct Sample {
    airframe: Airframe,
    state: State,
    trace: Vec<u8>,
}

fn bytes() -> Vec<u8> {
    let file = std::env::var("BENCH_SAMPLE").expect("BENCH_SAMPLE names a sample flight");
    std::fs::read(file).expect("the sample flight can be read")
}

/// The flights beside the named one.
fn sample_files() -> Vec<std::path::PathBuf> {
    let file = std::env::var("BENCH_SAMPLE").expect("BENCH_SAMPLE names a sample flight");
    let folder = std::path::Path::new(&file).parent().expect("a folder");
    let entries = std::fs::read_dir(folder).expect("the folder can be read");
    let paths = entries.map(|entry| entry.expect("an entry").path());
    paths.filter(|path| path.extension().is_some_and(|end| end == "bin")).collect()
}

fn sample() -> Sample {
    flight(&bytes())
}

fn flight(bytes: &[u8]) -> Sample {
    let at = bench::airframe_length(bytes).expect("a header");
    Sample {
        airframe: Airframe::read(&bytes[..at]).expect("an accepted airframe"),
        state: bench::read_state(&bytes[at..at + STATE_BYTES]).expect("an accepted state"),
        trace: bytes[at + STATE_BYTES..].to_vec(),
    }
}

/// A tick of 0.01 s in still air without commands.
fn calm() -> Tick {
    let mut tick = [0.0; TICK_NUMBERS];
    tick[TICK_STEP] = 0.01;
    tick
}

/// One motor that no row names, so that its running value stays; no air takes of its thrust.
struct Motor {
    max_thrust_n: f32,
    exponent: f32,
    slot: usize,
    running: f32,
    scale: f32,
}

impl Motor {
    /// The sample's airframe with such motors.
    fn airframe(&self, sample: &Sample) -> [f32; AIRFRAME_NUMBERS] {
        let mut airframe = *sample.airframe.numbers();
        airframe[place::MAX_THRUST_N as usize - 1] = self.max_thrust_n;
        airframe[place::THRUST_EXPONENT as usize - 1] = self.exponent;
        airframe[place::THRUST_FALLOFF as usize - 1] = 0.0;
        airframe[AIRFRAME_FALLOFF] = 0.0;
        airframe[AIRFRAME_USED..AIRFRAME_USED + SLOTS].fill(0.0);
        airframe
    }

    /// The thrust that a tick reports where it alone runs.
    fn pull(&self, sample: &Sample) -> f32 {
        let mut state = sample.state;
        state[STATE_VELOCITY..STATE_VELOCITY + 3].fill(0.0);
        state[STATE_MOTORS..STATE_MOTORS + SLOTS].fill(0.0);
        state[STATE_MOTORS + self.slot] = self.running;
        state[STATE_SCALES + self.slot] = self.scale;
        let mut report = [0.0; REPORT_NUMBERS];
        let reply = raw::tick_prepared(&self.airframe(sample), &mut state, &calm(), &mut report);
        assert_eq!(reply, 0);
        report[REPORT_THRUST]
    }
}

#[test]
fn ticks_end_where_the_run_ends() {
    let sample = sample();
    let (mut state, mut accepted) = (sample.state, 0);
    for block in sample.trace.chunks_exact(TICK_BYTES) {
        let tick = bench::read_tick(block).unwrap();
        accepted += u64::from(sample.airframe.tick(&mut state, &tick).is_ok());
    }
    let ran = sample.airframe.run(&sample.state, &sample.trace).unwrap();
    assert_eq!((ran.state, ran.accepted), (state, accepted));
}

#[test]
fn the_reflection_has_east_exchanged() {
    let sample = sample();
    let pair = sample.airframe.mirrored_pair(&sample.state, &sample.trace);
    let (ran, reflected) = pair.unwrap();
    assert_eq!(ran.accepted, reflected.accepted);
    assert_eq!(ran.state[0], reflected.state[0]);
    assert_eq!(ran.state[1], -reflected.state[1]);
}

#[test]
fn a_refused_tick_leaves_the_state() {
    let sample = sample();
    let mut state = sample.state;
    let refused = sample.airframe.tick(&mut state, &[0.0; TICK_NUMBERS]);
    assert_eq!(refused, Err(Answer::StepOutside));
    assert_eq!(state, sample.state);
}

#[test]
fn a_trace_that_is_not_whole_ticks_is_refused() {
    let sample = sample();
    let refused = sample.airframe.run(&sample.state, &sample.trace[1..]);
    assert_eq!(refused, Err(Answer::WrongLength));
}

/// The replies of a run and of a pair, which leave the state and count nothing.
fn runs_refused(block: &[u8], state: &State, trace: &[u8]) -> [u64; 2] {
    let (mut end, mut reflected, mut counts) = (*state, *state, [1; 3]);
    let [ran, pair @ ..] = &mut counts;
    let replies = [
        raw::run(block, &mut end, trace, ran),
        raw::mirrored_pair(block, &mut end, &mut reflected, trace, pair),
    ];
    assert_eq!((end, reflected, counts), (*state, *state, [0; 3]));
    replies
}

#[test]
fn a_runs_refusals_come_in_their_order() {
    let sample = sample();
    let good = sample.airframe.block();
    let bad = [&[0x20], &good[1..]].concat();
    let (whole, cut) = (&sample.trace[..], &sample.trace[1..]);
    assert_eq!(runs_refused(&bad, &sample.state, whole), [2; 2]);
    assert_eq!(runs_refused(good, &sample.state, cut), [1; 2]);
    assert_eq!(runs_refused(&bad, &sample.state, cut), [1; 2]);
}

#[test]
fn a_state_is_read_as_it_was_written() {
    let state = sample().state;
    assert_eq!(bench::read_state(&bench::write_state(&state)), Ok(state));
}

/// The block with the byte at `at` set, refused.
fn refused(mut block: Vec<u8>, at: usize, byte: u8) -> String {
    block[at] = byte;
    Airframe::read(&block).unwrap_err().to_string()
}

#[test]
fn refusals_are_named_in_words() {
    let block = sample().airframe.block().to_vec();
    let said = |at, byte| refused(block.clone(), at, byte);
    assert_eq!(said(0, 0x20), "the version is not 1");
    assert_eq!(said(0, 0x18), "the falloff kind is 2 or 3");
    let bits = "a reserved bit is 1, or a lift rotor's bit on a servo's row or without lift numbers";
    assert_eq!(said(1, 0x20), bits);
    assert_eq!(said(block.len() - 13, block[block.len() - 13] | 0x08), bits);
    assert_eq!(said(1, 0x11), "more than 16 rows");
    assert_eq!(said(1, 0x00), "wrong length");
    assert_eq!(said(2, 0xFF), "a number of the airframe is outside its limits, place 1 (mass_kg)");
}

#[test]
fn a_state_outside_the_envelope_is_refused() {
    let mut state = sample().state;
    state[10] = 101.0;
    let refused = bench::read_state(&bench::write_state(&state)).unwrap_err();
    assert_eq!(refused.to_string(), "the state is outside the envelope");
}

/// Numbers that no tick needs to have: all are read and written, but for a NaN's bits.
const ANY: [f32; 4] = [-0.0, f32::INFINITY, 1.0e-45, -3.4e38];

#[test]
fn a_tick_is_read_as_it_was_written() {
    let tick: [f32; TICK_NUMBERS] = std::array::from_fn(|at| ANY[at % ANY.len()] * (at as f32 + 1.0));
    let block = bench::write_tick(&tick);
    let bytes = tick.iter().flat_map(|x| x.to_bits().to_be_bytes());
    assert!(bytes.eq(block), "other bytes than the numbers'");
    let read = bench::read_tick(&block).unwrap();
    assert_eq!(read.map(f32::to_bits), tick.map(f32::to_bits));
}

#[test]
fn a_tick_is_read_into_its_array_alone() {
    let block = [0x3F; TICK_BYTES];
    let mut room = [7.0f32; TICK_NUMBERS + 4];
    assert_eq!(raw::read_tick(&block, &mut room[2..22]), 0);
    let read = f32::from_bits(0x3F3F_3F3F);
    assert_eq!((&room[..2], &room[22..]), (&[7.0; 2][..], &[7.0; 2][..]));
    assert_eq!(room[2..22], [read; TICK_NUMBERS]);
}

#[test]
fn a_tick_is_written_into_its_block_alone() {
    let mut room = [7u8; TICK_BYTES + 4];
    assert_eq!(raw::write_tick(&[f32::from_bits(0x3F3F_3F3F); TICK_NUMBERS], &mut room[2..82]), 0);
    assert_eq!((&room[..2], &room[82..]), (&[7; 2][..], &[7; 2][..]));
    assert_eq!(room[2..82], [0x3F; TICK_BYTES]);
}

/// A refused block gives zeros, an array of another length is left.
#[test]
fn a_tick_of_another_length_is_refused() {
    let (block, tick) = ([0x3F; TICK_BYTES + 1], [0.5; TICK_NUMBERS + 1]);
    for (bytes, numbers) in [(0, 20), (79, 20), (81, 20), (80, 0), (80, 19), (80, 21), (79, 19)] {
        let (mut read, mut written, mut expected) = (tick, block, tick);
        if numbers == TICK_NUMBERS {
            expected[..numbers].fill(0.0);
        }
        assert_eq!(raw::read_tick(&block[..bytes], &mut read[..numbers]), 1);
        assert_eq!(raw::write_tick(&tick[..numbers], &mut written[..bytes]), 1);
        assert_eq!((read, written), (expected, block), "{bytes} bytes, {numbers} numbers");
    }
    assert_eq!(bench::read_tick(&block), Err(Answer::WrongLength));
}

#[test]
fn answers_and_places_have_their_words() {
    assert_eq!(bench::place_name(bench::place::DAMPING_FRACTION), "damping_fraction");
    assert_eq!(bench::place_name(bench::place::LIFT_TORQUE), "lift torque");
    assert_eq!(["unknown place"; 2], [0, 59].map(bench::place_name));
    for reply in (0..=10).map(|number| number + 16 * u64::from(number == 6)) {
        let answer = Answer::of(reply);
        assert_eq!(answer.number() as u64, reply % 16);
        assert!(answer.to_string().starts_with(bench::ANSWERS[answer.number()]));
    }
}
