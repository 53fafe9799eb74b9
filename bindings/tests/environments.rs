//! Every call from float environments that are not the default: the bits are those of the default,
//! and the caller's control word comes back whole.

use std::arch::asm;

use bench::{Airframe, AIRFRAME_NUMBERS, REPORT_NUMBERS, TICK_BYTES, raw};

use crate::{Sample, sample};

// Bits of the control word MXCSR.
const MASKS: u32 = 0x1F80;
const UP: u32 = 0x4000;
const DOWN: u32 = 0x2000;
const TO_ZERO: u32 = 0x6000;
const FTZ: u32 = 0x8000;
const DAZ: u32 = 0x40;
const A_FLAG: u32 = 0x20;

const ENVIRONMENTS: [(&str, u32); 10] = [
    ("rounding up", MASKS | UP),
    ("rounding down", MASKS | DOWN),
    ("rounding to zero", MASKS | TO_ZERO),
    ("FTZ", MASKS | FTZ),
    ("DAZ", MASKS | DAZ),
    ("FTZ and DAZ", MASKS | FTZ | DAZ),
    ("rounding up, FTZ and DAZ", MASKS | UP | FTZ | DAZ),
    ("rounding up, a flag raised", MASKS | UP | A_FLAG),
    ("all exceptions unmasked", 0),
    ("all exceptions unmasked, a flag raised", A_FLAG),
];

extern "C" fn make(call: &mut &mut dyn FnMut()) {
    call();
}

/// Makes the call with this control word, as a host would that has set it; the word after it.
fn made_in(control: u32, mut call: &mut dyn FnMut()) -> u32 {
    let mut after = 0u32;
    // `make` is called as C calls; r12 to r14 live through it. At the end the default is in force.
    unsafe {
        asm!(
            "ldmxcsr [r12]",
            "call {make}",
            "stmxcsr [r13]",
            "ldmxcsr [r14]",
            make = sym make,
            in("rdi") &mut call,
            in("r12") &control,
            in("r13") &mut after,
            in("r14") &MASKS,
            clobber_abi("C"),
        )
    };
    after
}

/// What calls gave: replies, counts and the bits of numbers.
#[derive(Default, PartialEq, Debug)]
struct Given(Vec<u64>);

impl Given {
    fn count(&mut self, number: u64) {
        self.0.push(number);
    }

    fn numbers(&mut self, numbers: &[f32]) {
        self.0.extend(numbers.iter().map(|x| u64::from(x.to_bits())));
    }

    fn bytes(&mut self, bytes: &[u8]) {
        self.0.extend(bytes.iter().map(|byte| u64::from(*byte)));
    }
}

/// The sample made to tell environments apart: a row factor whose products are rounded, two servos
/// without command, of which one is subnormal and one becomes so, and commands that are subnormal
/// and NaN.
fn telling() -> Sample {
    let mut sample = sample();
    let mut block = sample.airframe.block().to_vec();
    let last = block.len() - 4;
    block[last..].copy_from_slice(&0.3f32.to_be_bytes());
    sample.airframe = Airframe::read(&block).unwrap();
    sample.state[21..23].copy_from_slice(&[0x0123_45E5, 0x0001_3520].map(f32::from_bits));
    sample.trace[48..56].fill(0);
    sample.trace[72..80].copy_from_slice(&[0x00, 0x01, 0x35, 0x20, 0x7F, 0xC0, 0x00, 0x01]);
    sample
}

fn safe_calls(sample: &Sample) -> Given {
    let mut given = Given::default();
    let airframe = Airframe::read(sample.airframe.block()).unwrap();
    given.numbers(airframe.numbers());
    let block = bench::write_state(&sample.state);
    given.bytes(&block);
    let mut state = bench::read_state(&block).unwrap();
    given.numbers(&state);
    let tick = bench::read_tick(&sample.trace[..TICK_BYTES]).unwrap();
    given.bytes(&bench::write_tick(&tick));
    let report = airframe.tick(&mut state, &tick).unwrap();
    given.numbers(&[report.alpha_rad, report.beta_rad, report.thrust_n]);
    given.numbers(&state);
    let (ran, reflected) = airframe.mirrored_pair(&sample.state, &sample.trace).unwrap();
    for end in [airframe.run(&sample.state, &sample.trace).unwrap(), ran, reflected] {
        given.numbers(&end.state);
        given.count(end.accepted);
    }
    given
}

fn raw_calls(sample: &Sample) -> Given {
    let mut given = Given::default();
    let block = sample.airframe.block();
    let (mut airframe, mut report) = ([0.0; AIRFRAME_NUMBERS], [0.0; REPORT_NUMBERS]);
    given.count(raw::read_airframe(block));
    given.count(raw::prepare(block, &mut airframe));
    let mut tick = [0.0; 20];
    tick[0] = 0.01;
    let (mut first, mut second) = (sample.state, sample.state);
    given.count(raw::tick(block, &mut first, &tick, &mut report));
    given.count(raw::tick_prepared(&airframe, &mut second, &tick, &mut report));
    given.numbers(&first);
    given.numbers(&second);
    given.numbers(&report);
    given
}

fn functions(_: &Sample) -> Given {
    let mut given = Given::default();
    given.numbers(&[raw::sqrtf(2.0), raw::expf(1.0), raw::sinf(1.0), raw::cosf(1.0)]);
    given.numbers(&[raw::asinf(0.3), raw::atan2f(1.0, 3.0), raw::logf(0.3), raw::powf(0.3, 1.8)]);
    given.numbers(&[raw::density(1234.5)]);
    given
}

/// The calls give the default's bits in every environment, which is left as it was.
fn hold(calls: fn(&Sample) -> Given) {
    let sample = telling();
    let expected = calls(&sample);
    for (name, control) in ENVIRONMENTS {
        let mut given = Given::default();
        let after = made_in(control, &mut || given = calls(&sample));
        assert_eq!(given, expected, "{name}");
        assert_eq!(after, control, "{name}");
    }
}

#[test]
fn safe_calls_give_the_defaults_bits() {
    hold(safe_calls);
}

#[test]
fn raw_calls_give_the_defaults_bits() {
    hold(raw_calls);
}

#[test]
fn elementary_functions_give_the_defaults_bits() {
    hold(functions);
}

#[test]
fn the_environment_is_told() {
    let told = |control| {
        let mut told = false;
        made_in(control, &mut || told = bench::float_environment_is_default());
        told
    };
    assert!(told(MASKS) && told(MASKS | 0x3F));
    for (name, control) in ENVIRONMENTS {
        assert!(!told(control), "{name}");
    }
}

/// Rounded up, 1 + 2^-30 is the next float above 1: before the call, after it, and not in it.
#[test]
fn the_callers_own_sums_stay_in_its_rounding() {
    let (one, little) = (std::hint::black_box(1.0f32), std::hint::black_box(2.0f32.powi(-30)));
    let mut sums = [0.0; 2];
    let mut root = 0.0;
    made_in(MASKS | UP, &mut || {
        sums[0] = std::hint::black_box(one) + little;
        root = raw::sqrtf(one);
        sums[1] = std::hint::black_box(one) + little;
    });
    assert_eq!((sums, root), ([1.0f32.next_up(); 2], 1.0));
}
