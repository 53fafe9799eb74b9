//! The thrust exponent of an airframe, place 36: it passes from 1 to 3. A motor's share is the square
//! of its running value by the exponent 2, and `powf` by every other.

use bench::{AIRFRAME_NUMBERS, Answer, REPORT_NUMBERS, STATE_NUMBERS, place, raw};

use crate::{Motor, Sample, calm, sample};

const PASS: [f32; 7] = [
    1.0,
    1.0f32.next_up(),
    1.8,
    2.0f32.next_down(),
    2.0,
    2.0f32.next_up(),
    3.0,
];
const REFUSED: [f32; 8] = [
    1.0f32.next_down(),
    3.0f32.next_up(),
    0.0,
    -2.0,
    f32::INFINITY,
    f32::NEG_INFINITY,
    f32::NAN,
    -f32::NAN,
];

const OUT_OF_RANGE: u64 = 6 + 16 * place::THRUST_EXPONENT;
const EXPONENT: usize = place::THRUST_EXPONENT as usize - 1;
/// Running values, those at the edges of a power among them.
const RUNNING: [f32; 10] = [
    0.0,
    -0.0,
    1.0e-45,
    1.0e-38,
    1.0e-13,
    0.001,
    0.3,
    0.7,
    1.0f32.next_down(),
    1.0,
];

/// The sample's block with this exponent.
fn block_with(sample: &Sample, exponent: f32) -> Vec<u8> {
    let mut block = sample.airframe.block().to_vec();
    block[2 + 4 * EXPONENT..][..4].copy_from_slice(&exponent.to_be_bytes());
    block
}

fn numbers_with(sample: &Sample, exponent: f32) -> [f32; AIRFRAME_NUMBERS] {
    let mut numbers = *sample.airframe.numbers();
    numbers[EXPONENT] = exponent;
    numbers
}

#[test]
fn exponents_pass_from_1_to_3() {
    let sample = sample();
    for exponent in PASS {
        let block = block_with(&sample, exponent);
        let mut prepared = [0.0; AIRFRAME_NUMBERS];
        assert_eq!(
            (
                raw::read_airframe(&block),
                raw::prepare(&block, &mut prepared)
            ),
            (0, 0)
        );
        assert_eq!(prepared, numbers_with(&sample, exponent));
        let (mut first, mut second, mut report) =
            (sample.state, sample.state, [0.0; REPORT_NUMBERS]);
        assert_eq!(raw::tick(&block, &mut first, &calm(), &mut report), 0);
        assert_eq!(
            raw::tick_prepared(&prepared, &mut second, &calm(), &mut report),
            0
        );
        assert_eq!(first, second);
    }
}

/// By every call that takes an airframe, before a state that is refused too.
#[test]
fn exponents_beyond_are_refused_with_place_36() {
    let sample = sample();
    let outside = [0.0; STATE_NUMBERS];
    for exponent in REFUSED {
        let (block, numbers) = (
            block_with(&sample, exponent),
            numbers_with(&sample, exponent),
        );
        let mut prepared = [1.0; AIRFRAME_NUMBERS];
        assert_eq!(raw::read_airframe(&block), OUT_OF_RANGE);
        assert_eq!(raw::prepare(&block, &mut prepared), OUT_OF_RANGE);
        assert_eq!(prepared, [0.0; AIRFRAME_NUMBERS]);
        for start in [sample.state, outside] {
            let (mut state, mut report) = (start, [1.0; REPORT_NUMBERS]);
            assert_eq!(
                raw::tick(&block, &mut state, &calm(), &mut report),
                OUT_OF_RANGE
            );
            assert_eq!(
                raw::tick_prepared(&numbers, &mut state, &calm(), &mut report),
                OUT_OF_RANGE
            );
            assert_eq!((state, report), (start, [0.0; REPORT_NUMBERS]));
        }
        let mut state = sample.state;
        assert_eq!(
            raw::run(&block, &mut state, &sample.trace, &mut 0),
            OUT_OF_RANGE
        );
    }
}

#[test]
fn the_answer_names_the_exponent() {
    let refused = bench::Airframe::read(&block_with(&sample(), 3.5)).unwrap_err();
    assert_eq!(
        refused,
        Answer::NumberOutOfRange {
            place: place::THRUST_EXPONENT
        }
    );
    assert!(refused.to_string().ends_with("place 36 (thrust_exponent)"));
}

/// A motor's share of 1 N.
fn share(sample: &Sample, exponent: f32, running: f32) -> f32 {
    let motor = Motor {
        max_thrust_n: 1.0,
        exponent,
        slot: 5,
        running,
        scale: 1.0,
    };
    motor.pull(sample)
}

#[test]
fn a_share_is_the_square_or_the_power() {
    let sample = sample();
    for running in RUNNING {
        for exponent in PASS {
            let expected = if exponent == 2.0 {
                running * running
            } else {
                raw::powf(running, exponent)
            };
            assert_eq!(
                share(&sample, exponent, running),
                expected,
                "{running} by {exponent}"
            );
        }
    }
}

/// The bits are worked out in exact fractions, each result rounded before it is used.
#[test]
fn powers_have_their_bits() {
    let bits = |v, e| raw::powf(v, e).to_bits();
    assert_eq!(bits(0.001, 1.0), 0x3A83_126E);
    assert_eq!(bits(0.7, 1.8), 0x3F06_B714);
    assert_eq!(bits(0.3, 3.0), 0x3CDD_2F1A);
    assert_eq!(
        [2.0f32.next_down(), 2.0f32.next_up()].map(|e| bits(0.7, e)),
        [0x3EFA_E148, 0x3EFA_E146]
    );
    for e in PASS {
        assert_eq!([1.0, 0.0, -0.0].map(|v| raw::powf(v, e)), [1.0, 0.0, 0.0]);
        let none = [
            1.0f32.next_up(),
            -f32::from_bits(1),
            f32::INFINITY,
            f32::NEG_INFINITY,
            f32::NAN,
        ];
        assert!(none.iter().all(|v| raw::powf(*v, e).is_nan()));
    }
}

/// A logarithm of a power of two is a multiple of ln 2, for subnormal numbers too.
#[test]
fn logarithms_have_their_numbers() {
    for n in -149..128 {
        assert_eq!(
            raw::logf(2f64.powi(n) as f32),
            n as f32 * 0.6931472,
            "2^{n}"
        );
    }
    assert_eq!(raw::logf(0.001).to_bits(), 0xC0DD_0C55);
    assert_eq!(
        [0.0, -0.0, f32::INFINITY].map(raw::logf),
        [f32::NEG_INFINITY, f32::NEG_INFINITY, f32::INFINITY]
    );
    assert!(
        [-f32::from_bits(1), f32::NEG_INFINITY, f32::NAN]
            .iter()
            .all(|v| raw::logf(*v).is_nan())
    );
}
