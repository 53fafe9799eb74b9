//! Ticks called one after another, each fed the array that the last one left, beside their
//! reflection as a caller makes it: in the block the factors of roll and yaw turned, in the state
//! position and velocity east, i, k, p and r, in each tick the wind east. With the block and
//! prepared, over every sample flight, tick by tick.

use bench::{AIRFRAME_NUMBERS, REPORT_BETA, REPORT_NUMBERS, ROW_BYTES, STATE_ATTITUDE, STATE_POSITION, STATE_RATES};
use bench::{STATE_VELOCITY, State, TICK_BYTES, TICK_WIND, raw};

use crate::{Sample, flight, sample_files};

const TURNED: [usize; 6] = [
    STATE_POSITION + 1,
    STATE_VELOCITY + 1,
    STATE_ATTITUDE + 1,
    STATE_ATTITUDE + 3,
    STATE_RATES,
    STATE_RATES + 2,
];

/// The block whose rows have roll and yaw negated, each by its sign bit.
fn reflected_block(block: &[u8]) -> Vec<u8> {
    let mut reflected = block.to_vec();
    let rows = usize::from(block[1] & 31);
    for row in reflected[block.len() - ROW_BYTES * rows..].chunks_exact_mut(ROW_BYTES) {
        row[1] ^= 0x80;
        row[9] ^= 0x80;
    }
    reflected
}

fn reflected_state(state: &State) -> State {
    let mut reflected = *state;
    for at in TURNED {
        reflected[at] = -reflected[at];
    }
    reflected
}

/// The same number: 0 and -0 are one, all NaNs are one.
fn same(x: f32, y: f32) -> bool {
    x == y || x.is_nan() && y.is_nan()
}

fn all_same(xs: &[f32], ys: &[f32]) -> bool {
    xs.iter().zip(ys).all(|(x, y)| same(*x, *y))
}

/// Flies both chains by `call`, which ticks with the airframe or, where it is told so, the reflected one.
fn flown(sample: &Sample, mut call: impl FnMut(bool, &mut State, &[f32], &mut [f32]) -> u64) -> State {
    let (mut state, mut other) = (sample.state, reflected_state(&sample.state));
    for block in sample.trace.chunks_exact(TICK_BYTES) {
        let tick = bench::read_tick(block).expect("a whole tick");
        let mut turned = tick;
        turned[TICK_WIND + 1] = -turned[TICK_WIND + 1];
        let (mut report, mut reported) = ([0.0; REPORT_NUMBERS], [0.0; REPORT_NUMBERS]);
        let reply = call(false, &mut state, &tick, &mut report);
        assert_eq!(reply, call(true, &mut other, &turned, &mut reported));
        reported[REPORT_BETA] = -reported[REPORT_BETA];
        assert!(all_same(&report, &reported), "{report:?} and {reported:?}");
        assert!(all_same(&reflected_state(&state), &other));
    }
    state
}

#[test]
fn ticks_called_one_after_another_mirror() {
    let files = sample_files();
    assert!(files.len() > 8);
    for file in files {
        let sample = flight(&std::fs::read(&file).expect("a sample flight"));
        let block = sample.airframe.block();
        let turned = reflected_block(block);
        let mut prepared = [[0.0; AIRFRAME_NUMBERS]; 2];
        assert_eq!(raw::prepare(block, &mut prepared[0]), 0);
        assert_eq!(raw::prepare(&turned, &mut prepared[1]), 0);
        let by_block = flown(&sample, |reflect, state, tick, report| {
            raw::tick(if reflect { &turned } else { block }, state, tick, report)
        });
        let by_array = flown(&sample, |reflect, state, tick, report| {
            raw::tick_prepared(&prepared[usize::from(reflect)], state, tick, report)
        });
        assert_eq!(by_block, by_array, "{file:?}");
        let ran = sample.airframe.run(&sample.state, &sample.trace).expect("whole ticks");
        assert_eq!(by_block, ran.state, "{file:?}");
    }
}
