//! Runs over a trace and mirrored pairs: end states, counts and replies.

use bench::raw;
use oracle::blocks::{Airframe, TICK_BYTES};
use oracle::limits::LENGTH;
use oracle::mirror::{reflected_airframe, reflected_state};
use oracle::rows::{StateRow, state_row};
use oracle::tick::run;

use super::figures::Figures;
use super::input::Input;
use super::rows::{kept_or, reply, reply_to, same_kept};
use super::ticks::Flown;

/// What a count holds before a call.
const UNWRITTEN: u64 = u64::MAX;

/// The byte of a tick block that holds the sign of its wind east.
const WIND_EAST: usize = 8;

/// What a run must give: its reply, end state and count.
pub struct Ran {
    reply: u64,
    state: StateRow,
    accepted: u64,
}

impl Ran {
    fn refused(reply: u64, input: &Input) -> Self {
        Ran {
            reply,
            state: input.start_row(),
            accepted: 0,
        }
    }

    fn is(&self, reply: u64, row: &StateRow, found: &StateRow, accepted: u64) -> bool {
        reply == self.reply
            && accepted == self.accepted
            && kept_or(reply == 0, row, found, &self.state)
    }
}

/// The airframe of the input, or the reply that refuses its run: to the trace's length first, then
/// to the block.
fn accepted(input: &Input) -> Result<Airframe, u64> {
    if !input.trace.len().is_multiple_of(TICK_BYTES) {
        return Err(reply(LENGTH, 0));
    }
    let read = input.read();
    let refused = reply_to(&read);
    read.map_err(|_| refused)
}

/// The run of the input whose ticks ended as `flown`.
fn expected(input: &Input, flown: &Flown) -> Ran {
    match accepted(input) {
        Ok(_) => Ran {
            reply: 0,
            state: state_row(&flown.state),
            accepted: flown.accepted,
        },
        Err(reply) => Ran::refused(reply, input),
    }
}

fn reflected_trace(trace: &[u8]) -> Vec<u8> {
    let mut bytes = trace.to_vec();
    for sign in bytes.iter_mut().skip(WIND_EAST).step_by(TICK_BYTES) {
        *sign ^= 0x80;
    }
    bytes
}

/// The reflected run: reflected airframe, state and ticks.
fn reflection(input: &Input, airframe: &Airframe) -> Ran {
    let start = reflected_state(&input.start());
    let trace = reflected_trace(input.trace);
    let (answer, state, accepted) = run(&reflected_airframe(airframe), &start, &trace);
    Ran {
        reply: reply(answer, 0),
        state: state_row(&state),
        accepted,
    }
}

fn expected_reflection(input: &Input) -> Ran {
    match accepted(input) {
        Ok(airframe) => reflection(input, &airframe),
        Err(reply) => Ran::refused(reply, input),
    }
}

/// Whether the run's lift rotors can change.
fn lifted(input: &Input) -> bool {
    accepted(input).is_ok_and(|airframe| airframe.lift.is_some())
}

fn run_differs(input: &Input, ran: &Ran) -> bool {
    let found = input.start_row();
    let (mut state, mut accepted) = (found, UNWRITTEN);
    let reply = raw::run(input.airframe, &mut state, input.trace, &mut accepted);
    !ran.is(reply, &state, &found, accepted) || !same_kept(&state, &found, lifted(input))
}

fn pair_differs(input: &Input, ran: &Ran) -> bool {
    let found = input.start_row();
    // What stands in the reflected row at first does not matter.
    let other = found.map(|x| x + 1.0);
    let (mut state, mut reflected) = (found, other);
    let mut counts = [UNWRITTEN; 2];
    let reply = raw::mirrored_pair(
        input.airframe,
        &mut state,
        &mut reflected,
        input.trace,
        &mut counts,
    );
    let second = expected_reflection(input);
    // Both runs leave what no tick changes, and the reflection starts with the state's.
    let kept = [
        (&state, &found),
        (&reflected, if reply == 0 { &found } else { &other }),
    ];
    let lifted = lifted(input);
    let mut kept = kept.iter();
    !ran.is(reply, &state, &found, counts[0])
        || !second.is(reply, &reflected, &other, counts[1])
        || !kept.all(|(row, start)| same_kept(*row, *start, lifted))
}

/// The input's state with two faults at once: a refused block, and a trace a byte short.
fn faulty<'a>(input: &Input<'a>) -> Input<'a> {
    Input {
        airframe: &[0x20, 0],
        state: input.state,
        trace: &[0; TICK_BYTES - 1],
    }
}

/// Whether the run or the mirrored pair differs from the ticks flown one by one.
pub fn differ(input: &Input, flown: &Flown, figures: &mut Figures) -> bool {
    figures.run_ticks += (input.trace.len() / TICK_BYTES) as u64;
    [input, &faulty(input)].into_iter().any(|input| {
        let ran = expected(input, flown);
        figures.runs += 1;
        figures.pairs += 1;
        run_differs(input, &ran) || pair_differs(input, &ran)
    })
}
