//! The library's calls on one case, each with what must hold after it.

use bench::{AIRFRAME_LIFT, AIRFRAME_LIFT_PLACES, AIRFRAME_LIFT_USED, AIRFRAME_NUMBERS, HEADER_LIFT, REPORT_NUMBERS, SLOTS};
use bench::{STATE_BYTES, STATE_BYTES_NO_LIFT, STATE_BYTES_UNSCALED, STATE_LIFT, STATE_NUMBERS, STATE_SCALES};
use bench::{TICK_BYTES, TICK_NUMBERS, place, raw};

use crate::guarded::{Element, Guarded};
use crate::make::{Case, numbers};
use crate::watch;

pub const NAMES: [&str; 10] = [
    "bench_read_airframe",
    "bench_prepare",
    "bench_read_state",
    "bench_write_state",
    "bench_read_tick",
    "bench_write_tick",
    "bench_tick",
    "bench_tick_prepared",
    "bench_run",
    "bench_mirrored_pair",
];

const READ_AIRFRAME: usize = 0;
const PREPARE: usize = 1;
const READ_STATE: usize = 2;
const WRITE_STATE: usize = 3;
const READ_TICK: usize = 4;
const WRITE_TICK: usize = 5;
const TICK: usize = 6;
const TICK_PREPARED: usize = 7;
const RUN: usize = 8;
const PAIR: usize = 9;

/// What went wrong, in words.
type Held = Result<(), String>;

/// How many calls were made, by name and by answer.
#[derive(Default)]
pub struct Counts {
    pub calls: [u64; NAMES.len()],
    pub answers: [u64; 11],
}

fn hold(holds: bool, call: usize, what: &str) -> Held {
    if holds {
        Ok(())
    } else {
        Err(format!("{}: {what}", NAMES[call]))
    }
}

/// One call, watched over; its reply must be one of the eleven answers, with a place for 6 only.
fn made(counts: &mut Counts, call: usize, run: impl FnOnce() -> u64) -> Result<u64, String> {
    watch::begin(call);
    let reply = run();
    watch::end();
    let (answer, place) = (reply % 16, reply / 16);
    let known = match answer {
        6 => (1..=58).contains(&place),
        _ => answer < 11 && place == 0,
    };
    hold(known, call, &format!("reply {reply}"))?;
    counts.calls[call] += 1;
    counts.answers[answer as usize] += 1;
    Ok(reply)
}

fn whole<T: Element>(buffer: &Guarded<T>, call: usize) -> Held {
    hold(buffer.guards_whole(), call, "wrote outside a buffer")
}

/// A buffer that was only lent to be read, or that a refusal leaves.
fn left<T: Element>(buffer: &Guarded<T>, call: usize) -> Held {
    whole(buffer, call)?;
    hold(buffer.as_found(), call, "a buffer is not as found")
}

fn zeros(row: &Guarded<f32>) -> bool {
    row.content().iter().all(|x| *x == 0.0)
}

/// A row read into: as found where its length is wrong, zeros where the block is refused.
fn read_into(row: &Guarded<f32>, right: usize, reply: u64, call: usize) -> Held {
    if row.content().len() != right {
        hold(reply == 1, call, "took a row of another length")?;
        return left(row, call);
    }
    whole(row, call)?;
    hold(reply == 0 || zeros(row), call, "a refused block, no zeros")
}

/// The reply to the case's airframe block.
fn airframe(counts: &mut Counts, case: &Case) -> Result<u64, String> {
    let block = Guarded::of(&case.block);
    let reply = made(counts, READ_AIRFRAME, || {
        raw::read_airframe(block.content())
    })?;
    left(&block, READ_AIRFRAME)?;
    Ok(reply)
}

fn prepare(counts: &mut Counts, case: &Case, read: u64) -> Held {
    let block = Guarded::of(&case.block);
    let mut row = Guarded::of(&case.airframe);
    let reply = made(counts, PREPARE, || {
        raw::prepare(block.content(), row.lent())
    })?;
    left(&block, PREPARE)?;
    read_into(&row, AIRFRAME_NUMBERS, reply, PREPARE)?;
    let exponent = row.content().get(place::THRUST_EXPONENT as usize - 1);
    let good = reply != 0 || exponent.is_some_and(|x| (1.0..=3.0).contains(x));
    hold(good, PREPARE, "accepted a thrust exponent beyond its limits")?;
    let good = reply != 0 || lift_of(block.content(), row.content());
    hold(good, PREPARE, "other lift rotors than its header announces, or beyond their limits")?;
    let same = case.airframe.len() != AIRFRAME_NUMBERS || reply == read;
    hold(same, PREPARE, "another reply than bench_read_airframe")
}

/// Whether a block's header announces lift numbers.
fn announces_lift(block: &[u8]) -> bool {
    block.first().is_some_and(|first| usize::from(*first) & HEADER_LIFT != 0)
}

/// Whether the lift rotors of an accepted airframe's row are those that its block announces: none and
/// nothing but zeros, or some with an exponent within its limits and marks of 0 or 1.
fn lift_of(block: &[u8], row: &[f32]) -> bool {
    let lift = &row[AIRFRAME_LIFT_PLACES..];
    if !announces_lift(block) {
        return lift.iter().all(|x| *x == 0.0);
    }
    let mut marks = row[AIRFRAME_LIFT_USED..AIRFRAME_LIFT_USED + SLOTS].iter();
    row[AIRFRAME_LIFT] == 1.0 && (1.0..=3.0).contains(&lift[1]) && marks.all(|x| [0.0, 1.0].contains(x))
}

fn read_state(counts: &mut Counts, case: &Case) -> Held {
    let block = Guarded::of(&case.state_block);
    let mut row = Guarded::of(&case.state);
    let reply = made(counts, READ_STATE, || {
        raw::read_state(block.content(), row.lent())
    })?;
    left(&block, READ_STATE)?;
    read_into(&row, STATE_NUMBERS, reply, READ_STATE)?;
    let known = [STATE_BYTES, STATE_BYTES_NO_LIFT, STATE_BYTES_UNSCALED].contains(&case.state_block.len());
    let length = case.state.len() == STATE_NUMBERS && known;
    hold(length == (reply != 1), READ_STATE, "wrong about a length")?;
    let good = reply != 0 || state_of(block.content(), row.content());
    hold(good, READ_STATE, "other numbers than the block's")
}

fn scales(row: &[f32]) -> &[f32] {
    &row[STATE_SCALES..STATE_SCALES + SLOTS]
}

fn lifting(row: &[f32]) -> &[f32] {
    &row[STATE_LIFT..STATE_LIFT + SLOTS]
}

/// Whether an accepted state's row is its block's, with scales of 1 and lift rotors of 0 where the block
/// has none, and has all of them within their limits.
fn state_of(block: &[u8], row: &[f32]) -> bool {
    let built = block.len() != STATE_BYTES_UNSCALED || scales(row).iter().all(|x| *x == 1.0);
    let still = block.len() == STATE_BYTES || lifting(row).iter().all(|x| *x == 0.0);
    let mut both = scales(row).iter().chain(lifting(row));
    built && still && written(block, row) && both.all(|x| (0.0..=1.0).contains(x))
}

/// Whether a state's row has of another's what no tick changes, but for a NaN's bits: the scales and,
/// where there are no lift numbers, the lift rotors' running values.
fn same_kept(row: &[f32], start: &[f32], lifted: bool) -> bool {
    let end = if lifted { STATE_LIFT } else { STATE_NUMBERS };
    let mut pairs = row[STATE_SCALES..end].iter().zip(&start[STATE_SCALES..end]);
    pairs.all(|(x, y)| x.to_bits() == y.to_bits() || (x.is_nan() && y.is_nan()))
}

/// The bytes are the row's numbers from its first on, but for a NaN's bits.
fn written(block: &[u8], row: &[f32]) -> bool {
    let mut pairs = numbers(block).into_iter().zip(row);
    pairs.all(|(x, y)| x.to_bits() == y.to_bits() || (x.is_nan() && y.is_nan()))
}

/// A row written into a block: left as found where either has another length.
fn after_write(block: &Guarded<u8>, row: &Guarded<f32>, fit: bool, reply: u64, call: usize) -> Held {
    left(row, call)?;
    if !fit {
        hold(reply == 1, call, "took another length")?;
        return left(block, call);
    }
    whole(block, call)?;
    let good = reply == 0 && written(block.content(), row.content());
    hold(good, call, "other bytes than the row's")
}

fn write_state(counts: &mut Counts, case: &Case) -> Held {
    let row = Guarded::of(&case.state);
    let mut block = Guarded::of(&case.lent_block);
    let reply = made(counts, WRITE_STATE, || {
        raw::write_state(row.content(), block.lent())
    })?;
    let fit = case.state.len() == STATE_NUMBERS && case.lent_block.len() == STATE_BYTES;
    after_write(&block, &row, fit, reply, WRITE_STATE)
}

fn read_tick(counts: &mut Counts, case: &Case) -> Held {
    let block = Guarded::of(&case.tick_block);
    let mut row = Guarded::of(&case.tick);
    let reply = made(counts, READ_TICK, || {
        raw::read_tick(block.content(), row.lent())
    })?;
    left(&block, READ_TICK)?;
    read_into(&row, TICK_NUMBERS, reply, READ_TICK)?;
    let length = case.tick.len() == TICK_NUMBERS && case.tick_block.len() == TICK_BYTES;
    hold(reply == u64::from(!length), READ_TICK, "wrong about a length")?;
    let good = !length || written(block.content(), row.content());
    hold(good, READ_TICK, "other numbers than the block's")
}

fn write_tick(counts: &mut Counts, case: &Case) -> Held {
    let row = Guarded::of(&case.tick);
    let mut block = Guarded::of(&case.lent_tick_block);
    let reply = made(counts, WRITE_TICK, || {
        raw::write_tick(row.content(), block.lent())
    })?;
    let fit = case.tick.len() == TICK_NUMBERS && case.lent_tick_block.len() == TICK_BYTES;
    after_write(&block, &row, fit, reply, WRITE_TICK)
}

/// Whether a row is a state within the envelope, by the library's own reading.
fn inside(row: &[f32]) -> bool {
    let mut block = [0; STATE_BYTES];
    let mut read = [0.0; STATE_NUMBERS];
    raw::write_state(row, &mut block) == 0 && raw::read_state(&block, &mut read) == 0
}

/// The rows of a tick: state, tick and report.
struct TickRows {
    state: Guarded<f32>,
    tick: Guarded<f32>,
    report: Guarded<f32>,
}

impl TickRows {
    fn of(case: &Case) -> Self {
        TickRows {
            state: Guarded::of(&case.state),
            tick: Guarded::of(&case.tick),
            report: Guarded::of(&case.report),
        }
    }

    fn fit(&self) -> bool {
        let lengths = [&self.state, &self.tick, &self.report].map(|row| row.content().len());
        lengths == [STATE_NUMBERS, TICK_NUMBERS, REPORT_NUMBERS]
    }

    fn wind_usable(&self) -> bool {
        let wind = self.tick.content().get(1..4);
        wind.is_some_and(|wind| wind.iter().all(|x| x.abs() <= 200.0))
    }

    /// What must hold of them after a tick of an airframe with lift numbers, or without.
    fn after(&self, fit: bool, lifted: bool, reply: u64, call: usize) -> Held {
        left(&self.tick, call)?;
        whole(&self.state, call)?;
        whole(&self.report, call)?;
        if reply == 0 {
            hold(fit, call, "took a row of another length")?;
            hold(self.wind_usable(), call, "flew in an unusable wind")?;
            let kept = same_kept(self.state.content(), self.state.found(), lifted);
            hold(kept, call, "changed a thrust scale, or a lift rotor without lift numbers")?;
            return hold(inside(self.state.content()), call, "a state outside");
        }
        hold(reply != 10 || !self.wind_usable(), call, "refused a usable wind")?;
        left(&self.state, call)?;
        if fit {
            return hold(zeros(&self.report), call, "refused, but reports no zeros");
        }
        hold(reply == 1, call, "rows of another length, not 1")?;
        left(&self.report, call)
    }
}

/// The state after a tick through the block.
fn tick(counts: &mut Counts, case: &Case) -> Result<(u64, Vec<f32>), String> {
    let block = Guarded::of(&case.block);
    let mut rows = TickRows::of(case);
    let reply = made(counts, TICK, || {
        let state = rows.state.lent();
        raw::tick(
            block.content(),
            state,
            rows.tick.content(),
            rows.report.lent(),
        )
    })?;
    left(&block, TICK)?;
    rows.after(rows.fit(), announces_lift(&case.block), reply, TICK)?;
    Ok((reply, rows.state.content().to_vec()))
}

fn prepared_tick(counts: &mut Counts, case: &Case, row: &[f32]) -> Result<(u64, Vec<f32>), String> {
    let airframe = Guarded::of(row);
    let mut rows = TickRows::of(case);
    let reply = made(counts, TICK_PREPARED, || {
        let state = rows.state.lent();
        raw::tick_prepared(
            airframe.content(),
            state,
            rows.tick.content(),
            rows.report.lent(),
        )
    })?;
    left(&airframe, TICK_PREPARED)?;
    let lifted = row.get(AIRFRAME_LIFT).is_some_and(|x| *x != 0.0);
    rows.after(rows.fit() && row.len() == AIRFRAME_NUMBERS, lifted, reply, TICK_PREPARED)?;
    Ok((reply, rows.state.content().to_vec()))
}

fn same_bits(a: &[f32], b: &[f32]) -> bool {
    a.len() == b.len() && a.iter().zip(b).all(|(x, y)| x.to_bits() == y.to_bits())
}

/// A tick through the block, one through any row and, for an accepted block, one through its own
/// row, which must give the same.
fn ticks(counts: &mut Counts, case: &Case, read: u64) -> Held {
    let (reply, state) = tick(counts, case)?;
    prepared_tick(counts, case, &case.airframe)?;
    if read != 0 {
        return Ok(());
    }
    let mut own = [0.0; AIRFRAME_NUMBERS];
    raw::prepare(&case.block, &mut own);
    let (other, same) = prepared_tick(counts, case, &own)?;
    let alike = reply == other && same_bits(&state, &same);
    hold(alike, TICK_PREPARED, "another tick than bench_tick's")
}

/// The reply a run must give: for the row, the trace, then the airframe.
fn run_reply(case: &Case, fit: bool, read: u64) -> u64 {
    if fit && case.trace.len().is_multiple_of(TICK_BYTES) {
        read
    } else {
        1
    }
}

/// A run's end state; what no tick changes is as in the case's state, in the reflection too.
fn after_run(row: &Guarded<f32>, reply: u64, count: u64, case: &Case, call: usize) -> Held {
    whole(row, call)?;
    let most = case.trace.len() as u64 / TICK_BYTES as u64;
    hold(count <= most, call, "more accepted ticks than ticks")?;
    if reply != 0 {
        hold(count == 0, call, "refused, but counts ticks")?;
        return left(row, call);
    }
    let kept = same_kept(row.content(), &case.state, announces_lift(&case.block));
    hold(kept, call, "changed a thrust scale, or a lift rotor without lift numbers")?;
    let held = count == 0 || inside(row.content());
    hold(held, call, "a state outside")
}

fn run(counts: &mut Counts, case: &Case, read: u64) -> Held {
    let (block, trace) = (Guarded::of(&case.block), Guarded::of(&case.trace));
    let mut state = Guarded::of(&case.state);
    let mut accepted = u64::MAX;
    let reply = made(counts, RUN, || {
        raw::run(
            block.content(),
            state.lent(),
            trace.content(),
            &mut accepted,
        )
    })?;
    left(&block, RUN)?;
    left(&trace, RUN)?;
    let right = run_reply(case, case.state.len() == STATE_NUMBERS, read);
    hold(reply == right, RUN, "another reply than its parts give")?;
    after_run(&state, reply, accepted, case, RUN)
}

fn pair(counts: &mut Counts, case: &Case, read: u64) -> Held {
    let (block, trace) = (Guarded::of(&case.block), Guarded::of(&case.trace));
    let mut state = Guarded::of(&case.state);
    let mut reflected = Guarded::of(&case.reflected);
    let mut both = [u64::MAX; 2];
    let reply = made(counts, PAIR, || {
        let (first, second) = (state.lent(), reflected.lent());
        raw::mirrored_pair(block.content(), first, second, trace.content(), &mut both)
    })?;
    left(&block, PAIR)?;
    left(&trace, PAIR)?;
    let fit = case.state.len() == STATE_NUMBERS && case.reflected.len() == STATE_NUMBERS;
    let right = run_reply(case, fit, read);
    hold(reply == right, PAIR, "another reply than its parts give")?;
    hold(both[0] == both[1], PAIR, "the counts differ")?;
    after_run(&state, reply, both[0], case, PAIR)?;
    after_run(&reflected, reply, both[1], case, PAIR)
}

/// All calls on one case.
pub fn all(counts: &mut Counts, case: &Case) -> Held {
    let read = airframe(counts, case)?;
    prepare(counts, case, read)?;
    read_state(counts, case)?;
    write_state(counts, case)?;
    read_tick(counts, case)?;
    write_tick(counts, case)?;
    ticks(counts, case, read)?;
    run(counts, case, read)?;
    pair(counts, case, read)
}
