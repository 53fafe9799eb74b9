//! The flight bench for Rust, over the static library libbench_c.a: see README.md beside this file.
//!
//! An array of another length does not compile; blocks and traces are bytes of any
//! length, and the bench answers for them. An [`Airframe`] is one that the bench has accepted.
//! Every call is made in the default float environment, whatever the caller's is.

// A program may call only some of it.
#![allow(dead_code, unused_imports)]

use std::error::Error;
use std::fmt;

// How many numbers an array and how many bytes a block has; the answers and places by name.
include!("lengths.rs");

/// In order: position and velocity (north, east, down; m, m/s), the attitude's w, i, j, k, the
/// rates p, q, r (rad/s), the running values of 8 motors and of 8 servos, the thrust scales of the 8
/// motors, of which 1 is as built, and the running values of 8 lift rotors. A state filled by hand
/// needs the scales too: see [`motors_as_built`]. Lift rotors are those of an airframe with lift
/// numbers; without them no tick changes their running values, which do nothing.
pub type State = [f32; STATE_NUMBERS];

/// Sets the 8 thrust scales of a state to 1. For a state that is filled by hand: scales left at 0
/// are accepted, and the motors along body x then give no thrust; lift rotors have no scales. A state
/// that was read has its scales.
pub fn motors_as_built(state: &mut State) {
    state[STATE_SCALES..STATE_SCALES + SLOTS].fill(1.0);
}

/// The air's density in kg/m³ at a height over the sea in m, which is a state's position down negated:
/// 1.225 at 0, less above, the same at and beyond the ends of its table, -1000 m and 5000 m. A tick has
/// the density of the height where it starts. NaN for a NaN.
pub fn density(height_m: f32) -> f32 {
    raw::density(height_m)
}

/// In order: the step (s), the wind (north, east, down; m/s), and the commands of 8 motors and of
/// 8 servos.
pub type Tick = [f32; TICK_NUMBERS];

/// What the bench answers.
#[derive(Debug, Clone, Copy, PartialEq, Eq)]
pub enum Answer {
    Done,
    WrongLength,
    WrongVersion,
    WrongFalloff,
    ReservedBit,
    TooManyRows,
    NumberOutOfRange { place: u64 },
    StateOutside,
    StepOutside,
    Departure,
    WindUnusable,
}

impl Answer {
    /// The answer of a reply: its number in the low four bits, the place above them.
    pub fn of(reply: u64) -> Self {
        match reply % 16 {
            0 => Answer::Done,
            1 => Answer::WrongLength,
            2 => Answer::WrongVersion,
            3 => Answer::WrongFalloff,
            4 => Answer::ReservedBit,
            5 => Answer::TooManyRows,
            6 => Answer::NumberOutOfRange { place: reply / 16 },
            7 => Answer::StateOutside,
            8 => Answer::StepOutside,
            9 => Answer::Departure,
            10 => Answer::WindUnusable,
            number => panic!("the bench has no answer {number}"),
        }
    }

    /// Its number, as in a reply.
    pub fn number(self) -> usize {
        match self {
            Answer::Done => 0,
            Answer::WrongLength => 1,
            Answer::WrongVersion => 2,
            Answer::WrongFalloff => 3,
            Answer::ReservedBit => 4,
            Answer::TooManyRows => 5,
            Answer::NumberOutOfRange { .. } => 6,
            Answer::StateOutside => 7,
            Answer::StepOutside => 8,
            Answer::Departure => 9,
            Answer::WindUnusable => 10,
        }
    }

    /// `Ok` where the bench is done, the answer where it refuses.
    fn refused(reply: u64) -> Result<(), Answer> {
        match Answer::of(reply) {
            Answer::Done => Ok(()),
            answer => Err(answer),
        }
    }
}

/// The name of a place; "unknown place" for a number that is none.
pub fn place_name(place: u64) -> &'static str {
    let mut numbered = (1..).zip(PLACES);
    let found = numbered.find(|(number, _)| *number == place);
    found.map_or("unknown place", |(_, name)| name)
}

impl fmt::Display for Answer {
    fn fmt(&self, f: &mut fmt::Formatter<'_>) -> fmt::Result {
        f.write_str(ANSWERS[self.number()])?;
        match self {
            Answer::NumberOutOfRange { place } => {
                write!(f, ", place {place} ({})", place_name(*place))
            }
            _ => Ok(()),
        }
    }
}

impl Error for Answer {}

/// What an accepted tick reports. The thrust is that of the motors along body x; lift rotors are not in
/// it.
#[derive(Debug, Clone, Copy, PartialEq)]
pub struct Report {
    pub alpha_rad: f32,
    pub beta_rad: f32,
    pub thrust_n: f32,
}

/// The end of a run: its last state and how many ticks were accepted.
#[derive(Debug, Clone, Copy, PartialEq)]
pub struct Ran {
    pub state: State,
    pub accepted: u64,
}

/// Reads a state block, whose numbers must be within the envelope. One without the running values of
/// lift rotors, of [`STATE_BYTES_NO_LIFT`] bytes, is read too: they are then 0. So is one without
/// thrust scales besides, of [`STATE_BYTES_UNSCALED`] bytes: they are then 1.
pub fn read_state(block: &[u8]) -> Result<State, Answer> {
    let mut state = [0.0; STATE_NUMBERS];
    Answer::refused(raw::read_state(block, &mut state))?;
    Ok(state)
}

/// The block of a state with all its numbers, which are written untested.
pub fn write_state(state: &State) -> [u8; STATE_BYTES] {
    let mut block = [0; STATE_BYTES];
    // Both lengths are right, so it is never refused.
    raw::write_state(state, &mut block);
    block
}

/// Reads a tick block. Its numbers are not tested.
pub fn read_tick(block: &[u8]) -> Result<Tick, Answer> {
    let mut tick = [0.0; TICK_NUMBERS];
    Answer::refused(raw::read_tick(block, &mut tick))?;
    Ok(tick)
}

/// The block of a tick. Its numbers are not tested.
pub fn write_tick(tick: &Tick) -> [u8; TICK_BYTES] {
    let mut block = [0; TICK_BYTES];
    // Both lengths are right, so it is never refused.
    raw::write_tick(tick, &mut block);
    block
}

/// The length of the airframe block that `bytes` start with, as its header gives it; none where
/// the header is cut short or gives more than 16 rows.
pub fn airframe_length(bytes: &[u8]) -> Option<usize> {
    let [first, second, ..] = *bytes else {
        return None;
    };
    let rows = usize::from(second & 31);
    let wash = if first & 2 == 0 { 0 } else { WASH_BYTES };
    let lift = if usize::from(first) & HEADER_LIFT == 0 {
        0
    } else {
        LIFT_BYTES
    };
    (rows <= MOST_ROWS).then_some(AIRFRAME_BYTES + wash + lift + ROW_BYTES * rows)
}

/// An airframe that the bench has accepted: its block and its array of numbers.
#[derive(Debug, Clone)]
pub struct Airframe {
    block: Vec<u8>,
    numbers: [f32; AIRFRAME_NUMBERS],
}

impl Airframe {
    /// Reads an airframe block; its length is the one its header gives.
    pub fn read(block: &[u8]) -> Result<Self, Answer> {
        let mut numbers = [0.0; AIRFRAME_NUMBERS];
        Answer::refused(raw::prepare(block, &mut numbers))?;
        let block = block.to_vec();
        Ok(Airframe { block, numbers })
    }

    pub fn block(&self) -> &[u8] {
        &self.block
    }

    pub fn numbers(&self) -> &[f32; AIRFRAME_NUMBERS] {
        &self.numbers
    }

    /// One tick: moves `state` on, but for its thrust scales and, where the airframe has no lift
    /// numbers, its lift rotors. A refused tick leaves it as it was.
    pub fn tick(&self, state: &mut State, tick: &Tick) -> Result<Report, Answer> {
        let mut report = [0.0; REPORT_NUMBERS];
        Answer::refused(raw::tick_prepared(&self.numbers, state, tick, &mut report))?;
        let [alpha_rad, beta_rad, thrust_n] = report;
        Ok(Report {
            alpha_rad,
            beta_rad,
            thrust_n,
        })
    }

    /// Flies the trace, tick blocks one after another, from `state`. A refused tick does not end
    /// the run; only a trace that is not whole ticks is refused.
    pub fn run(&self, state: &State, trace: &[u8]) -> Result<Ran, Answer> {
        let (mut state, mut accepted) = (*state, 0);
        Answer::refused(raw::run(&self.block, &mut state, trace, &mut accepted))?;
        Ok(Ran { state, accepted })
    }

    /// The run, and its reflection: left and right exchanged in airframe, state and ticks.
    pub fn mirrored_pair(&self, state: &State, trace: &[u8]) -> Result<(Ran, Ran), Answer> {
        let (mut end, mut reflected) = (*state, *state);
        let mut counts = [0, 0];
        let reply = raw::mirrored_pair(&self.block, &mut end, &mut reflected, trace, &mut counts);
        Answer::refused(reply)?;
        let ran = |state, accepted| Ran { state, accepted };
        Ok((ran(end, counts[0]), ran(reflected, counts[1])))
    }
}

/// Whether the float environment is the default, so that the calls have nothing to set.
pub fn float_environment_is_default() -> bool {
    guard::is_default(guard::control_word())
}

/// The float environment that the library needs: rounding to nearest even, subnormals kept,
/// exceptions masked.
mod guard {
    use std::arch::asm;

    /// The control word MXCSR of the default, but for its six flags.
    const DEFAULT: u32 = 0x1F80;
    const FLAGS: u32 = 0x3F;

    pub fn control_word() -> u32 {
        let mut word = 0;
        // Writes the four bytes of the word.
        unsafe { asm!("stmxcsr [{}]", in(reg) &mut word, options(nostack, preserves_flags)) };
        word
    }

    pub fn is_default(word: u32) -> bool {
        word & !FLAGS == DEFAULT
    }

    extern "C" fn make(call: &mut &mut dyn FnMut()) {
        call();
    }

    /// Makes the call in the default, and puts `was` back, all in one block of assembly: Rust lets
    /// none end with another control word, and nothing of the caller's can be moved into it.
    #[cold]
    #[inline(never)]
    fn switched(was: u32, mut call: &mut dyn FnMut()) {
        // `make` is called as C calls; r12 lives through it, and the stack is aligned here.
        unsafe {
            asm!(
                "ldmxcsr [{default}]",
                "call {make}",
                "ldmxcsr [r12]",
                default = in(reg) &DEFAULT,
                make = sym make,
                in("rdi") &mut call,
                in("r12") &was,
                clobber_abi("C"),
            )
        };
    }

    /// A call of the library in the default. Where it is in force, nothing is set.
    #[inline]
    pub fn guarded<R: Default>(mut call: impl FnMut() -> R) -> R {
        let was = control_word();
        if is_default(was) {
            return call();
        }
        let mut result = R::default();
        switched(was, &mut || result = call());
        result
    }
}

/// The library's calls over slices of any length. Each gives the bench's reply: 1 for an array of
/// another length, which leaves what was lent as found. include/bench.h says what each call does.
pub mod raw {
    use super::guard::guarded;

    mod library {
        unsafe extern "C" {
            pub fn bench_read_airframe(block: *const u8, block_len: usize) -> u64;
            pub fn bench_prepare(
                block: *const u8,
                block_len: usize,
                airframe: *mut f32,
                airframe_len: usize,
            ) -> u64;
            pub fn bench_read_state(
                block: *const u8,
                block_len: usize,
                state: *mut f32,
                state_len: usize,
            ) -> u64;
            pub fn bench_write_state(
                state: *const f32,
                state_len: usize,
                block: *mut u8,
                block_len: usize,
            ) -> u64;
            pub fn bench_read_tick(
                block: *const u8,
                block_len: usize,
                tick: *mut f32,
                tick_len: usize,
            ) -> u64;
            pub fn bench_write_tick(
                tick: *const f32,
                tick_len: usize,
                block: *mut u8,
                block_len: usize,
            ) -> u64;
            pub fn bench_tick(
                airframe: *const u8,
                airframe_len: usize,
                state: *mut f32,
                state_len: usize,
                tick: *const f32,
                tick_len: usize,
                report: *mut f32,
                report_len: usize,
            ) -> u64;
            pub fn bench_tick_prepared(
                airframe: *const f32,
                airframe_len: usize,
                state: *mut f32,
                state_len: usize,
                tick: *const f32,
                tick_len: usize,
                report: *mut f32,
                report_len: usize,
            ) -> u64;
            pub fn bench_run(
                airframe: *const u8,
                airframe_len: usize,
                state: *mut f32,
                state_len: usize,
                trace: *const u8,
                trace_len: usize,
                accepted: *mut u64,
            ) -> u64;
            pub fn bench_mirrored_pair(
                airframe: *const u8,
                airframe_len: usize,
                state: *mut f32,
                state_len: usize,
                reflected: *mut f32,
                reflected_len: usize,
                trace: *const u8,
                trace_len: usize,
                accepted: *mut u64,
                accepted_reflected: *mut u64,
            ) -> u64;
            pub safe fn bench_sqrtf(x: f32) -> f32;
            pub safe fn bench_expf(x: f32) -> f32;
            pub safe fn bench_logf(v: f32) -> f32;
            pub safe fn bench_powf(v: f32, e: f32) -> f32;
            pub safe fn bench_density(height_m: f32) -> f32;
            pub safe fn bench_sinf(x: f32) -> f32;
            pub safe fn bench_cosf(x: f32) -> f32;
            pub safe fn bench_asinf(s: f32) -> f32;
            pub safe fn bench_atan2f(y: f32, x: f32) -> f32;
        }
    }

    pub fn sqrtf(x: f32) -> f32 {
        guarded(|| library::bench_sqrtf(x))
    }

    pub fn expf(x: f32) -> f32 {
        guarded(|| library::bench_expf(x))
    }

    pub fn logf(v: f32) -> f32 {
        guarded(|| library::bench_logf(v))
    }

    pub fn powf(v: f32, e: f32) -> f32 {
        guarded(|| library::bench_powf(v, e))
    }

    pub fn density(height_m: f32) -> f32 {
        guarded(|| library::bench_density(height_m))
    }

    pub fn sinf(x: f32) -> f32 {
        guarded(|| library::bench_sinf(x))
    }

    pub fn cosf(x: f32) -> f32 {
        guarded(|| library::bench_cosf(x))
    }

    pub fn asinf(s: f32) -> f32 {
        guarded(|| library::bench_asinf(s))
    }

    pub fn atan2f(y: f32, x: f32) -> f32 {
        guarded(|| library::bench_atan2f(y, x))
    }

    // In every call below: a slice's pointer is never null and lies with its length in memory lent
    // for the call, the borrows keep the buffers apart, and the library keeps no pointer.

    pub fn read_airframe(block: &[u8]) -> u64 {
        guarded(|| unsafe { library::bench_read_airframe(block.as_ptr(), block.len()) })
    }

    pub fn prepare(block: &[u8], airframe: &mut [f32]) -> u64 {
        let (bytes, length) = (block.as_ptr(), block.len());
        let (array, numbers) = (airframe.as_mut_ptr(), airframe.len());
        guarded(|| unsafe { library::bench_prepare(bytes, length, array, numbers) })
    }

    pub fn read_state(block: &[u8], state: &mut [f32]) -> u64 {
        let (bytes, length) = (block.as_ptr(), block.len());
        let (array, numbers) = (state.as_mut_ptr(), state.len());
        guarded(|| unsafe { library::bench_read_state(bytes, length, array, numbers) })
    }

    pub fn write_state(state: &[f32], block: &mut [u8]) -> u64 {
        let (array, numbers) = (state.as_ptr(), state.len());
        let (bytes, length) = (block.as_mut_ptr(), block.len());
        guarded(|| unsafe { library::bench_write_state(array, numbers, bytes, length) })
    }

    pub fn read_tick(block: &[u8], tick: &mut [f32]) -> u64 {
        let (bytes, length) = (block.as_ptr(), block.len());
        let (array, numbers) = (tick.as_mut_ptr(), tick.len());
        guarded(|| unsafe { library::bench_read_tick(bytes, length, array, numbers) })
    }

    pub fn write_tick(tick: &[f32], block: &mut [u8]) -> u64 {
        let (array, numbers) = (tick.as_ptr(), tick.len());
        let (bytes, length) = (block.as_mut_ptr(), block.len());
        guarded(|| unsafe { library::bench_write_tick(array, numbers, bytes, length) })
    }

    pub fn tick(airframe: &[u8], state: &mut [f32], tick: &[f32], report: &mut [f32]) -> u64 {
        guarded(|| unsafe {
            library::bench_tick(
                airframe.as_ptr(),
                airframe.len(),
                state.as_mut_ptr(),
                state.len(),
                tick.as_ptr(),
                tick.len(),
                report.as_mut_ptr(),
                report.len(),
            )
        })
    }

    pub fn tick_prepared(
        airframe: &[f32],
        state: &mut [f32],
        tick: &[f32],
        report: &mut [f32],
    ) -> u64 {
        guarded(|| unsafe {
            library::bench_tick_prepared(
                airframe.as_ptr(),
                airframe.len(),
                state.as_mut_ptr(),
                state.len(),
                tick.as_ptr(),
                tick.len(),
                report.as_mut_ptr(),
                report.len(),
            )
        })
    }

    pub fn run(airframe: &[u8], state: &mut [f32], trace: &[u8], accepted: &mut u64) -> u64 {
        guarded(|| unsafe {
            library::bench_run(
                airframe.as_ptr(),
                airframe.len(),
                state.as_mut_ptr(),
                state.len(),
                trace.as_ptr(),
                trace.len(),
                accepted,
            )
        })
    }

    /// The counts are those of the run and of its reflection.
    pub fn mirrored_pair(
        airframe: &[u8],
        state: &mut [f32],
        reflected: &mut [f32],
        trace: &[u8],
        accepted: &mut [u64; 2],
    ) -> u64 {
        let [first, second] = accepted;
        guarded(|| unsafe {
            library::bench_mirrored_pair(
                airframe.as_ptr(),
                airframe.len(),
                state.as_mut_ptr(),
                state.len(),
                reflected.as_mut_ptr(),
                reflected.len(),
                trace.as_ptr(),
                trace.len(),
                first,
                second,
            )
        })
    }
}
