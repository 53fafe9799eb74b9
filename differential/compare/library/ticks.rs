//! Ticks one after another, through the block and through the prepared row. Each side goes on from
//! the state it handed back itself, after a refusal too.

use bench::raw;
use oracle::blocks::{Airframe, Refusal, State, TICK_NUMBERS};
use oracle::rows::{AIRFRAME_ROW, REPORT_ROW, StateRow, TickRow, state_row, tick_of};
use oracle::tick::{Report, tick};

use super::figures::Figures;
use super::input::Input;
use super::rows::{kept_or, reply, same_kept, same_numbers};

/// What a report's row holds before a call.
const UNWRITTEN: f32 = 12345.0;

/// A tick of 0.01 s in still air without commands.
const CALM: TickRow = {
    let mut row = [0.0; TICK_NUMBERS];
    row[0] = 0.01;
    row
};

/// One side's state in the library, what its last call gave, and whether its airframe has lift numbers.
pub struct Side {
    lifted: bool,
    state: StateRow,
    found: StateRow,
    report: [f32; REPORT_ROW],
    reply: u64,
}

impl Side {
    pub fn new(state: StateRow, lifted: bool) -> Self {
        Side {
            lifted,
            state,
            found: state,
            report: [UNWRITTEN; REPORT_ROW],
            reply: 0,
        }
    }

    /// One call of the library with this side's state.
    pub fn call(&mut self, tick: impl Fn(&mut [f32], &mut [f32]) -> u64) {
        self.found = self.state;
        self.report = [UNWRITTEN; REPORT_ROW];
        self.reply = tick(&mut self.state, &mut self.report);
    }

    /// Whether the last call gave this report and next state.
    pub fn gave(&self, report: &Report, next: &StateRow) -> bool {
        let told = [report.alpha, report.beta, report.thrust];
        self.reply == reply(report.answer, report.place)
            && same_numbers(&self.report, &told)
            && kept_or(report.answer == 0, &self.state, &self.found, next)
            && same_kept(&self.state, &self.found, self.lifted)
    }
}

/// Where the oracle's ticks end.
pub struct Flown {
    pub state: State,
    pub accepted: u64,
}

/// The oracle's tick with an airframe as it was read.
fn expected(read: &Result<Airframe, Refusal>, state: &State, row: &TickRow) -> (Report, State) {
    match read {
        Ok(airframe) => tick(airframe, state, &tick_of(row)),
        Err(refusal) => (Report::refused(*refusal), *state),
    }
}

/// A refused block is prepared as the zero airframe, which each tick refuses with its own answer.
fn expected_prepared(
    read: &Result<Airframe, Refusal>,
    by_block: &(Report, State),
    state: &State,
    row: &TickRow,
) -> (Report, State) {
    match read {
        Ok(_) => *by_block,
        Err(_) => tick(&Airframe::zero(), state, &tick_of(row)),
    }
}

/// Flies the input's ticks on all sides; none where one differs. A refused block, which may have no
/// tick behind it, gets one more.
pub fn fly(input: &Input, figures: &mut Figures) -> Option<Flown> {
    let read = input.read();
    let mut prepared = [0.0; AIRFRAME_ROW];
    raw::prepare(input.airframe, &mut prepared);
    let (mut state, mut accepted) = (input.start(), 0);
    let lifted = read.as_ref().is_ok_and(|airframe| airframe.lift.is_some());
    let mut by_block = Side::new(input.start_row(), lifted);
    let mut by_row = Side::new(input.start_row(), lifted);
    let one_more = read.is_err().then_some(CALM);
    for row in input.ticks().chain(one_more) {
        let one = expected(&read, &state, &row);
        let other = expected_prepared(&read, &one, &state, &row);
        by_block.call(|state, report| raw::tick(input.airframe, state, &row, report));
        by_row.call(|state, report| raw::tick_prepared(&prepared, state, &row, report));
        figures.ticked(&one.0, read.as_ref().ok(), state.height_m(), &one.1, &row);
        let next = state_row(&one.1);
        if !by_block.gave(&one.0, &next) || !by_row.gave(&other.0, &next) {
            return None;
        }
        state = one.1;
        accepted += u64::from(one.0.answer == 0);
    }
    Some(Flown { state, accepted })
}
