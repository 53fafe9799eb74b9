//! An input of fly, taken apart for the library's calls.

use oracle::blocks::{
    Airframe, Header, Refusal, STATE_BYTES, State, TICK_BYTES, read_airframe, read_tick,
};
use oracle::hand::at_rest;
use oracle::rows::{StateRow, TickRow, state_row, tick_row};

pub struct Input<'a> {
    pub airframe: &'a [u8],
    pub state: &'a [u8],
    pub trace: &'a [u8],
}

impl<'a> Input<'a> {
    /// The airframe by its header's length, the state, the trace. Where the header is bad or the
    /// bytes are short, all that is left is the airframe's, or the state's.
    pub fn of(bytes: &'a [u8]) -> Self {
        let length = Header::read(bytes).map_or(bytes.len(), |header| header.length());
        let (airframe, rest) = bytes.split_at(length.min(bytes.len()));
        let (state, trace) = rest.split_at(STATE_BYTES.min(rest.len()));
        Input {
            airframe,
            state,
            trace,
        }
    }

    pub fn read(&self) -> Result<Airframe, Refusal> {
        read_airframe(self.airframe)
    }

    /// The state to start from, not tested; level and at rest where the block is cut short.
    pub fn start(&self) -> State {
        State::of_block(self.state).unwrap_or(at_rest())
    }

    pub fn start_row(&self) -> StateRow {
        state_row(&self.start())
    }

    /// The trace's whole ticks as rows.
    pub fn ticks(&self) -> impl Iterator<Item = TickRow> {
        let blocks = self.trace.chunks_exact(TICK_BYTES);
        blocks.filter_map(|block| read_tick(block).ok().map(|tick| tick_row(&tick)))
    }
}
