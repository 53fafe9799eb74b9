//! The library's calls, through the wrapper of bindings/.

use bench::{Airframe, State, Tick};

use crate::inputs::Input;

/// An airframe prepared once, and the state of its ticks.
pub struct Prepared {
    airframe: Airframe,
    state: State,
}

impl Prepared {
    pub fn new(input: &Input) -> Self {
        Prepared {
            airframe: Airframe::read(&input.airframe).expect("the library refuses the airframe"),
            state: bench::read_state(&input.state).expect("the library refuses the state"),
        }
    }
}

pub fn tick_prepared(prepared: &mut Prepared, tick: &Tick) -> bool {
    prepared.airframe.tick(&mut prepared.state, tick).is_ok()
}

/// One run over the trace; how many of its ticks were accepted.
pub fn run(input: &Input) -> u64 {
    let start = Prepared::new(input);
    let ran = start.airframe.run(&start.state, &input.trace);
    ran.expect("the library refuses the run").accepted
}
