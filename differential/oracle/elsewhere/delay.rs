//! Stands for the originals' `delay`: a line without delay, which document 01 leaves out. The
//! command last pushed is due at once.

use stable_flight::ActuatorCommand;

#[derive(Debug, Clone)]
pub struct DelayLine {
    current: ActuatorCommand,
}

impl DelayLine {
    /// Zeros until a command is pushed.
    pub fn new(_delay_s: f32) -> Self {
        DelayLine {
            current: ActuatorCommand::default(),
        }
    }

    pub fn push(&mut self, _time_s: f64, command: ActuatorCommand) {
        self.current = command;
    }

    pub fn due_at(&mut self, _time_s: f64) -> &ActuatorCommand {
        &self.current
    }
}
