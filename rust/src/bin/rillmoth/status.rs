//! The exit status: a sum of what happened.

use std::process::ExitCode;

/// Some box is flagged.
pub const FLAGGED: u8 = 1;
/// Something was refused.
pub const REFUSED: u8 = 2;
/// Something could not be read, written or built.
pub const FAILED: u8 = 4;
/// The words are not those of the command.
pub const USAGE: u8 = 8;

/// What happened so far.
#[derive(Clone, Copy, Default)]
pub struct Status(u8);

impl Status {
    pub fn add(&mut self, what: u8) {
        self.0 |= what;
    }

    pub fn code(self) -> ExitCode {
        ExitCode::from(self.0)
    }
}
