//! The rules and the bounds of a house file, for captures.

use std::ffi::OsStr;

use rillmoth::Refusal;

use crate::house;
use crate::refusals::Of;
use crate::status::Status;

/// A good house file.
pub struct Rules {
    file: Vec<u8>,
}

impl Rules {
    /// Reads it; none, where it is no good one, which is then told.
    pub fn read(name: &OsStr, status: &mut Status) -> Option<Rules> {
        let (input, _) = house::read(name, status)?;
        Some(Rules { file: input.bytes })
    }

    /// The house file with these rules and the events of a capture, to the start of `file`: how long it is, or what is refused.
    pub fn with<'a>(&self, capture: &'a [u8], events: &mut [u8], file: &mut [u8]) -> Result<usize, (Refusal, Of<'a>)> {
        let count = rillmoth::import(capture, events).map_err(|refusal| (refusal, Of::Capture(capture)))?;
        rillmoth::retrace(&self.file, &events[..count], file).map_err(|refusal| (refusal, Of::Events))
    }
}
