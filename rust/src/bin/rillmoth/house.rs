//! A good house file, and what is told of one that is not.

use std::ffi::OsStr;

use rillmoth::House;

use crate::input::{self, Input};
use crate::refusals::Of;
use crate::status::Status;
use crate::tell;

/// Reads it; none, where it cannot be read or is refused, which is then told.
pub fn read(name: &OsStr, status: &mut Status) -> Option<(Input, House)> {
    let called = tell::called(name, "standard input");
    let input = input::house(name).map_err(|error| tell::failed(&called, "read", &error, status)).ok()?;
    match House::read(&input.bytes) {
        Ok(house) => Some((input, house)),
        Err(refusal) => {
            tell::refused(&called, &input.told(refusal), Of::File, status);
            None
        }
    }
}
