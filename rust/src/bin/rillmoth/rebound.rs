//! `rillmoth rebound`: a house file with other bounds.

use std::ffi::OsStr;
use std::io;

use rillmoth::{Bounds, House, Refusal, Source, MOST_FILE_BYTES};

use crate::input::{self, Input};
use crate::output;
use crate::refusals::Of;
use crate::status::Status;
use crate::tell;
use crate::words::{number, Words};

pub fn rebound(words: &Words, status: &mut Status) -> Result<(), String> {
    let [waiting, losses, name] = &words.operands[..] else {
        return Err(String::from("it needs B, c and one file"));
    };
    let waiting = number(waiting).ok_or("B is a whole number")?;
    let losses = number(losses).ok_or("c is a whole number")?;
    let new = match (words.word("-o"), words.has("-i")) {
        (Some(new), false) => new,
        (None, true) if name == "-" => return Err(String::from("-i needs a file that has a name")),
        (None, true) => name.as_os_str(),
        _ => return Err(String::from("it needs -o NEW or -i")),
    };
    match make(name, Bounds { waiting, losses }, words.has("--mend")) {
        Ok(Ok(file)) => deliver(new, &file, status),
        Ok(Err(refusal)) => tell::refused(&tell::called(name, "standard input"), &refusal, Of::Rebound, status),
        Err(error) => tell::failed(&tell::called(name, "standard input"), "read", &error, status),
    }
    Ok(())
}

/// Writes a file that was made, or tells why not.
pub fn deliver(name: &OsStr, file: &[u8], status: &mut Status) {
    match output::write(name, file) {
        Ok(()) => {}
        Err(error) if name == "-" => tell::unprinted(&error, status),
        Err(error) => tell::failed(&name.to_string_lossy(), "written", &error, status),
    }
}

fn make(name: &OsStr, bounds: Bounds, mend: bool) -> io::Result<Result<Vec<u8>, Refusal>> {
    let input = input::house(name)?;
    let (mut mended, mut file) = (input::room(MOST_FILE_BYTES)?, input::room(MOST_FILE_BYTES)?);
    let made = if mend {
        with_mended(&input, bounds, &mut mended, &mut file)
    } else {
        rillmoth::rebind(&input.bytes, bounds, &mut file)
    };
    Ok(match made {
        Ok(length) => {
            file.truncate(length);
            if mend {
                show(&tell::called(name, "standard input"), &file);
            }
            Ok(file)
        }
        Err(refusal) => Err(input.told(refusal)),
    })
}

fn with_mended(input: &Input, bounds: Bounds, mended: &mut [u8], file: &mut [u8]) -> Result<usize, Refusal> {
    let length = rillmoth::mend(&input.bytes, mended)?;
    rillmoth::rebind(&mended[..length], bounds, file)
}

/// What was read of a setup whose check was taken as unknown.
fn show(called: &str, file: &[u8]) {
    if let Ok(House { states, inputs, outputs, source, events, .. }) = House::read(file) {
        let rules = match source {
            Source::Rows => "its own rows",
            Source::Standard => "the standard box",
        };
        tell::say(&format!(
            "{called}: the check of block 0 was taken as unknown, and made anew. Is this what was meant?\n  states {states}, inputs \
             {inputs}, outputs {outputs}, {rules}, events {}",
            events.len()
        ));
    }
}
