//! `rillmoth import`: a house file from a capture of the tap.

use std::io;

use rillmoth::{MOST_EVENTS, MOST_FILE_BYTES};

use crate::input;
use crate::rebound::deliver;
use crate::rules::Rules;
use crate::status::Status;
use crate::tell;
use crate::words::Words;

pub fn import(words: &Words, status: &mut Status) -> Result<(), String> {
    let [rules, capture] = &words.operands[..] else {
        return Err(String::from("it needs the rules and one capture"));
    };
    if rules == "-" && capture == "-" {
        return Err(String::from("standard input can be read once only"));
    }
    let new = words.word("-o").ok_or("it needs -o NEW")?;
    let Some(rules) = Rules::read(rules, status) else {
        return Ok(());
    };
    let called = tell::called(capture, "standard input");
    let (bytes, mut events, mut file) = match rooms(capture) {
        Ok(rooms) => rooms,
        Err(error) => {
            tell::failed(&called, "read", &error, status);
            return Ok(());
        }
    };
    match rules.with(&bytes, &mut events, &mut file) {
        Ok(length) => deliver(new, &file[..length], status),
        Err((refusal, of)) => tell::refused(&called, &refusal, of, status),
    }
    Ok(())
}

/// The capture, and room for its events and for the file.
fn rooms(name: &std::ffi::OsStr) -> io::Result<(Vec<u8>, Vec<u8>, Vec<u8>)> {
    Ok((input::capture(name)?, input::room(MOST_EVENTS)?, input::room(MOST_FILE_BYTES)?))
}
