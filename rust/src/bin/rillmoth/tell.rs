//! What is said on standard error, and counts in the exit status. Where it cannot be written, nothing more can be said.

use std::ffi::OsStr;
use std::io::{self, ErrorKind, Write};

use rillmoth::Refusal;

use crate::refusals::{advice, Of};
use crate::status::{Status, FAILED, REFUSED};

pub fn say(text: &str) {
    let _ = writeln!(io::stderr(), "rillmoth: {text}");
}

/// The name of an input or output, as people would say it.
pub fn called(name: &OsStr, stream: &str) -> String {
    if name == "-" {
        String::from(stream)
    } else {
        name.to_string_lossy().into_owned()
    }
}

/// What is wrong, where, what to do, and where to read on.
pub fn refused(name: &str, refusal: &Refusal, of: Of, status: &mut Status) {
    let (what, number) = (advice(refusal, of), refusal.number());
    say(&format!("{name}: {refusal}\n  {what}\n  More: rillmoth help {number}, or docs/REFUSALS.md"));
    status.add(REFUSED);
}

/// An error of the system.
pub fn failed(name: &str, what: &str, error: &io::Error, status: &mut Status) {
    say(&format!("{name}: could not be {what}: {}", plain(error)));
    status.add(FAILED);
}

/// Text that could not go to standard output. A pipe whose reader has gone is no fault that anybody need be told of.
pub fn unprinted(error: &io::Error, status: &mut Status) {
    match error.kind() {
        ErrorKind::BrokenPipe => status.add(FAILED),
        _ => failed("standard output", "written", error, status),
    }
}

/// Without the number that Rust puts behind it.
fn plain(error: &io::Error) -> String {
    let text = error.to_string();
    match text.find(" (os error") {
        Some(end) => String::from(&text[..end]),
        None => text,
    }
}
