//! Files and standard input, read to their ends.

use std::ffi::OsStr;
use std::fs::File;
use std::io::{self, ErrorKind, Read};

use rillmoth::{Refusal, MOST_FILE_BYTES};

/// As much of an input as is kept of it, and its length.
pub struct Input {
    pub bytes: Vec<u8>,
    pub length: usize,
}

impl Input {
    /// A refusal of what was kept, as one of the whole: a file that is too long is told with its own length.
    pub fn told(&self, refusal: Refusal) -> Refusal {
        match refusal {
            Refusal::BadLength { .. } => Refusal::BadLength { length: self.length as u64 },
            other => other,
        }
    }
}

/// Of a house file one byte more is kept than it may have, so that one that is too long shows; the rest is counted.
pub fn house(name: &OsStr) -> io::Result<Input> {
    keep(name, MOST_FILE_BYTES + 1)
}

/// A capture is held whole.
pub fn capture(name: &OsStr) -> io::Result<Vec<u8>> {
    Ok(keep(name, usize::MAX)?.bytes)
}

/// Memory that cannot be had is an error like others.
pub fn room(length: usize) -> io::Result<Vec<u8>> {
    let mut room = Vec::new();
    room.try_reserve_exact(length)?;
    room.resize(length, 0);
    Ok(room)
}

/// `-` is standard input.
fn keep(name: &OsStr, most: usize) -> io::Result<Input> {
    if name == "-" {
        keep_of(io::stdin().lock(), most)
    } else {
        keep_of(File::open(name)?, most)
    }
}

fn keep_of(mut from: impl Read, most: usize) -> io::Result<Input> {
    let mut part = [0; 65_536];
    let mut input = Input { bytes: Vec::new(), length: 0 };
    loop {
        let count = match from.read(&mut part) {
            Ok(0) => return Ok(input),
            Ok(count) => count,
            Err(error) if error.kind() == ErrorKind::Interrupted => continue,
            Err(error) => return Err(error),
        };
        let kept = count.min(most - input.bytes.len());
        input.bytes.try_reserve(kept)?;
        input.bytes.extend_from_slice(&part[..kept]);
        input.length = input.length.saturating_add(count);
    }
}
