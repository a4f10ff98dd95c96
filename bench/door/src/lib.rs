//! Loops through the Rust door, which bench/doors.cpp measures beside the same loops in C++ through the C door.

use rillmoth::{Bounds, Session, Table};
use std::slice::from_raw_parts;
use std::slice::from_raw_parts_mut;

/// A table and its bounds, as bench/doors.cpp hands them over.
#[repr(C)]
pub struct Box {
    rows: *const u8,
    rows_count: usize,
    states: usize,
    inputs: usize,
    outputs: usize,
    waiting: usize,
    losses: usize,
}

impl Box {
    fn parts(&self) -> (Table<'_>, Bounds) {
        let rows = unsafe { from_raw_parts(self.rows, self.rows_count) };
        let table = Table { states: self.states, inputs: self.inputs, outputs: self.outputs, rows };
        (table, Bounds { waiting: self.waiting, losses: self.losses })
    }
}

/// Opens a session, feeds it the trace, and hands over its words. Answers whether nothing was refused.
///
/// # Safety
/// The addresses are good for as many bytes, and `words` for the words of a session.
#[no_mangle]
pub unsafe extern "C" fn door_feeds(of: &Box, trace: *const u8, count: usize, words: *mut u64) -> bool {
    let (table, bounds) = of.parts();
    let Ok(mut session) = Session::open(&table, bounds) else { return false };
    for event in unsafe { from_raw_parts(trace, count) } {
        if session.feed(*event).is_err() {
            return false;
        }
    }
    unsafe { from_raw_parts_mut(words, rillmoth::SESSION_WORDS) }.copy_from_slice(session.words());
    true
}

/// Runs over the trace as often as this. Answers whether nothing was refused.
///
/// # Safety
/// The addresses are good for as many bytes.
#[no_mangle]
pub unsafe extern "C" fn door_runs(
    of: &Box,
    trace: *const u8,
    count: usize,
    out: *mut u8,
    room: usize,
    times: usize,
) -> bool {
    let (table, bounds) = of.parts();
    let (trace, out) = unsafe { (from_raw_parts(trace, count), from_raw_parts_mut(out, room)) };
    (0..times).all(|_| rillmoth::run(&table, bounds, trace, out).is_ok())
}
