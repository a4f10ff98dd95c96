//! What a box is judged by: its table and the bounds; and the bytes of events.

use crate::doors;

/// A byte of a table's rows: not allowed here.
pub const NOT_ALLOWED: u8 = 255;

/// The rows of every table are at most so many bytes.
pub const MOST_ROW_BYTES: usize = 2048;

/// The rules of a box. Nothing of them is tested before they are used: any numbers and bytes may stand here.
#[derive(Clone, Copy, Debug, PartialEq, Eq)]
pub struct Table<'a> {
    /// How many states, 1 to 64. State 0 is the start.
    pub states: usize,
    /// How many inputs, 1 to 16.
    pub inputs: usize,
    /// How many outputs, 1 to 16.
    pub outputs: usize,
    /// A row for each state, one after another: a byte for each input, then one for each output; the next state, or [`NOT_ALLOWED`].
    pub rows: &'a [u8],
}

/// How much the box may leave undone.
#[derive(Clone, Copy, Debug, PartialEq, Eq)]
pub struct Bounds {
    /// B, 1 to 32: so many polls may wait in the box.
    pub waiting: usize,
    /// c, 1 to 8: fewer than so many polls may be lost in a row, so 1 means that none may.
    pub losses: usize,
}

/// The byte of input `a` as an event.
pub fn input(a: u8) -> u8 {
    a
}

/// The byte of output `a` as an event, of any output below 128.
pub fn output(a: u8) -> u8 {
    a | 128
}

/// An event as a listing names it: `i5` is input 5, `o2` output 2.
pub fn symbol(event: u8) -> String {
    if event < output(0) {
        format!("i{event}")
    } else {
        format!("o{}", event - output(0))
    }
}

/// The rows of the standard box, which has 64 states, 16 inputs and 16 outputs.
pub fn standard_rows() -> [u8; MOST_ROW_BYTES] {
    let mut rows = [0; MOST_ROW_BYTES];
    doors::fits(doors::standard(&mut rows));
    rows
}
