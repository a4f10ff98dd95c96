//! Whole runs.

use crate::doors;
use crate::{Bounds, Refusal, Table};

/// Runs over a whole trace, as a session opened and fed does. For each event [`LINE_BYTES`](crate::LINE_BYTES) bytes are written to
/// `out`, which [`lines`](crate::lines) reads; bytes after them keep their values. The answer is the index of the flagged event, if one
/// is. Refuses with 2, 3, 1, 4, 5, 6, 9, 7, 10; then `out` is as it was.
///
/// ```
/// use rillmoth::{Bounds, Refusal, Table};
///
/// let table = Table { states: 2, inputs: 1, outputs: 2, rows: &[1, 255, 255, 255, 0, 0] };
/// let mut out = [0; 4 * rillmoth::LINE_BYTES];
/// let flag = rillmoth::run(&table, Bounds { waiting: 2, losses: 1 }, &[0, 0, 0, 0], &mut out)?;
/// assert_eq!(flag, Some(3));
/// let third = rillmoth::lines(&out).nth(2);
/// assert_eq!(third.map(|line| line.to_string()), Some(String::from("0000000000000002 2-2 0-0")));
/// # Ok::<(), Refusal>(())
/// ```
pub fn run(table: &Table, bounds: Bounds, trace: &[u8], out: &mut [u8]) -> Result<Option<u64>, Refusal> {
    let mut results = [0; 4];
    doors::fits(doors::run(table, bounds, trace, out, &mut results));
    let [number, place, second, flag] = results;
    Refusal::told(number, place, second)?;
    Ok(flag.checked_sub(1))
}
