//! Captures of the tap.

use crate::doors;
use crate::Refusal;

/// A session, a run and a capture have at most so many events.
pub const MOST_EVENTS: usize = 1_048_576;

/// Imports a capture: one event a record, to the start of `events`, which needs a byte for each record; later bytes keep their values.
/// The answer is how many there are. Refuses with 15; then 16 over all records; then 9, 7, 10; then `events` is as it was. Octets are
/// not held to a table: feeding them is.
pub fn import(capture: &[u8], events: &mut [u8]) -> Result<usize, Refusal> {
    let mut results = [0; 4];
    doors::fits(doors::import(capture, events, &mut results));
    let [number, place, second, count] = results;
    Refusal::told(number, place, second)?;
    Ok(count as usize)
}

/// A capture and a place in it: one event a call, for programs that have no room for all.
///
/// ```
/// use rillmoth::{Capture, Refusal};
///
/// let mut file = vec![0xd4, 0xc3, 0xb2, 0xa1, 2, 0, 4, 0, 0, 0, 0, 0, 0, 0, 0, 0, 0, 0, 4, 0, 147, 0, 0, 0];
/// for octet in [0, 128] {
///     file.extend([0, 0, 0, 0, 0, 0, 0, 0, 1, 0, 0, 0, 1, 0, 0, 0, octet]);
/// }
/// let mut capture = Capture::new(&file);
/// let mut events = Vec::new();
/// while let Some(event) = capture.hand()? {
///     events.push(event);
/// }
/// assert_eq!(events, [0, 128]);
/// # Ok::<(), Refusal>(())
/// ```
#[derive(Clone, Copy, Debug, PartialEq, Eq)]
pub struct Capture<'a> {
    bytes: &'a [u8],
    place: usize,
}

impl<'a> Capture<'a> {
    /// At its first record.
    pub fn new(bytes: &'a [u8]) -> Capture<'a> {
        Capture::at(bytes, 0)
    }

    /// At the record of this index, whether there is one or not.
    pub fn at(bytes: &'a [u8], place: usize) -> Capture<'a> {
        Capture { bytes, place }
    }

    /// The index of the record that comes next.
    pub fn place(&self) -> usize {
        self.place
    }

    /// The next event, none at the end. Refuses with 15; then at its own record 16, 9, 7; then it stays where it is.
    pub fn hand(&mut self) -> Result<Option<u8>, Refusal> {
        let mut results = [0; 6];
        doors::fits(doors::hand(self.bytes, self.place, &mut results));
        let [number, place, second, there, event, next] = results;
        self.place = next as usize;
        Refusal::told(number, place, second)?;
        Ok(if there == 0 { None } else { Some(event as u8) })
    }
}
