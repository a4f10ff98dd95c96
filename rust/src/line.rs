//! What is said of the set after one event.

use std::fmt;

/// The bytes that a run writes for each event.
pub const LINE_BYTES: usize = 12;

/// What is said of a set: the states that the box may be in, and how many polls may wait and may have been lost in a row.
#[derive(Clone, Copy, Debug, PartialEq, Eq)]
pub struct Line {
    /// Bit s for state s.
    pub states: u64,
    /// Least and most waiting; none where the set is empty.
    pub waiting: Option<(u8, u8)>,
    /// Least and most run of losses; none where the set is empty.
    pub run: Option<(u8, u8)>,
}

impl Line {
    /// The line of twelve bytes that a run wrote.
    pub fn from_bytes(bytes: [u8; LINE_BYTES]) -> Line {
        let [a, b, c, d, e, f, g, h, least_waiting, most_waiting, least_run, most_run] = bytes;
        let states = u64::from_le_bytes([a, b, c, d, e, f, g, h]);
        let unless_empty = |pair| if states == 0 { None } else { Some(pair) };
        Line { states, waiting: unless_empty((least_waiting, most_waiting)), run: unless_empty((least_run, most_run)) }
    }

    /// The line of a session's set: word 8 × waiting + run.
    pub(crate) fn of_set(set: &[u64]) -> Line {
        let mut line = Line { states: 0, waiting: None, run: None };
        for (place, word) in set.iter().enumerate().filter(|(_, word)| **word != 0) {
            line.states |= word;
            line.waiting = Some(widened(line.waiting, place / 8));
            line.run = Some(widened(line.run, place % 8));
        }
        line
    }
}

/// Least and most, with one more. The places of a set are below 264.
fn widened(pair: Option<(u8, u8)>, one: usize) -> (u8, u8) {
    let one = one as u8;
    pair.map_or((one, one), |(least, most)| (least.min(one), most.max(one)))
}

/// The lines of what [`run`](crate::run) wrote, in the order of the events.
pub fn lines(out: &[u8]) -> impl Iterator<Item = Line> + '_ {
    out.chunks_exact(LINE_BYTES).map(|bytes| {
        let mut twelve = [0; LINE_BYTES];
        twelve.copy_from_slice(bytes);
        Line::from_bytes(twelve)
    })
}

/// As a listing has it: the states as 16 hexadecimal digits, least and most waiting, least and most run, a dash for each pair that is
/// none.
impl fmt::Display for Line {
    fn fmt(&self, to: &mut fmt::Formatter<'_>) -> fmt::Result {
        write!(to, "{:016x}", self.states)?;
        for pair in [self.waiting, self.run] {
            match pair {
                Some((least, most)) => write!(to, " {least}-{most}")?,
                None => write!(to, " -")?,
            }
        }
        Ok(())
    }
}
