//! What is turned away: the documents' numbers with their places, one test each. The orders stand
//! with the functions that have them.

use crate::model::{MOST_LOSSES, MOST_STATES, MOST_SYMBOLS, MOST_WAITING, NOT_ALLOWED};
use crate::wrong::Wrong;

/// A number and its place; the second place is the column of number 4, the offset of numbers 20 to 23,
/// and 0 otherwise.
#[derive(Clone, Copy, Debug, PartialEq)]
pub struct Refusal {
    pub number: u64,
    pub place: u64,
    pub second: u64,
}

impl Refusal {
    pub fn told(&self) -> [u64; 3] {
        [self.number, self.place, self.second]
    }

    /// Whether the number has a second place.
    pub fn has_second(&self) -> bool {
        matches!(self.number, 4 | 20..=23)
    }
}

pub fn refuse(number: u64, place: u64) -> Result<(), Refusal> {
    Err(Refusal { number, place, second: 0 })
}

fn within(count: u64, most: usize) -> bool {
    1 <= count && count <= most as u64
}

/// The counts, bounds and rows that somebody hands over, nothing of them tested yet.
#[derive(Clone, Debug)]
pub struct Offered {
    pub states: u64,
    pub inputs: u64,
    pub outputs: u64,
    pub waiting: u64,
    pub losses: u64,
    pub rows: Vec<u8>,
}

impl Offered {
    /// Number 2.
    pub fn states(&self) -> Result<(), Refusal> {
        if within(self.states, MOST_STATES) {
            Ok(())
        } else {
            refuse(2, self.states)
        }
    }

    /// Number 3, the first wrong count: inputs stand before outputs.
    pub fn symbols(&self, wrong: Wrong) -> Result<(), Refusal> {
        let counts = match wrong {
            Wrong::OutputsBeforeInputs => [self.outputs, self.inputs],
            _ => [self.inputs, self.outputs],
        };
        for count in counts {
            if !within(count, MOST_SYMBOLS) {
                return refuse(3, count);
            }
        }
        Ok(())
    }

    /// Number 1. Asked before the counts are known to be in range, the product may be huge.
    pub fn length(&self) -> Result<(), Refusal> {
        let width = self.inputs as u128 + self.outputs as u128;
        if width.checked_mul(self.states as u128) == Some(self.rows.len() as u128) {
            Ok(())
        } else {
            refuse(1, self.rows.len() as u64)
        }
    }

    /// Number 4, the first row and column, reading row by row. Only the rows given are looked at.
    pub fn entries(&self, wrong: Wrong) -> Result<(), Refusal> {
        if wrong == Wrong::BoundsBeforeEntries {
            self.bounds(wrong)?;
        }
        let width = (self.inputs + self.outputs) as usize;
        let mut bad: Vec<(usize, usize)> = Vec::new();
        for (place, entry) in self.rows.iter().enumerate() {
            if *entry != NOT_ALLOWED && *entry as u64 >= self.states {
                bad.push((place / width, place % width));
            }
        }
        if wrong == Wrong::EntriesByColumn {
            bad.sort_by_key(|(row, column)| (*column, *row));
        }
        match bad.first() {
            Some((row, column)) => Err(Refusal { number: 4, place: *row as u64, second: *column as u64 }),
            None => Ok(()),
        }
    }

    /// Numbers 5 and 6.
    pub fn bounds(&self, wrong: Wrong) -> Result<(), Refusal> {
        if wrong == Wrong::LossesBeforeWaiting {
            self.losses()?;
        }
        if !within(self.waiting, MOST_WAITING) {
            return refuse(5, self.waiting);
        }
        self.losses()
    }

    fn losses(&self) -> Result<(), Refusal> {
        if within(self.losses, MOST_LOSSES) {
            Ok(())
        } else {
            refuse(6, self.losses)
        }
    }

    /// The order of an opening: 2, 3, 1, 4, 5, 6.
    pub fn opening(&self, wrong: Wrong) -> Result<(), Refusal> {
        if wrong == Wrong::LengthBeforeStates {
            self.length()?;
        }
        self.states()?;
        self.symbols(wrong)?;
        self.length()?;
        self.entries(wrong)?;
        self.bounds(wrong)
    }
}
