//! Memory that is lent for results and for what is written, and what a call leaves in it. Where it is too short the answer is
//! false, and nothing is written.

use crate::run::UNTOUCHED;
use crate::wrong::Wrong;

/// A word of the results before a call.
pub const UNTOUCHED_WORD: u64 = u64::from_le_bytes([UNTOUCHED; 8]);

/// How many bytes there are to write to, and how many words for results.
#[derive(Clone, Copy, Debug)]
pub struct Lent {
    pub room: usize,
    pub results: usize,
}

/// Whether the memory was long enough; all results; and all bytes, but for those at the end that are as they were.
#[derive(Clone, Debug, PartialEq)]
pub struct Left {
    pub fits: bool,
    pub told: Vec<u64>,
    pub out: Vec<u8>,
}

impl Lent {
    /// What is left of a call for which the memory is too short.
    pub fn alone(&self) -> Left {
        Left { fits: false, told: vec![UNTOUCHED_WORD; self.results], out: Vec::new() }
    }

    /// What is left of a call that tells this, and whose bytes begin so.
    pub fn left(&self, told: &[u64], mut out: Vec<u8>, wrong: Wrong) -> Left {
        let asked = told.len() + (wrong == Wrong::ResultsOneMore) as usize;
        let mut left = self.alone();
        left.fits = self.results >= asked;
        if left.fits || wrong == Wrong::ResultsInPart {
            let count = told.len().min(self.results);
            left.told[..count].copy_from_slice(&told[..count]);
            if wrong == Wrong::ResultsCleared {
                left.told[count..].fill(0);
            }
        }
        if left.fits || wrong == Wrong::WritesWithoutResults {
            out.truncate(self.room);
            while out.last() == Some(&UNTOUCHED) {
                out.pop();
            }
            left.out = out;
        }
        left
    }
}
