//! The standard box, worked out from its rule: no entry is written down here.

use crate::case::Case;
use crate::model::NOT_ALLOWED;
use crate::run::UNTOUCHED;
use crate::wrong::Wrong;

pub const STATES: usize = 64;
pub const INPUTS: usize = 16;
pub const OUTPUTS: usize = 16;

/// The answer of the function that gives the rows: 1 where they fit, else 0; and the whole buffer.
#[derive(Clone, Debug, PartialEq)]
pub struct Given {
    pub told: [u64; 1],
    pub rows: Vec<u8>,
}

/// Gives the rows, into a buffer of `room` bytes.
pub fn give(room: usize, wrong: Wrong) -> Given {
    let rows = rows_as(wrong);
    let mut out = vec![UNTOUCHED; room];
    if room < rows.len() {
        if wrong == Wrong::WritesWhenRefused {
            out.copy_from_slice(&rows[..room]);
        }
        return Given { told: [0], rows: out };
    }
    out[..rows.len()].copy_from_slice(&rows);
    if wrong == Wrong::ClearsRest {
        out[rows.len()..].fill(0);
    }
    Given { told: [1], rows: out }
}

/// Buffers of every length around that of the rows, and some far from it.
pub fn edges() -> Vec<Case> {
    let near = 2040..2056;
    near.chain([0, 1, 32, 1024, 4096]).map(|room| Case::Standard { room }).collect()
}

pub fn rows() -> Vec<u8> {
    rows_as(Wrong::Nothing)
}

/// The rows of the standard box. State e + 16p: e is the next poll number expected, p the polls
/// taken and not yet reported.
pub fn rows_as(wrong: Wrong) -> Vec<u8> {
    let mut rows = Vec::new();
    for state in 0..STATES {
        let expected = state % 16;
        let unreported = state / 16;
        for poll in 0..INPUTS {
            rows.push(polled(expected, unreported, poll, wrong));
        }
        for report in 0..OUTPUTS {
            rows.push(reported(expected, unreported, report));
        }
    }
    rows
}

fn state(expected: usize, unreported: usize) -> u8 {
    (expected + 16 * unreported) as u8
}

fn polled(expected: usize, unreported: usize, poll: usize, wrong: Wrong) -> u8 {
    if poll == expected {
        return if unreported < 3 { state((expected + 1) % 16, unreported + 1) } else { NOT_ALLOWED };
    }
    if asks_again(expected, unreported, poll, wrong) {
        return state(expected, unreported + 1);
    }
    state(expected, unreported)
}

/// Whether a poll makes the box ready to send its last report again.
fn asks_again(expected: usize, unreported: usize, poll: usize, wrong: Wrong) -> bool {
    let met = poll == (expected + 15) % 16;
    match wrong {
        Wrong::RepeatIgnored => false,
        Wrong::RepeatNotInRowZero => met && unreported == 0 && expected > 0,
        Wrong::RepeatsWhileUnreported => met && unreported < 3,
        _ => met && unreported == 0,
    }
}

fn reported(expected: usize, unreported: usize, report: usize) -> u8 {
    if unreported > 0 && report == (expected + 16 - unreported) % 16 {
        state(expected, unreported - 1)
    } else {
        NOT_ALLOWED
    }
}

#[cfg(test)]
mod tests {
    use super::*;

    fn entry(row: usize, column: usize) -> u8 {
        rows()[row * (INPUTS + OUTPUTS) + column]
    }

    #[test]
    fn entries_that_the_documents_cite() {
        assert_eq!(rows().len(), 2048);
        assert_eq!(entry(0, 0), 17);
        assert_eq!(entry(17, INPUTS), 1);
        assert_eq!(entry(1, 0), 17);
        assert_eq!(entry(48, INPUTS + 13), 32);
        assert_eq!(entry(48, 0), 255);
        assert_eq!(entry(48, 5), 48);
    }
    #[test]
    fn sixteen_entries_are_not_document_01s() {
        let before = rows_as(Wrong::RepeatIgnored);
        let places: Vec<usize> = (0..2048).filter(|place| rows()[*place] != before[*place]).collect();
        let repeats: Vec<usize> = (0..16).map(|row| row * (INPUTS + OUTPUTS) + (row + 15) % 16).collect();
        assert_eq!(places, repeats);
        for row in 0..16 {
            assert_eq!((before[repeats[row]], rows()[repeats[row]]), (row as u8, row as u8 + 16));
        }
    }
}
