//! What is turned away, by number and places.

use std::fmt;

/// Why something was turned away: a variant for each number, with the places that are told. All counting is from 0.
/// docs/REFUSALS.md says when each is given, and what to do.
#[derive(Clone, Copy, Debug, PartialEq, Eq, Hash)]
pub enum Refusal {
    /// 1: the rows are not states × (inputs + outputs) bytes; with the standard box, there are some.
    BadRows {
        /// How many bytes of rows there are.
        length: u64,
    },
    /// 2: states are not 1 to 64.
    BadStates {
        /// How many there are.
        count: u64,
    },
    /// 3: inputs or outputs are not 1 to 16.
    BadSymbols {
        /// How many inputs there are; where that is right, how many outputs.
        count: u64,
    },
    /// 4: an entry is neither 255 nor below states.
    BadEntry {
        /// The entry's row, which is the state.
        row: u64,
        /// The entry's column: the inputs, then the outputs.
        column: u64,
    },
    /// 5: B is not 1 to 32.
    BadWaiting {
        /// B.
        waiting: u64,
    },
    /// 6: c is not 1 to 8.
    BadLosses {
        /// c.
        losses: u64,
    },
    /// 7: an event byte is not valid.
    BadEvent {
        /// The event's index.
        index: u64,
    },
    /// 8: the session is not sound.
    NotSound,
    /// 9: there are more events than there may be.
    ManyEvents {
        /// How many there are.
        count: u64,
    },
    /// 10: a buffer is too short.
    ShortBuffer {
        /// The length that is needed.
        needed: u64,
    },
    /// 11: a file is empty, is not whole blocks, or has over 7,680 bytes.
    BadLength {
        /// Its length.
        length: u64,
    },
    /// 12: a block's check is wrong.
    BadCheck {
        /// The block.
        block: u64,
    },
    /// 14: the standard box, and the counts are not 64, 16, 16.
    BadStandard,
    /// 15: a capture's header is short or wrong.
    BadHeader,
    /// 16: a capture's record is short, or its packet is not one octet.
    BadRecord {
        /// The record's index.
        index: u64,
    },
    /// 20: a block's kind is wrong, or its order.
    BadKind {
        /// The block.
        block: u64,
        /// Where in the block to look.
        offset: u64,
    },
    /// 21: a block's byte 1 is wrong, or its number.
    BadNumber {
        /// The block.
        block: u64,
        /// Where in the block to look.
        offset: u64,
    },
    /// 22: a block's used count is wrong.
    BadUsed {
        /// The block.
        block: u64,
        /// Where in the block to look.
        offset: u64,
    },
    /// 23: the source is wrong, or a block's zero fill.
    BadFill {
        /// The block.
        block: u64,
        /// Where in the block to look.
        offset: u64,
    },
}

impl Refusal {
    /// What the library told, if it is a refusal. Results that no refusal has are those of another library.
    pub(crate) fn told(number: u64, place: u64, second: u64) -> Result<(), Refusal> {
        Err(match (number, place, second) {
            (0, 0, 0) => return Ok(()),
            (1, length, 0) => Refusal::BadRows { length },
            (2, count, 0) => Refusal::BadStates { count },
            (3, count, 0) => Refusal::BadSymbols { count },
            (4, row, column) => Refusal::BadEntry { row, column },
            (5, waiting, 0) => Refusal::BadWaiting { waiting },
            (6, losses, 0) => Refusal::BadLosses { losses },
            (7, index, 0) => Refusal::BadEvent { index },
            (8, 0, 0) => Refusal::NotSound,
            (9, count, 0) => Refusal::ManyEvents { count },
            (10, needed, 0) => Refusal::ShortBuffer { needed },
            (11, length, 0) => Refusal::BadLength { length },
            (12, block, 0) => Refusal::BadCheck { block },
            (14, 0, 0) => Refusal::BadStandard,
            (15, 0, 0) => Refusal::BadHeader,
            (16, index, 0) => Refusal::BadRecord { index },
            (20, block, offset) => Refusal::BadKind { block, offset },
            (21, block, offset) => Refusal::BadNumber { block, offset },
            (22, block, offset) => Refusal::BadUsed { block, offset },
            (23, block, offset) => Refusal::BadFill { block, offset },
            _ => panic!("librillmoth.a told {number} {place} {second}, which is no refusal of this version"),
        })
    }

    /// Its number, as docs/REFUSALS.md has it.
    pub fn number(&self) -> u64 {
        self.figures()[0]
    }

    /// Its number and both places, 0 for one that it has not.
    pub fn figures(&self) -> [u64; 3] {
        match *self {
            Refusal::BadRows { length } => [1, length, 0],
            Refusal::BadStates { count } => [2, count, 0],
            Refusal::BadSymbols { count } => [3, count, 0],
            Refusal::BadEntry { row, column } => [4, row, column],
            Refusal::BadWaiting { waiting } => [5, waiting, 0],
            Refusal::BadLosses { losses } => [6, losses, 0],
            Refusal::BadEvent { index } => [7, index, 0],
            Refusal::NotSound => [8, 0, 0],
            Refusal::ManyEvents { count } => [9, count, 0],
            Refusal::ShortBuffer { needed } => [10, needed, 0],
            Refusal::BadLength { length } => [11, length, 0],
            Refusal::BadCheck { block } => [12, block, 0],
            Refusal::BadStandard => [14, 0, 0],
            Refusal::BadHeader => [15, 0, 0],
            Refusal::BadRecord { index } => [16, index, 0],
            Refusal::BadKind { block, offset } => [20, block, offset],
            Refusal::BadNumber { block, offset } => [21, block, offset],
            Refusal::BadUsed { block, offset } => [22, block, offset],
            Refusal::BadFill { block, offset } => [23, block, offset],
        }
    }

    /// The line of a listing, as `refused 12 1`; with both places where there are two, as `refused 4 1 2`.
    pub fn listed(&self) -> String {
        let [number, place, second] = self.figures();
        match number {
            4 | 20..=23 => format!("refused {number} {place} {second}"),
            _ => format!("refused {number} {place}"),
        }
    }
}

/// The line of a listing, and what it means: `refused 12 1: the check of block 1 is wrong`.
impl fmt::Display for Refusal {
    fn fmt(&self, to: &mut fmt::Formatter<'_>) -> fmt::Result {
        write!(to, "{}: ", self.listed())?;
        match self {
            Refusal::BadRows { length } => write!(to, "{length} bytes of rows are not states × (inputs + outputs)"),
            Refusal::BadStates { count } => write!(to, "{count} states are not 1 to 64"),
            Refusal::BadSymbols { count } => write!(to, "{count} inputs or outputs are not 1 to 16"),
            Refusal::BadEntry { row, column } => {
                write!(to, "the entry in row {row}, column {column} is neither 255 nor a state")
            }
            Refusal::BadWaiting { waiting } => write!(to, "B is {waiting}, and not 1 to 32"),
            Refusal::BadLosses { losses } => write!(to, "c is {losses}, and not 1 to 8"),
            Refusal::BadEvent { index } => write!(to, "event {index} is not valid"),
            Refusal::NotSound => write!(to, "the session is not sound"),
            Refusal::ManyEvents { count } => write!(to, "{count} events are too many"),
            Refusal::ShortBuffer { needed } => write!(to, "a buffer must have {needed} bytes"),
            Refusal::BadLength { length } => write!(to, "{length} bytes are not 1 to 15 blocks of 512"),
            Refusal::BadCheck { block } => write!(to, "the check of block {block} is wrong"),
            Refusal::BadStandard => write!(to, "the counts are not those of the standard box"),
            Refusal::BadHeader => write!(to, "the header is not that of a capture"),
            Refusal::BadRecord { index } => write!(to, "record {index} is short, or its packet is not one octet"),
            Refusal::BadKind { block, .. } => write!(to, "the kind or the order of block {block} is wrong"),
            Refusal::BadNumber { block, offset } => {
                write!(to, "the number of block {block}, or the zero before it, is wrong at byte {offset}")
            }
            Refusal::BadUsed { block, .. } => write!(to, "the used count of block {block} is wrong"),
            Refusal::BadFill { block, offset } => {
                write!(to, "the source, or the zero fill of block {block}, is wrong at byte {offset}")
            }
        }
    }
}

impl std::error::Error for Refusal {}

#[cfg(test)]
mod tests {
    use super::Refusal;

    const NUMBERS: [u64; 19] = [1, 2, 3, 4, 5, 6, 7, 8, 9, 10, 11, 12, 14, 15, 16, 20, 21, 22, 23];

    #[test]
    fn what_is_told_is_what_the_figures_are() {
        for number in NUMBERS {
            let place = if matches!(number, 8 | 14 | 15) { 0 } else { 40 + number };
            let second = if matches!(number, 4 | 20..=23) { 70 + number } else { 0 };
            let refusal = Refusal::told(number, place, second).expect_err("a refusal");
            assert_eq!(refusal.figures(), [number, place, second]);
            assert!(refusal.to_string().starts_with(&refusal.listed()));
        }
        assert_eq!(Refusal::told(0, 0, 0), Ok(()));
    }

    #[test]
    fn the_line_of_a_listing() {
        assert_eq!(Refusal::BadEntry { row: 1, column: 2 }.listed(), "refused 4 1 2");
        assert_eq!(Refusal::BadCheck { block: 1 }.listed(), "refused 12 1");
        assert_eq!(Refusal::BadStandard.listed(), "refused 14 0");
        assert_eq!(Refusal::BadKind { block: 0, offset: 0 }.listed(), "refused 20 0 0");
    }
}
