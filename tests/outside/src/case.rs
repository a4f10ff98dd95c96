//! One case: a function of the proved code with all that it is handed, and the answer to it. `Again` is two of them, the
//! reader and then the writer, with what was read.

use crate::capture::{self, Imported, Made};
use crate::house::{self, Answered};
use crate::lent::{Left, Lent};
use crate::listing::{self, Listed};
use crate::refusal::{Offered, Refusal};
use crate::remaker;
use crate::run::{self, Ran};
use crate::session::{self, Session};
use crate::standard::{self, Given};
use crate::writer::{self, Wanted, Written};
use crate::wrong::Wrong;

/// An opening is handed memory too, in which a session may lie before. Of a file that is listed in memory the length is handed over, since
/// only a part of it may be there.
#[derive(Clone, Debug)]
pub enum Case {
    Open { offered: Offered, before: Session },
    Feed { session: Session, event: u8 },
    Run { offered: Offered, trace: Vec<u8>, room: usize },
    Read { file: Vec<u8>, row_room: usize, event_room: usize },
    List { file: Vec<u8> },
    Import { capture: Made, room: usize },
    Hand { capture: Made, place: u64 },
    Write { wanted: Wanted, room: usize },
    Again { file: Vec<u8>, room: usize },
    Standard { room: usize },
    Rebind { file: Vec<u8>, waiting: u64, losses: u64, lent: Lent },
    Retrace { file: Vec<u8>, trace: Vec<u8>, lent: Lent },
    Mend { file: Vec<u8>, lent: Lent },
    Listing { file: Vec<u8>, length: u64, lent: Lent },
}

#[derive(Clone, Debug, PartialEq)]
pub enum Answer {
    Session { told: [u64; 3], session: Session },
    Run(Ran),
    Read(Answered),
    List(Listed),
    Import(Imported),
    Hand([u64; 6]),
    Write(Written),
    Standard(Given),
    Remade(Left),
    Listing(Left),
}

/// The functions, in the order in which the driver numbers them, each with the refusal numbers that
/// it can give.
pub const FUNCTIONS: [(&str, &[u64]); 14] = [
    ("open", &[1, 2, 3, 4, 5, 6]),
    ("feed", &[7, 8, 9]),
    ("run", &[1, 2, 3, 4, 5, 6, 7, 9, 10]),
    ("read", &[1, 2, 3, 4, 5, 6, 7, 9, 10, 11, 12, 14, 20, 21, 22, 23]),
    ("list", &[1, 2, 3, 4, 5, 6, 7, 9, 11, 12, 14, 20, 21, 22, 23]),
    ("import", &[7, 9, 10, 15, 16]),
    ("hand", &[7, 9, 15, 16]),
    ("write", &[1, 2, 3, 4, 5, 6, 7, 9, 10, 14]),
    ("again", &[1, 2, 3, 4, 5, 6, 7, 12, 14, 20, 21, 22, 23]),
    ("standard", &[]),
    ("rebind", &[1, 2, 3, 4, 5, 6, 7, 9, 10, 11, 12, 14, 20, 21, 22, 23]),
    ("retrace", &[1, 2, 3, 4, 5, 6, 7, 9, 10, 11, 12, 14, 20, 21, 22, 23]),
    ("mend", &[10, 11]),
    ("listing", &[1, 2, 3, 4, 5, 6, 7, 9, 11, 12, 14, 20, 21, 22, 23]),
];

fn told(refusal: Option<Refusal>) -> [u64; 3] {
    refusal.map_or([0; 3], |refusal| refusal.told())
}

impl Case {
    /// The place of the case's function in FUNCTIONS.
    pub fn function(&self) -> usize {
        match self {
            Case::Open { .. } => 0,
            Case::Feed { .. } => 1,
            Case::Run { .. } => 2,
            Case::Read { .. } => 3,
            Case::List { .. } => 4,
            Case::Import { .. } => 5,
            Case::Hand { .. } => 6,
            Case::Write { .. } => 7,
            Case::Again { .. } => 8,
            Case::Standard { .. } => 9,
            Case::Rebind { .. } => 10,
            Case::Retrace { .. } => 11,
            Case::Mend { .. } => 12,
            Case::Listing { .. } => 13,
        }
    }

    /// What the right implementation answers, or a wrong one.
    pub fn answer(&self, wrong: Wrong) -> Answer {
        match self {
            Case::Open { offered, before } => {
                let (refusal, session) = session::open(offered, before, wrong);
                Answer::Session { told: told(refusal), session }
            }
            Case::Feed { session, event } => {
                let (refusal, session) = session::feed(session, *event, wrong);
                Answer::Session { told: told(refusal), session }
            }
            Case::Run { offered, trace, room } => Answer::Run(run::run(offered, trace, *room, wrong)),
            Case::Read { file, row_room, event_room } => Answer::Read(house::read(file, *row_room, *event_room, wrong)),
            Case::List { file } => Answer::List(listing::list(file, wrong)),
            Case::Import { capture, room } => Answer::Import(capture::import(&capture.bytes(), *room, wrong)),
            Case::Hand { capture, place } => Answer::Hand(capture::hand(&capture.bytes(), *place, wrong)),
            Case::Write { wanted, room } => Answer::Write(writer::write(wanted, *room, wrong)),
            Case::Again { file, room } => Answer::Write(writer::again(file, *room, wrong)),
            Case::Standard { room } => Answer::Standard(standard::give(*room, wrong)),
            Case::Rebind { file, waiting, losses, lent } => {
                Answer::Remade(remaker::rebind(file, *waiting, *losses, *lent, wrong))
            }
            Case::Retrace { file, trace, lent } => Answer::Remade(remaker::retrace(file, trace, *lent, wrong)),
            Case::Mend { file, lent } => Answer::Remade(remaker::mend(file, *lent, wrong)),
            Case::Listing { file, length, lent } => Answer::Listing(listing::put(file, *length, *lent, wrong)),
        }
    }
}

impl Answer {
    /// Whether a box is flagged that was not refused.
    pub fn flagged(&self) -> bool {
        match self {
            Answer::Session { session, .. } => session.flag.is_some(),
            Answer::Run(ran) => ran.told[3] > 0,
            Answer::Read(_) | Answer::Import(_) | Answer::Hand(_) => false,
            Answer::Write(_) | Answer::Standard(_) | Answer::Remade(_) => false,
            Answer::List(listed) => listed.outcome == listing::FLAGGED,
            Answer::Listing(left) => left.fits && left.told[listing::FLAG] > 0,
        }
    }

    /// The number told, 0 if the case was not refused.
    pub fn number(&self) -> u64 {
        match self {
            Answer::Session { told, .. } => told[0],
            Answer::Run(ran) => ran.told[0],
            Answer::Read(answered) => answered.told[0],
            Answer::Import(imported) => imported.told[0],
            Answer::Hand(told) => told[0],
            Answer::Write(written) => written.told[0],
            Answer::Standard(_) => 0,
            Answer::Remade(left) | Answer::Listing(left) => {
                if left.fits {
                    left.told[0]
                } else {
                    0
                }
            }
            Answer::List(listed) => {
                let mut words = listed.text.split_whitespace();
                match (words.next(), words.next()) {
                    (Some("refused"), Some(number)) => number.parse().unwrap_or(0),
                    _ => 0,
                }
            }
        }
    }
}
