//! Sessions.

use crate::doors;
use crate::{Bounds, Line, Refusal, Table};

/// The words of a session.
pub const SESSION_WORDS: usize = 267;

/// The bytes of a session.
pub const SESSION_BYTES: usize = 2085;

/// The words of a session's set, which come first.
pub const SET_WORDS: usize = 264;

// Where the counts stand among the words.
const EVENTS: usize = 264;
const ARRIVED: usize = 265;
const FLAG: usize = 266;

/// What is known of one box after some events. It owns its memory, 4,221 bytes, and has nothing elsewhere: a copy of it is a session of
/// its own, and its words and bytes can be kept or sent.
#[derive(Clone, PartialEq, Eq)]
pub struct Session {
    words: [u64; SESSION_WORDS],
    bytes: [u8; SESSION_BYTES],
}

impl Session {
    /// Opens a session: in state 0, nothing waiting, no events seen. Refuses with 2, 3, 1, 4, 5, 6.
    pub fn open(table: &Table, bounds: Bounds) -> Result<Session, Refusal> {
        let mut session = Session::from_parts([0; SESSION_WORDS], [0; SESSION_BYTES]);
        session.reopen(table, bounds)?;
        Ok(session)
    }

    /// Opens it anew, in the memory that it has. Refuses as [`open`](Session::open) does; then it is as it was, and goes on.
    pub fn reopen(&mut self, table: &Table, bounds: Bounds) -> Result<(), Refusal> {
        let mut results = [0; 3];
        doors::fits(doors::open(table, bounds, &mut self.words, &mut self.bytes, &mut results));
        let [number, place, second] = results;
        Refusal::told(number, place, second)
    }

    /// Feeds it one event. Refuses with 8, 9, 7; then it is as it was. After a flag events are still counted.
    pub fn feed(&mut self, event: u8) -> Result<(), Refusal> {
        let mut results = [0; 3];
        doors::fits(doors::feed(&mut self.words, &mut self.bytes, event, &mut results));
        let [number, place, second] = results;
        Refusal::told(number, place, second)
    }

    /// A session of any words and bytes, from [`words`](Session::words) and [`bytes`](Session::bytes) as a rule. Whether it is sound,
    /// each feed looks.
    pub fn from_parts(words: [u64; SESSION_WORDS], bytes: [u8; SESSION_BYTES]) -> Session {
        Session { words, bytes }
    }

    /// Its words: the set, the events, the inputs among them, and the flag (0 for none, else its index plus 1).
    pub fn words(&self) -> &[u64; SESSION_WORDS] {
        &self.words
    }

    /// Its bytes: 2,048 of rows, 32 of held inputs, states, inputs, outputs, B, c.
    pub fn bytes(&self) -> &[u8; SESSION_BYTES] {
        &self.bytes
    }

    /// The plausible set. Bit s of word 8 × waiting + run: the box may be in state s, with so many polls waiting and so many lost in a
    /// row.
    pub fn set(&self) -> &[u64] {
        &self.words[..SET_WORDS]
    }

    /// How many events it was fed.
    pub fn events(&self) -> u64 {
        self.words[EVENTS]
    }

    /// How many of them were inputs.
    pub fn arrived(&self) -> u64 {
        self.words[ARRIVED]
    }

    /// The index of the event at which the box was flagged, if it was.
    pub fn flag(&self) -> Option<u64> {
        self.words[FLAG].checked_sub(1)
    }

    /// What a listing says of the set.
    pub fn line(&self) -> Line {
        Line::of_set(self.set())
    }
}

impl std::fmt::Debug for Session {
    fn fmt(&self, to: &mut std::fmt::Formatter<'_>) -> std::fmt::Result {
        let mut told = to.debug_struct("Session");
        told.field("events", &self.events()).field("arrived", &self.arrived()).field("flag", &self.flag());
        told.field("line", &self.line()).finish_non_exhaustive()
    }
}
