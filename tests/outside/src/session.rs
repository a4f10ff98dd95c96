//! A session with all its fields, as document 01 has them: opening, soundness and feeding. Any
//! values of the fields are a session, though perhaps not a sound one.

use crate::model::{
    Bounds, Configuration, Set, Table, Watch, MOST_LOSSES, MOST_STATES, MOST_SYMBOLS, MOST_WAITING, NOT_ALLOWED,
};
use crate::refusal::{Offered, Refusal};
use crate::wrong::Wrong;

pub const ROW_PLACES: usize = 2048;
pub const HELD_PLACES: usize = 32;
pub const SET_WORDS: usize = 264;
pub const MOST_EVENTS: u64 = 1_048_576;

/// Towards the driver a session is so many words and bytes.
pub const WORDS: usize = 267;
pub const BYTES: usize = 2085;

#[derive(Clone, Debug, PartialEq)]
pub struct Session {
    pub set: Set,
    pub events: u64,
    pub arrived: u64,
    pub flag: Option<u64>,
    pub rows: Vec<u8>,
    pub held: Vec<u8>,
    pub states: u8,
    pub inputs: u8,
    pub outputs: u8,
    pub waiting: u8,
    pub losses: u8,
}

/// A limit on events as a monitor has it: some wrong ones are one off.
pub fn limit(most: u64, wrong: Wrong) -> u64 {
    match wrong {
        Wrong::LimitOneLow => most - 1,
        Wrong::LimitOneHigh => most + 1,
        _ => most,
    }
}

/// Opens a session in memory that holds this one. A refused opening leaves it there, and it goes on.
pub fn open(offered: &Offered, before: &Session, wrong: Wrong) -> (Option<Refusal>, Session) {
    match offered.opening(wrong) {
        Err(refusal) => (Some(refusal), refused(offered, before, wrong)),
        Ok(()) => (None, Session::of(&Watch::start(table(offered), bounds(offered)))),
    }
}

/// What lies in the memory after a refused opening.
fn refused(offered: &Offered, before: &Session, wrong: Wrong) -> Session {
    let mut left = before.clone();
    match wrong {
        Wrong::RefusedOpeningKept => {
            left.states = (offered.states % 256) as u8;
            left.waiting = (offered.waiting % 256) as u8;
        }
        Wrong::RefusedOpeningCleared => left = Session::zeros(),
        Wrong::RefusedOpeningClearsWords => left = Session::from_parts(&[0; WORDS], &before.bytes()),
        Wrong::RefusedOpeningClearsBytes => left = Session::from_parts(&before.words(), &[0; BYTES]),
        _ => {}
    }
    left
}

/// The table of counts and rows that have passed their tests.
pub fn table(offered: &Offered) -> Table {
    Table {
        states: offered.states as usize,
        inputs: offered.inputs as usize,
        outputs: offered.outputs as usize,
        rows: offered.rows.clone(),
    }
}

/// The bounds that have passed their tests.
pub fn bounds(offered: &Offered) -> Bounds {
    Bounds { waiting: offered.waiting as usize, losses: offered.losses as usize }
}

/// Feeds one event, testing 8, 9, 7. A refused feed hands back the session it got.
pub fn feed(session: &Session, event: u8, wrong: Wrong) -> (Option<Refusal>, Session) {
    match tested(session, event, wrong) {
        Err(refusal) if wrong == Wrong::RefusedFeedCleared => (Some(refusal), Session::zeros()),
        Err(refusal) => (Some(refusal), session.clone()),
        Ok(_) if wrong == Wrong::Unmoved => (None, session.clone()),
        Ok(watch) => (None, Session::of(&watch)),
    }
}

fn tested(session: &Session, byte: u8, wrong: Wrong) -> Result<Watch, Refusal> {
    if !session.sound(wrong) {
        return Err(Refusal { number: 8, place: 0, second: 0 });
    }
    let mut watch = session.watch();
    let count = watch.events.saturating_add(1);
    let late = if wrong == Wrong::InvalidFromOne { 1 } else { 0 };
    let invalid = Refusal { number: 7, place: watch.events.saturating_add(late), second: 0 };
    let event = watch.table.event(byte, wrong);
    if wrong == Wrong::InvalidBeforeLimit && event.is_none() {
        return Err(invalid);
    }
    if count > limit(MOST_EVENTS, wrong) {
        return Err(Refusal { number: 9, place: count, second: 0 });
    }
    match event {
        None => Err(invalid),
        Some(event) => {
            watch.see(event, wrong);
            Ok(watch)
        }
    }
}

impl Session {
    /// Zeros only, which is not sound: 0 states.
    pub fn zeros() -> Session {
        Session {
            set: Set::empty(),
            events: 0,
            arrived: 0,
            flag: None,
            rows: vec![0; ROW_PLACES],
            held: vec![0; HELD_PLACES],
            states: 0,
            inputs: 0,
            outputs: 0,
            waiting: 0,
            losses: 0,
        }
    }

    pub fn of(watch: &Watch) -> Session {
        let mut session = Session::zeros();
        for one in watch.set.members() {
            // What a wrong monitor has outside the 264 words has no place in a session.
            if one.waiting <= MOST_WAITING && one.run < MOST_LOSSES {
                session.set.insert(*one);
            }
        }
        session.events = watch.events;
        session.arrived = watch.arrived;
        session.flag = watch.flag;
        session.rows[..watch.table.rows.len()].copy_from_slice(&watch.table.rows);
        for (place, input) in watch.held.iter().take(HELD_PLACES).enumerate() {
            session.held[place] = *input;
        }
        session.states = watch.table.states as u8;
        session.inputs = watch.table.inputs as u8;
        session.outputs = watch.table.outputs as u8;
        session.waiting = watch.bounds.waiting as u8;
        session.losses = watch.bounds.losses as u8;
        session
    }

    pub fn watch(&self) -> Watch {
        Watch {
            table: Table {
                states: self.states as usize,
                inputs: self.inputs as usize,
                outputs: self.outputs as usize,
                rows: self.rows[..self.rows_used()].to_vec(),
            },
            bounds: Bounds { waiting: self.waiting as usize, losses: self.losses as usize },
            set: self.set.clone(),
            held: self.held[..self.held_used()].to_vec(),
            events: self.events,
            arrived: self.arrived,
            flag: self.flag,
        }
    }

    /// The places of the table in use; never more than there are, whatever the counts.
    pub fn rows_used(&self) -> usize {
        (self.states as usize * (self.inputs as usize + self.outputs as usize)).min(ROW_PLACES)
    }

    /// The held inputs: B of them, or all seen if fewer; never more than there are places.
    pub fn held_used(&self) -> usize {
        (self.waiting as u64).min(self.arrived).min(HELD_PLACES as u64) as usize
    }

    /// Soundness, clause by clause. Each clause stands beside the wrong monitor that overlooks it.
    pub fn sound(&self, wrong: Wrong) -> bool {
        let within = |count: u8, most: usize| 1 <= count && count as usize <= most;
        let all = |holds: &dyn Fn(&Configuration) -> bool| self.set.members().iter().all(holds);
        let rows = self.rows.split_at(self.rows_used());
        let held = self.held.split_at(self.held_used());
        let clauses = [
            (Wrong::UnsoundStates, within(self.states, MOST_STATES)),
            (Wrong::UnsoundInputs, within(self.inputs, MOST_SYMBOLS)),
            (Wrong::UnsoundOutputs, within(self.outputs, MOST_SYMBOLS)),
            (Wrong::UnsoundEntries, rows.0.iter().all(|entry| *entry == NOT_ALLOWED || *entry < self.states)),
            (Wrong::UnsoundRowsRest, rows.1.iter().all(|entry| *entry == 0)),
            (Wrong::UnsoundWaitingBound, within(self.waiting, MOST_WAITING)),
            (Wrong::UnsoundLossBound, within(self.losses, MOST_LOSSES)),
            (Wrong::UnsoundSetStates, all(&|one| one.state < self.states as usize)),
            (Wrong::UnsoundSetWaiting, all(&|one| one.waiting <= self.waiting as usize)),
            (Wrong::UnsoundSetRun, all(&|one| one.run < self.losses as usize)),
            (Wrong::UnsoundSetArrived, all(&|one| one.waiting as u64 <= self.arrived)),
            (Wrong::UnsoundHeld, held.0.iter().all(|input| *input < self.inputs)),
            (Wrong::UnsoundHeldRest, held.1.iter().all(|input| *input == 0)),
            (Wrong::UnsoundArrived, self.arrived <= self.events),
            (Wrong::UnsoundEvents, self.events <= MOST_EVENTS),
            (Wrong::UnsoundFlagPlace, self.flag.is_none_or(|place| place < self.events)),
            (Wrong::UnsoundFlagged, self.flag.is_none() || self.set.is_empty()),
            (Wrong::UnsoundUnflagged, self.flag.is_some() || !self.set.is_empty()),
        ];
        clauses.iter().all(|(overlooked_by, holds)| *holds || *overlooked_by == wrong)
    }

    /// The 267 words: the set (word of waiting w and run r at 8w + r, bit s for state s), events,
    /// inputs seen, and the flag: 0 for none, its place + 1 otherwise.
    pub fn words(&self) -> Vec<u64> {
        let mut words = vec![0; SET_WORDS];
        for one in self.set.members() {
            words[8 * one.waiting + one.run] += 2u64.pow(one.state as u32);
        }
        words.push(self.events);
        words.push(self.arrived);
        words.push(self.flag.map_or(0, |place| place + 1));
        words
    }

    /// The 2,085 bytes: rows, held inputs, states, inputs, outputs, B, c.
    pub fn bytes(&self) -> Vec<u8> {
        let mut bytes = self.rows.clone();
        bytes.extend(&self.held);
        bytes.extend([self.states, self.inputs, self.outputs, self.waiting, self.losses]);
        bytes
    }

    /// The session of any such words and bytes.
    pub fn from_parts(words: &[u64], bytes: &[u8]) -> Session {
        let mut set = Set::empty();
        for (place, word) in words[..SET_WORDS].iter().enumerate() {
            let mut rest = *word;
            let mut state = 0;
            while rest > 0 {
                if rest % 2 == 1 {
                    set.insert(Configuration { state, waiting: place / 8, run: place % 8 });
                }
                rest /= 2;
                state += 1;
            }
        }
        let counts = &bytes[ROW_PLACES + HELD_PLACES..];
        Session {
            set,
            events: words[SET_WORDS],
            arrived: words[SET_WORDS + 1],
            flag: words[SET_WORDS + 2].checked_sub(1),
            rows: bytes[..ROW_PLACES].to_vec(),
            held: bytes[ROW_PLACES..ROW_PLACES + HELD_PLACES].to_vec(),
            states: counts[0],
            inputs: counts[1],
            outputs: counts[2],
            waiting: counts[3],
            losses: counts[4],
        }
    }
}
