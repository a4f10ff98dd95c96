//! The model of document 01: a table, the moves, and plausible sets found by search. Configurations
//! are kept one by one and every move is tried from each; nothing is packed into words.

use crate::wrong::Wrong;

pub const MOST_STATES: usize = 64;
pub const MOST_SYMBOLS: usize = 16;
pub const MOST_WAITING: usize = 32;
pub const MOST_LOSSES: usize = 8;
pub const NOT_ALLOWED: u8 = 255;
pub const FIRST_OUTPUT: u8 = 128;

/// Counts and rows. The rows may be of any length: an entry that is not there is not allowed.
#[derive(Clone, Debug, PartialEq)]
pub struct Table {
    pub states: usize,
    pub inputs: usize,
    pub outputs: usize,
    pub rows: Vec<u8>,
}

/// B and c.
#[derive(Clone, Copy, Debug, PartialEq)]
pub struct Bounds {
    pub waiting: usize,
    pub losses: usize,
}

#[derive(Clone, Copy, Debug, PartialEq)]
pub enum Event {
    Arrival(u8),
    Output(u8),
}

#[derive(Clone, Copy, Debug, PartialEq, Eq, PartialOrd, Ord)]
pub struct Configuration {
    pub state: usize,
    pub waiting: usize,
    pub run: usize,
}

pub const START: Configuration = Configuration { state: 0, waiting: 0, run: 0 };

impl Table {
    fn width(&self) -> usize {
        self.inputs + self.outputs
    }

    fn next(&self, state: usize, column: usize, wrong: Wrong) -> Option<usize> {
        let entry = *self.rows.get(state * self.width() + column)?;
        if entry != NOT_ALLOWED {
            Some(entry as usize)
        } else if wrong == Wrong::ReadsNotAllowed {
            // What is left of 255 where a state has six bits.
            Some(255 % MOST_STATES)
        } else {
            None
        }
    }

    pub fn taken(&self, state: usize, input: u8, wrong: Wrong) -> Option<usize> {
        self.next(state, input as usize, wrong)
    }

    pub fn shown(&self, state: usize, output: u8, wrong: Wrong) -> Option<usize> {
        self.next(state, self.inputs + output as usize, wrong)
    }

    /// The event that a byte stands for, or none if the byte is not valid.
    pub fn event(&self, byte: u8, wrong: Wrong) -> Option<Event> {
        if byte < FIRST_OUTPUT {
            return if (byte as usize) < self.inputs { Some(Event::Arrival(byte)) } else { None };
        }
        let symbol = byte - FIRST_OUTPUT;
        let known = if wrong == Wrong::RefusesValid { self.outputs - 1 } else { self.outputs };
        if (symbol as usize) < known {
            Some(Event::Output(symbol))
        } else {
            None
        }
    }
}

/// A set of configurations. It has room for one waiting count and one run more than document 01
/// knows, so that wrong monitors can overstep the bounds; what lies further out is dropped.
#[derive(Clone)]
pub struct Set {
    present: Vec<bool>,
    members: Vec<Configuration>,
}

const WAITING_ROOM: usize = MOST_WAITING + 2;
const RUN_ROOM: usize = MOST_LOSSES + 1;

impl Set {
    pub fn empty() -> Set {
        Set { present: vec![false; MOST_STATES * WAITING_ROOM * RUN_ROOM], members: Vec::new() }
    }

    pub fn of(configurations: &[Configuration]) -> Set {
        let mut set = Set::empty();
        for configuration in configurations {
            set.insert(*configuration);
        }
        set
    }

    pub fn insert(&mut self, new: Configuration) {
        if new.state >= MOST_STATES || new.waiting >= WAITING_ROOM || new.run >= RUN_ROOM {
            return;
        }
        let place = (new.state * WAITING_ROOM + new.waiting) * RUN_ROOM + new.run;
        if !self.present[place] {
            self.present[place] = true;
            self.members.push(new);
        }
    }

    /// The members, in the order in which they were found.
    pub fn members(&self) -> &[Configuration] {
        &self.members
    }

    pub fn is_empty(&self) -> bool {
        self.members.is_empty()
    }
}

/// Two sets are equal if they have the same members, in whatever order they were found.
impl PartialEq for Set {
    fn eq(&self, other: &Set) -> bool {
        self.members.len() == other.members.len() && self.present == other.present
    }
}

impl std::fmt::Debug for Set {
    fn fmt(&self, formatter: &mut std::fmt::Formatter<'_>) -> std::fmt::Result {
        let mut sorted = self.members.clone();
        sorted.sort();
        write!(formatter, "{} members", sorted.len())?;
        for one in sorted.iter().take(40) {
            write!(formatter, " ({},{},{})", one.state, one.waiting, one.run)?;
        }
        Ok(())
    }
}

/// What the monitor knows between two events: the plausible set, the newest inputs (B of them, or
/// all seen if fewer, oldest first), the counts, and the place of the first flagged event.
#[derive(Clone, Debug, PartialEq)]
pub struct Watch {
    pub table: Table,
    pub bounds: Bounds,
    pub set: Set,
    pub held: Vec<u8>,
    pub events: u64,
    pub arrived: u64,
    pub flag: Option<u64>,
}

impl Watch {
    pub fn start(table: Table, bounds: Bounds) -> Watch {
        Watch { table, bounds, set: Set::of(&[START]), held: Vec::new(), events: 0, arrived: 0, flag: None }
    }

    /// Follows one valid event: the event first, then any number of takes and losses.
    pub fn see(&mut self, event: Event, wrong: Wrong) {
        let flagged = self.set.is_empty();
        let line = self.line(event);
        self.set = self.after(event, &line, wrong);
        if self.set.is_empty() && (self.flag.is_none() || wrong == Wrong::FlagAtLast) {
            let late = if wrong == Wrong::FlagOneLate { 1 } else { 0 };
            self.flag = Some(self.events + late);
        }
        if !(flagged && wrong == Wrong::HeldStops) {
            self.hold(line, wrong);
        }
        if !(flagged && wrong == Wrong::CountsStop) {
            self.events = self.events.saturating_add(1);
            if let Event::Arrival(_) = event {
                self.arrived = self.arrived.saturating_add(1);
            }
        }
    }

    /// The inputs known after the event, oldest first: those held, and the arriving one.
    fn line(&self, event: Event) -> Vec<u8> {
        let mut line = self.held.clone();
        if let Event::Arrival(input) = event {
            line.push(input);
        }
        line
    }

    fn hold(&mut self, mut line: Vec<u8>, wrong: Wrong) {
        let most =
            if wrong == Wrong::HeldForgetsOldest { self.bounds.waiting.saturating_sub(1) } else { self.bounds.waiting };
        while line.len() > most {
            line.remove(0);
        }
        self.held = line;
    }

    fn after(&self, event: Event, line: &[u8], wrong: Wrong) -> Set {
        match wrong {
            Wrong::FixedVerdict => return Set::of(&[START]),
            Wrong::RepeatsFirst if self.events > 0 => return self.set.clone(),
            _ => {}
        }
        let mut before = self.set.clone();
        if wrong == Wrong::TakesBeforeEvent {
            before = self.settled(before, &self.held, wrong);
        }
        if wrong == Wrong::SetRefilled && before.is_empty() {
            before.insert(START);
        }
        let mut reached = Set::empty();
        for one in before.members() {
            if let Some(moved) = self.evented(*one, event, wrong) {
                reached.insert(moved);
            }
        }
        let mut settled = self.settled(reached, line, wrong);
        if wrong == Wrong::FullLineThenTake {
            let within: Vec<Configuration> =
                settled.members().iter().copied().filter(|one| one.waiting <= self.bounds.waiting).collect();
            settled = Set::of(&within);
        }
        if wrong == Wrong::EveryState && !settled.is_empty() {
            let one = settled.members()[0];
            for state in 0..self.table.states {
                settled.insert(Configuration { state, ..one });
            }
        }
        settled
    }

    /// The configuration after the event's own move, if that move is admissible.
    fn evented(&self, from: Configuration, event: Event, wrong: Wrong) -> Option<Configuration> {
        match event {
            Event::Arrival(_) => {
                let most = match wrong {
                    Wrong::FullLineThenTake | Wrong::OneMoreWaits => self.bounds.waiting + 1,
                    Wrong::OneFewerWaits => self.bounds.waiting.saturating_sub(1),
                    _ => self.bounds.waiting,
                };
                if from.waiting + 1 > most {
                    return None;
                }
                let run = if wrong == Wrong::ArrivalResetsRun { 0 } else { from.run };
                Some(Configuration { state: from.state, waiting: from.waiting + 1, run })
            }
            Event::Output(symbol) => {
                let state = self.table.shown(from.state, symbol, wrong)?;
                let run = if wrong == Wrong::OutputResetsRun { 0 } else { from.run };
                Some(Configuration { state, waiting: from.waiting, run })
            }
        }
    }

    /// All that is reached by any number of takes and losses, the start included.
    fn settled(&self, start: Set, line: &[u8], wrong: Wrong) -> Set {
        let most = if wrong == Wrong::MovesOnce { start.members().len() } else { usize::MAX };
        let mut found = start;
        let mut looked = 0;
        while looked < found.members().len() && looked < most {
            let one = found.members()[looked];
            looked += 1;
            if let Some(moved) = self.take(one, line, wrong) {
                found.insert(moved);
            }
            if let Some(moved) = self.lose(one, line, wrong) {
                found.insert(moved);
            }
        }
        found
    }

    fn take(&self, from: Configuration, line: &[u8], wrong: Wrong) -> Option<Configuration> {
        let oldest = oldest(from, line)?;
        let input = if wrong == Wrong::TakesNewest { *line.last()? } else { oldest };
        let state = self.table.taken(from.state, input, wrong)?;
        let run = if wrong == Wrong::TakeKeepsRun { from.run } else { 0 };
        Some(Configuration { state, waiting: from.waiting - 1, run })
    }

    fn lose(&self, from: Configuration, line: &[u8], wrong: Wrong) -> Option<Configuration> {
        oldest(from, line)?;
        let run = from.run + 1;
        let admissible = match wrong {
            Wrong::LosesUpToBound => run <= self.bounds.losses,
            Wrong::LosesOneFewer => run + 1 < self.bounds.losses,
            Wrong::NeverLoses => false,
            _ => run < self.bounds.losses,
        };
        if admissible {
            Some(Configuration { state: from.state, waiting: from.waiting - 1, run })
        } else {
            None
        }
    }
}

/// The oldest waiting input: those waiting are always the newest ones of the line.
fn oldest(of: Configuration, line: &[u8]) -> Option<u8> {
    if of.waiting == 0 || of.waiting > line.len() {
        return None;
    }
    Some(line[line.len() - of.waiting])
}
