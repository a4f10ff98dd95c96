//! Document 01's edges for feeding: each clause of soundness from both sides, the slips that show only in
//! sets that are not closed, and every byte as an event. They need no seed.

use crate::case::Case;
use crate::model::{Bounds, Configuration, Set, Table, Watch, FIRST_OUTPUT, START};
use crate::random::Random;
use crate::session::{Session, MOST_EVENTS};
use crate::sessions::follow;
use crate::tables;

/// Document 01's edges for feeding.
pub fn edges() -> Vec<Case> {
    let mut cases = slips();
    cases.extend(corners());
    for session in clause_edges() {
        // One input and one output, and one byte that is never valid: 8 and 9 stand before 7.
        for event in [0, FIRST_OUTPUT, 127] {
            cases.push(Case::Feed { session: session.clone(), event });
        }
    }
    for (inputs, outputs) in [(3, 5), (16, 16)] {
        let table = Table { states: 2, inputs, outputs, rows: vec![1; 2 * (inputs + outputs)] };
        let session = Session::of(&Watch::start(table, Bounds { waiting: 2, losses: 2 }));
        for event in 0..=255 {
            cases.push(Case::Feed { session: session.clone(), event });
        }
    }
    cases
}

/// Sound sessions of T that are not closed: the slips show only there.
fn slips() -> Vec<Case> {
    let mut cases = Vec::new();
    for losses in 1..=3 {
        for state in 0..2 {
            for waiting in 0..=2 {
                for run in 0..losses {
                    for event in [0, 128, 129] {
                        let mut watch = Watch::start(tables::small(), Bounds { waiting: 2, losses });
                        watch.set = Set::of(&[Configuration { state, waiting, run }]);
                        watch.held = vec![0, 0];
                        watch.arrived = 2;
                        watch.events = 3;
                        cases.push(Case::Feed { session: Session::of(&watch), event });
                    }
                }
            }
        }
    }
    cases
}

/// The corners of the largest set, and every waiting count: single members of a session with 64 states,
/// B 32, c 8 and held inputs that differ, so that it shows which of them is taken as the oldest.
fn corners() -> Vec<Case> {
    let mut random = Random::new(64);
    let table = tables::scattered(&mut random, 64, 16, 16, 70);
    let held: Vec<u8> = (0..32).map(|place| (place * 5 + place / 16) % 16).collect();
    let mut cases = Vec::new();
    for waiting in 0..=32 {
        for (state, run) in [(0, 0), (0, 7), (63, 0), (63, 6), (63, 7), (31, 1), (32, 7)] {
            let mut watch = Watch::start(table.clone(), Bounds { waiting: 32, losses: 8 });
            watch.set = Set::of(&[Configuration { state, waiting, run }]);
            watch.held = held.clone();
            watch.arrived = 100;
            watch.events = 200;
            for event in [15, FIRST_OUTPUT + 15, FIRST_OUTPUT + (waiting as u8) % 16] {
                cases.push(Case::Feed { session: Session::of(&watch), event });
            }
        }
    }
    cases
}

/// A sound session of a table with two states, two inputs and one output: B 3, c 2, two inputs seen.
pub fn plain() -> Session {
    let rows = vec![1, 0, 1, 255, 0, 0];
    let table = Table { states: 2, inputs: 2, outputs: 1, rows };
    let mut watch = Watch::start(table, Bounds { waiting: 3, losses: 2 });
    follow(&mut watch, &[1, 0]);
    Session::of(&watch)
}

/// The same, flagged: its set is empty, so that no clause about members can fail.
fn plain_flagged() -> Session {
    Session { set: Set::empty(), flag: Some(1), ..plain() }
}

/// Sessions that fail one clause of soundness and no other, and their neighbours that fail none.
fn clause_edges() -> Vec<Session> {
    let mut all = vec![plain(), plain_flagged(), Session::zeros()];
    all.extend(count_edges());
    all.extend(place_edges());
    all.extend(set_edges());
    all.extend(number_edges());
    all
}

/// A flagged session with these counts and rows of zeros, none of its inputs seen.
fn counted(states: u8, inputs: u8, outputs: u8, waiting: u8, losses: u8) -> Session {
    let flagged = Session { events: 4, flag: Some(2), ..Session::zeros() };
    Session { states, inputs, outputs, waiting, losses, ..flagged }
}

fn count_edges() -> Vec<Session> {
    let mut all = Vec::new();
    for states in [0, 1, 2, 63, 64, 65, 128, 255] {
        all.push(counted(states, 1, 1, 2, 2));
    }
    for count in [0, 1, 2, 15, 16, 17, 128, 255] {
        all.push(counted(2, count, 1, 2, 2));
        all.push(counted(2, 1, count, 2, 2));
        all.push(counted(64, count, 16, 2, 2));
        all.push(counted(64, 16, count, 2, 2));
    }
    for waiting in [0, 1, 2, 31, 32, 33, 34, 128, 255] {
        all.push(counted(2, 1, 1, waiting, 2));
    }
    for losses in [0, 1, 2, 7, 8, 9, 128, 255] {
        all.push(counted(2, 1, 1, 2, losses));
    }
    // The same with the one configuration of an opened session, where the counts let it be.
    let opened: Vec<Session> =
        all.iter().map(|one| Session { set: Set::of(&[START]), flag: None, ..one.clone() }).collect();
    all.extend(opened);
    all
}

/// Entries, unused places of the table, held inputs and their unused places.
fn place_edges() -> Vec<Session> {
    let mut all = Vec::new();
    for session in [plain(), plain_flagged()] {
        for place in 0..session.rows_used() {
            for entry in [1, 2, 254, 255] {
                let mut one = session.clone();
                one.rows[place] = entry;
                all.push(one);
            }
        }
        for place in [session.rows_used(), session.rows_used() + 1, 1000, 2046, 2047] {
            let mut one = session.clone();
            one.rows[place] = 1;
            all.push(one);
        }
        for place in [0, 1, 2, 3, 4, 30, 31] {
            for input in [1, 2, 255] {
                let mut one = session.clone();
                one.held[place] = input;
                all.push(one);
            }
        }
    }
    // More inputs seen than held: B places are used, however many were seen.
    for arrived in [2, 3, 4, 1000] {
        for place in [2, 3] {
            let mut one = Session { arrived, events: 1000, ..plain() };
            one.held[place] = 1;
            all.push(one);
        }
    }
    // A full line of 32 held inputs, the last one valid or not.
    for input in [0, 1, 2] {
        let mut one = Session { waiting: 32, arrived: 40, events: 50, ..plain() };
        one.held = vec![1; 32];
        one.held[31] = input;
        all.push(one);
    }
    all
}

/// Members one below and one above each edge, alone and beside a sound one.
fn set_edges() -> Vec<Session> {
    let mut all = Vec::new();
    // A line of up to 3 or of up to 32, with 30 inputs seen.
    let mut narrow = Session { arrived: 30, events: 40, ..plain() };
    narrow.held[2] = 1;
    let mut roomy = Session { arrived: 30, events: 40, waiting: 32, held: vec![1; 32], ..plain() };
    roomy.held[30..].fill(0);
    for session in [plain(), narrow, roomy] {
        for state in [1, 2, 3, 63] {
            for waiting in [0, 2, 3, 4, 29, 30, 31, 32] {
                for run in [0, 1, 2, 7] {
                    // One field at a time leaves what the others usually are.
                    let unusual = (state > 1) as u8 + (waiting > 0) as u8 + (run > 1) as u8;
                    if unusual <= 1 {
                        let mut one = session.clone();
                        one.set = Set::of(&[Configuration { state, waiting, run }]);
                        all.push(one.clone());
                        one.set.insert(START);
                        all.push(one);
                    }
                }
            }
        }
    }
    all
}

/// Counts of events and inputs, and flags.
fn number_edges() -> Vec<Session> {
    let mut all = Vec::new();
    for session in [plain(), plain_flagged()] {
        for events in [2, 3, MOST_EVENTS - 1, MOST_EVENTS, MOST_EVENTS + 1, MOST_EVENTS + 2, u64::MAX - 1, u64::MAX] {
            all.push(Session { events, ..session.clone() });
        }
        for (arrived, events) in [(0, 2), (1, 2), (2, 2), (3, 2), (3, 3), (2, 1), (4, 3)] {
            all.push(Session { arrived, events, ..session.clone() });
        }
        for arrived in [MOST_EVENTS - 1, MOST_EVENTS, MOST_EVENTS + 1, u64::MAX] {
            for events in [MOST_EVENTS - 1, MOST_EVENTS] {
                all.push(Session { arrived, events, ..session.clone() });
            }
        }
        for flag in [None, Some(0), Some(1), Some(2), Some(3), Some(u64::MAX - 1)] {
            all.push(Session { flag, ..session.clone() });
        }
        for flag in [Some(MOST_EVENTS - 1), Some(MOST_EVENTS), Some(MOST_EVENTS - 2)] {
            all.push(Session { flag, events: MOST_EVENTS, ..session.clone() });
            all.push(Session { flag, events: MOST_EVENTS - 1, ..session.clone() });
        }
    }
    // No input seen: nothing is held, and nothing may wait.
    let unseen = Session { arrived: 0, events: 0, held: vec![0; 32], set: Set::of(&[START]), ..plain() };
    all.push(Session { flag: Some(0), set: Set::empty(), ..unseen.clone() });
    all.push(Session { flag: Some(0), set: Set::empty(), events: 1, ..unseen.clone() });
    all.push(Session { set: Set::of(&[Configuration { waiting: 1, ..START }]), ..unseen.clone() });
    all.push(unseen);
    all
}
