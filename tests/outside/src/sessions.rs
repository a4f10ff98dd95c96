//! Feeds: of sessions opened and fed, of sound ones made elsewhere (sets that are not closed, full
//! counts, flags), of damaged ones and of garbage.

use crate::case::Case;
use crate::model::{Configuration, Set, Table, Watch, MOST_LOSSES, MOST_STATES, MOST_WAITING};
use crate::random::Random;
use crate::session::{Session, BYTES, MOST_EVENTS, WORDS};
use crate::tables;
use crate::wrong::Wrong;

fn watched(random: &mut Random) -> Watch {
    let table = tables::table(random);
    let bounds = tables::bounds(random);
    Watch::start(table, bounds)
}

pub fn follow(watch: &mut Watch, trace: &[u8]) {
    for byte in trace {
        if let Some(event) = watch.table.event(*byte, Wrong::Nothing) {
            watch.see(event, Wrong::Nothing);
        }
    }
}

/// A session opened and fed, and the next event of its walk or any other.
pub fn fed(random: &mut Random) -> Case {
    let mut watch = watched(random);
    let length = tables::length(random, &watch.table, watch.bounds);
    let trace = tables::trace(random, &watch.table, watch.bounds, length + 1);
    let (before, last) = trace.split_at(trace.len().saturating_sub(1));
    follow(&mut watch, before);
    let event = match last.first() {
        Some(event) if random.chance(3, 4) => *event,
        _ => any_event(random, &watch.table),
    };
    Case::Feed { session: Session::of(&watch), event }
}

/// Mostly a valid event.
fn any_event(random: &mut Random, table: &Table) -> u8 {
    if random.chance(9, 10) {
        tables::event(random, table)
    } else {
        tables::invalid_event(random, table)
    }
}

/// A sound session such as nobody need have reached: a random part of the allowed configurations,
/// random held inputs, any counts, and a flag if the set is empty.
pub fn sound(random: &mut Random) -> Session {
    let mut watch = watched(random);
    let bounds = watch.bounds;
    watch.arrived = match random.below(4) {
        0 => random.below(bounds.waiting + 1) as u64,
        1 => random.below(200) as u64,
        2 => random.below(MOST_EVENTS as usize + 1) as u64,
        _ => bounds.waiting as u64 + random.below(3) as u64,
    };
    watch.events = match random.below(4) {
        0 => watch.arrived,
        1 => random.between(watch.arrived as usize, MOST_EVENTS as usize) as u64,
        2 => MOST_EVENTS - random.below(3) as u64,
        _ => watch.arrived + random.below(10) as u64,
    };
    watch.events = watch.events.clamp(watch.arrived, MOST_EVENTS);
    let holding = watch.arrived.min(bounds.waiting as u64) as usize;
    watch.held = (0..holding).map(|_| random.below(watch.table.inputs) as u8).collect();
    watch.set = Set::empty();
    for _ in 0..random.pick(&[0, 1, 1, 2, 3, 8, 40]) {
        watch.set.insert(Configuration {
            state: random.below(watch.table.states),
            waiting: if random.chance(1, 3) { holding } else { random.below(holding + 1) },
            run: if random.chance(1, 3) { bounds.losses - 1 } else { random.below(bounds.losses) },
        });
    }
    if watch.set.is_empty() {
        watch.events = watch.events.max(1);
        watch.flag = Some(random.below(watch.events as usize) as u64);
    }
    Session::of(&watch)
}

/// A feed of such a session.
pub fn unclosed(random: &mut Random) -> Case {
    let session = sound(random);
    let event = any_event(random, &session.watch().table);
    Case::Feed { session, event }
}

/// A sound session with one field damaged, or two.
pub fn damaged(random: &mut Random) -> Case {
    let mut session = sound(random);
    let event = any_event(random, &session.watch().table);
    for _ in 0..random.pick(&[1, 1, 1, 2]) {
        damage(random, &mut session);
    }
    Case::Feed { session, event }
}

fn count(random: &mut Random, right: u8, most: u8) -> u8 {
    random.pick(&[0, most + 1, right.wrapping_sub(1), right.wrapping_add(1), 128, 255])
}

fn damage(random: &mut Random, session: &mut Session) {
    match random.below(14) {
        0 => session.states = count(random, session.states, MOST_STATES as u8),
        1 => session.inputs = count(random, session.inputs, 16),
        2 => session.outputs = count(random, session.outputs, 16),
        3 => session.waiting = count(random, session.waiting, MOST_WAITING as u8),
        4 => session.losses = count(random, session.losses, MOST_LOSSES as u8),
        5 => {
            let place = random.below(session.rows_used());
            session.rows[place] = random.pick(&[session.states, 254, session.states.saturating_sub(1), 255]);
        }
        6 => {
            let place = random.between(session.rows_used(), session.rows.len()).min(session.rows.len() - 1);
            session.rows[place] = random.pick(&[1, 255]);
        }
        7 => {
            let place = random.below(session.held_used());
            session.held[place] = random.pick(&[session.inputs, session.inputs.saturating_sub(1), 255]);
        }
        8 => {
            let place = random.between(session.held_used(), session.held.len()).min(session.held.len() - 1);
            session.held[place] = random.pick(&[1, 255]);
        }
        9 => {
            let wild = Configuration {
                state: random.below(MOST_STATES),
                waiting: random.below(MOST_WAITING + 1),
                run: random.below(MOST_LOSSES),
            };
            session.set.insert(wild);
        }
        10 => session.set = Set::empty(),
        11 => session.events = random.pick(&[0, session.arrived.wrapping_sub(1), MOST_EVENTS + 1, u64::MAX]),
        12 => session.arrived = random.pick(&[0, session.events.wrapping_add(1), MOST_EVENTS + 1, u64::MAX]),
        // A place of u64::MAX has no word in the layout, which holds the place and one more.
        _ => session.flag = random.pick(&[None, Some(0), Some(session.events.min(u64::MAX - 1)), Some(u64::MAX - 1)]),
    }
}

/// Random words and bytes, all of them or few.
pub fn garbage(random: &mut Random) -> Case {
    let filled = random.pick(&[1, 20, 100]);
    let words: Vec<u64> = (0..WORDS).map(|_| if random.chance(filled, 100) { random.number() } else { 0 }).collect();
    let bytes: Vec<u8> = (0..BYTES).map(|_| if random.chance(filled, 100) { random.byte() } else { 0 }).collect();
    Case::Feed { session: Session::from_parts(&words, &bytes), event: random.byte() }
}

/// A flagged session that goes on being fed.
pub fn flagged(random: &mut Random) -> Case {
    for _ in 0..10 {
        let mut watch = watched(random);
        let length = tables::length(random, &watch.table, watch.bounds).min(12);
        let trace: Vec<u8> = (0..length + 2).map(|_| tables::event(random, &watch.table)).collect();
        follow(&mut watch, &trace);
        if watch.set.is_empty() {
            let event = any_event(random, &watch.table);
            return Case::Feed { session: Session::of(&watch), event };
        }
    }
    unclosed(random)
}
