//! Openings and whole runs: random ones and damaged ones.

use crate::case::Case;
use crate::model::{Bounds, Table};
use crate::random::Random;
use crate::refusal::Offered;
use crate::run::FIGURE;
use crate::session::Session;
use crate::{sessions, tables};

/// All that a run is handed.
#[derive(Clone)]
pub struct Handed {
    pub offered: Offered,
    pub trace: Vec<u8>,
    pub room: usize,
}

impl Handed {
    pub fn of(table: &Table, bounds: Bounds, trace: Vec<u8>) -> Handed {
        let room = FIGURE * trace.len();
        Handed { offered: tables::offered(table, bounds), trace, room }
    }

    pub fn run(self) -> Case {
        Case::Run { offered: self.offered, trace: self.trace, room: self.room }
    }

    /// An opening over this session.
    pub fn open(self, before: Session) -> Case {
        Case::Open { offered: self.offered, before }
    }
}

fn handed(random: &mut Random) -> Handed {
    let table = tables::table(random);
    let bounds = tables::bounds(random);
    let length = tables::length(random, &table, bounds);
    let trace = tables::trace(random, &table, bounds, length);
    Handed::of(&table, bounds, trace)
}

/// A run that is not refused; the buffer is exact or somewhat larger.
pub fn run(random: &mut Random) -> Case {
    let mut handed = handed(random);
    if random.chance(1, 3) {
        handed.room += random.below(40);
    }
    handed.run()
}

/// A run of 1,000 to 4,096 events of a table small enough for that.
pub fn long_run(random: &mut Random) -> Case {
    let length = random.between(1000, 4096);
    for _ in 0..20 {
        let states = random.between(2, 6);
        let table = match random.below(3) {
            0 => tables::small(),
            1 => tables::scattered(random, states, 2, 2, 80),
            _ => tables::scattered(random, states, 3, 3, 60),
        };
        let bounds = Bounds { waiting: random.between(1, 4), losses: random.between(1, 3) };
        let trace = tables::walk(random, &table, bounds, length);
        if trace.len() >= 1000 {
            return Handed::of(&table, bounds, trace).run();
        }
    }
    let bounds = Bounds { waiting: 2, losses: 2 };
    let trace = tables::walk(random, &tables::small(), bounds, length);
    Handed::of(&tables::small(), bounds, trace).run()
}

/// What lies in memory that is to be opened: mostly a session that could be fed.
fn before(random: &mut Random) -> Session {
    if random.chance(1, 4) {
        Session::zeros()
    } else {
        sessions::sound(random)
    }
}

pub fn open(random: &mut Random) -> Case {
    handed(random).open(before(random))
}

/// A run with one damage or two.
pub fn damaged_run(random: &mut Random) -> Case {
    damaged(random).run()
}

pub fn damaged_open(random: &mut Random) -> Case {
    damaged(random).open(before(random))
}

fn damaged(random: &mut Random) -> Handed {
    let mut handed = handed(random);
    let table = Table {
        states: handed.offered.states as usize,
        inputs: handed.offered.inputs as usize,
        outputs: handed.offered.outputs as usize,
        rows: Vec::new(),
    };
    for _ in 0..random.between(1, 2) {
        damage(random, &mut handed, &table);
    }
    handed
}

/// Numbers that are out of any range, or come back into it where a sum, a product or a narrower
/// number wraps.
fn count(random: &mut Random, right: u64, most: u64) -> u64 {
    let wide = 1u64 << 32;
    random.pick(&[
        0,
        most + 1,
        right.wrapping_sub(1),
        right + 1,
        255,
        256 + right,
        wide + right,
        wide - 1,
        1 << 63,
        (1 << 63) + right,
        u64::MAX - right,
        u64::MAX - 1,
        u64::MAX,
    ])
}

fn damage(random: &mut Random, handed: &mut Handed, table: &Table) {
    let Handed { offered, trace, room } = handed;
    match random.below(9) {
        0 => offered.states = count(random, offered.states.min(64), 64),
        1 => offered.inputs = count(random, offered.inputs.min(16), 16),
        2 => offered.outputs = count(random, offered.outputs.min(16), 16),
        3 => match random.below(4) {
            0 => offered.rows.push(random.byte()),
            1 => {
                offered.rows.pop();
            }
            2 => offered.rows.clear(),
            _ => offered.rows.resize(offered.rows.len() + table.inputs + table.outputs, 0),
        },
        4 if !offered.rows.is_empty() => {
            let bad = [table.states as u8, 254, random.between(table.states, 254) as u8];
            for _ in 0..random.between(1, 3) {
                let place = random.below(offered.rows.len());
                offered.rows[place] = random.pick(&bad);
            }
        }
        5 => offered.waiting = count(random, offered.waiting.min(32), 32),
        6 => offered.losses = count(random, offered.losses.min(8), 8),
        7 => {
            let bad = tables::invalid_event(random, table);
            let place = random.below(trace.len() + 1);
            trace.insert(place, bad);
            *room += FIGURE;
        }
        _ => {
            let needed = FIGURE * trace.len();
            *room = random.pick(&[needed.saturating_sub(1), needed.saturating_sub(FIGURE), needed / 2, 0]);
        }
    }
}
