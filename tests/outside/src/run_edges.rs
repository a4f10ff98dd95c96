//! Document 01's edges for openings and runs, one by one and every two faults at once. They need no seed.

use crate::case::Case;
use crate::model::{Bounds, Table, MOST_LOSSES, MOST_SYMBOLS, MOST_WAITING};
use crate::refusal::Offered;
use crate::run::FIGURE;
use crate::runs::Handed;
use crate::session::MOST_EVENTS;
use crate::session_edges::plain;
use crate::tables;

/// Document 01's edges for openings and runs, one by one and every two faults at once.
pub fn edges() -> Vec<Case> {
    let mut cases = Vec::new();
    for offered in offered_edges() {
        let trace = vec![0; 3];
        let room = FIGURE * trace.len();
        cases.push(Case::Open { offered: offered.clone(), before: plain() });
        cases.push(Case::Run { offered, trace, room });
    }
    cases.extend(paired_faults());
    cases.extend(event_edges());
    for events in 0..4 {
        for room in [0, 1, 11, 12, 13, 23, 24, 25, 35, 36, 37] {
            let small = tables::offered(&tables::small(), Bounds { waiting: 2, losses: 1 });
            cases.push(Case::Run { offered: small, trace: vec![0; events], room });
        }
    }
    cases.extend(bound_edges());
    cases.extend(limit_edges());
    cases
}

/// All bounds. A box that takes nothing lets B inputs wait and c - 1 be lost: the next one flags it. T
/// takes every second input at most.
fn bound_edges() -> Vec<Case> {
    let idle = Table { states: 1, inputs: 1, outputs: 1, rows: vec![255, 0] };
    let mut cases = Vec::new();
    for waiting in 1..=MOST_WAITING {
        for losses in 1..=MOST_LOSSES {
            let bounds = Bounds { waiting, losses };
            cases.push(Handed::of(&idle, bounds, vec![0; waiting + losses + 1]).run());
            let mut trace = vec![0; waiting + losses];
            trace.extend([128, 0, 129, 0, 0]);
            cases.push(Handed::of(&tables::small(), bounds, trace).run());
        }
    }
    cases
}

/// A table of these counts whose entries are all allowed, as far as it can be held.
fn sized(states: u64, inputs: u64, outputs: u64) -> Offered {
    let length = states as u128 * (inputs as u128 + outputs as u128);
    let rows = vec![0; length.min(4096) as usize];
    Offered { states, inputs, outputs, waiting: 2, losses: 1, rows }
}

fn offered_edges() -> Vec<Offered> {
    let mut all = Vec::new();
    let wide = 1u64 << 32;
    let outside = [0, 255, 256, 257, wide - 1, wide, wide + 1, 1 << 63, u64::MAX - 1, u64::MAX];
    for count in outside.into_iter().chain([1, 2, 63, 64, 65]) {
        all.push(sized(count, 1, 1));
    }
    for count in outside.into_iter().chain([1, 2, 15, 16, 17]) {
        all.push(sized(2, count, 1));
        all.push(sized(2, 1, count));
        all.push(sized(64, count, 16));
        all.push(sized(64, 16, count));
    }
    // Sums and products that come back into range if they wrap.
    all.push(sized(2, u64::MAX, 3));
    all.push(sized(2, 3, u64::MAX));
    all.push(sized(1 << 63, 1, 1));
    all.push(sized(0, 0, 0));
    all.push(sized(2, 0, 17));
    all.push(sized(2, 17, 0));
    let small = tables::offered(&tables::small(), Bounds { waiting: 2, losses: 1 });
    for length in [0, 1, 5, 6, 7, 12, 2048, 2049] {
        let mut offered = small.clone();
        offered.rows.resize(length, 0);
        all.push(offered);
    }
    for count in outside.into_iter().chain([1, 2, 31, 32, 33]) {
        all.push(Offered { waiting: count, ..small.clone() });
    }
    for count in outside.into_iter().chain([1, 2, 7, 8, 9]) {
        all.push(Offered { losses: count, ..small.clone() });
    }
    for (waiting, losses) in [(0, 0), (33, 9), (32, 8), (1, 1), (32, 9), (33, 8)] {
        all.push(Offered { waiting, losses, ..small.clone() });
    }
    all.extend(entry_edges());
    all
}

/// Each entry of T and the corners of the largest table, one below and one above the edge; and two
/// bad entries, the first by rows not being the first by columns.
fn entry_edges() -> Vec<Offered> {
    let mut all = Vec::new();
    let small = tables::offered(&tables::small(), Bounds { waiting: 2, losses: 1 });
    for place in 0..small.rows.len() {
        for entry in [1, 2, 3, 254, 255] {
            let mut offered = small.clone();
            offered.rows[place] = entry;
            all.push(offered);
        }
    }
    let large = tables::offered(&tables::standard_box(), Bounds { waiting: 3, losses: 2 });
    for place in [0, 15, 16, 31, 32, 63 * 32, 2047] {
        for entry in [63, 64, 254, 255] {
            let mut offered = large.clone();
            offered.rows[place] = entry;
            all.push(offered);
        }
    }
    for (first, second) in [(2, 3), (1, 3), (2, 4), (0, 5), (4, 5)] {
        let mut offered = small.clone();
        offered.rows[first] = 2;
        offered.rows[second] = 2;
        all.push(offered);
    }
    all
}

/// Every two faults at once, of all the faults that a run of T can have but too many events.
fn paired_faults() -> Vec<Case> {
    let faults: [fn(&mut Handed); 11] = [
        |handed| handed.offered.states = 65,
        |handed| handed.offered.states = 0,
        |handed| handed.offered.inputs = 17,
        |handed| handed.offered.outputs = 0,
        |handed| handed.offered.rows.push(0),
        |handed| handed.offered.rows[2] = 2,
        |handed| handed.offered.rows[3] = 254,
        |handed| handed.offered.waiting = 33,
        |handed| handed.offered.losses = 9,
        |handed| handed.trace[1] = 1,
        |handed| handed.room = 23,
    ];
    let right = Handed::of(&tables::small(), Bounds { waiting: 2, losses: 1 }, vec![0, 128]);
    let mut cases = vec![right.clone().run(), right.clone().open(plain())];
    for first in faults {
        for second in faults {
            let mut handed = right.clone();
            first(&mut handed);
            second(&mut handed);
            cases.push(handed.clone().run());
            cases.push(handed.open(plain()));
        }
    }
    cases
}

/// Every byte as an event, for a table in between and for the largest counts.
fn event_edges() -> Vec<Case> {
    let mut cases = Vec::new();
    for (inputs, outputs) in [(3, 5), (MOST_SYMBOLS as u64, MOST_SYMBOLS as u64)] {
        for byte in 0..=255 {
            let offered = sized(2, inputs, outputs);
            cases.push(Case::Run { offered, trace: vec![0, byte], room: 2 * FIGURE });
        }
    }
    cases
}

/// At the limit of events: one event too many with other faults beside it, and a full run that is
/// turned away for its last event or its buffer only.
fn limit_edges() -> Vec<Case> {
    let full = MOST_EVENTS as usize;
    let small = tables::offered(&tables::small(), Bounds { waiting: 2, losses: 1 });
    let mut invalid_last = vec![0; full];
    invalid_last[full - 1] = 200;
    let mut over = vec![0; full + 1];
    over[3] = 200;
    vec![
        Case::Run { offered: small.clone(), trace: vec![0; full + 1], room: 0 },
        Case::Run { offered: small.clone(), trace: over, room: 0 },
        Case::Run { offered: Offered { losses: 0, ..small.clone() }, trace: vec![0; full + 1], room: 0 },
        Case::Run { offered: small.clone(), trace: invalid_last, room: 0 },
        Case::Run { offered: small, trace: vec![0; full], room: 100 },
    ]
}

/// A full run: 1,048,576 events and 12 times as many bytes. Too much for every day.
pub fn full_run() -> Case {
    let table = tables::small();
    let trace = tables::alternating(MOST_EVENTS as usize);
    Handed::of(&table, Bounds { waiting: 2, losses: 1 }, trace).run()
}
