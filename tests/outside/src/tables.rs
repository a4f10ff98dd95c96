//! Random tables and bounds, and traces grown by walking a random admissible run of the model, so that
//! they are long and alive.

use crate::model::{Bounds, Table, FIRST_OUTPUT, MOST_LOSSES, MOST_STATES, MOST_SYMBOLS, MOST_WAITING, NOT_ALLOWED};
use crate::random::Random;
use crate::refusal::Offered;
use crate::standard;
use crate::wrong::Wrong;

/// Table T of document 01: a poll leads to state 1, a report or a blank back.
pub fn small() -> Table {
    Table { states: 2, inputs: 1, outputs: 2, rows: vec![1, 255, 255, 255, 0, 0] }
}

/// Polls of T that are answered at once.
pub fn alternating(length: usize) -> Vec<u8> {
    (0..length).map(|event| if event % 2 == 0 { 0 } else { FIRST_OUTPUT }).collect()
}

pub fn standard_box() -> Table {
    Table { states: standard::STATES, inputs: standard::INPUTS, outputs: standard::OUTPUTS, rows: standard::rows() }
}

/// A table whose every entry is a random state, `allowed` times in a hundred, and not allowed otherwise.
pub fn scattered(random: &mut Random, states: usize, inputs: usize, outputs: usize, allowed: usize) -> Table {
    let rows = (0..states * (inputs + outputs))
        .map(|_| if random.chance(allowed, 100) { random.below(states) as u8 } else { NOT_ALLOWED })
        .collect();
    Table { states, inputs, outputs, rows }
}

/// A counter that is nearly deterministic: in each state one input counts on and one output is shown.
fn counter(random: &mut Random, states: usize, inputs: usize, outputs: usize) -> Table {
    let mut rows = Vec::new();
    for state in 0..states {
        for input in 0..inputs {
            let counts = input == state % inputs;
            rows.push(if counts { ((state + 1) % states) as u8 } else { random.pick(&[state as u8, NOT_ALLOWED]) });
        }
        for output in 0..outputs {
            let shows = output == state % outputs;
            rows.push(if shows { random.pick(&[state, (state + 1) % states]) as u8 } else { NOT_ALLOWED });
        }
    }
    for _ in 0..random.below(4) {
        let place = random.below(rows.len());
        rows[place] = random.below(states) as u8;
    }
    Table { states, inputs, outputs, rows }
}

/// A table of any size and kind, small ones more often.
pub fn table(random: &mut Random) -> Table {
    let states = match random.below(6) {
        0 => 1,
        1 | 2 => random.between(1, 6),
        3 | 4 => random.between(1, 24),
        _ => random.between(24, MOST_STATES),
    };
    let most = random.pick(&[1, 3, 6, MOST_SYMBOLS]);
    let (inputs, outputs) = (random.between(1, most), random.between(1, most));
    match random.below(12) {
        0 | 1 => small(),
        2 => standard_box(),
        3 => scattered(random, MOST_STATES, MOST_SYMBOLS, MOST_SYMBOLS, 60),
        4 | 5 => scattered(random, states, inputs, outputs, 90),
        6..=8 => scattered(random, states, inputs, outputs, 30),
        _ => counter(random, states, inputs, outputs),
    }
}

pub fn bounds(random: &mut Random) -> Bounds {
    let waiting = if random.chance(1, 2) { random.between(1, 5) } else { random.between(1, MOST_WAITING) };
    let losses = if random.chance(1, 2) { random.between(1, 3) } else { random.between(1, MOST_LOSSES) };
    Bounds { waiting, losses }
}

/// A length from 0 to 60, or less where the search over a large table would take long.
pub fn length(random: &mut Random, table: &Table, bounds: Bounds) -> usize {
    const CONFIGURATIONS: usize = 300_000;
    let size = table.states * (bounds.waiting + 1) * bounds.losses;
    let most = (CONFIGURATIONS / size).clamp(8, 60);
    let least = random.pick(&[0, 0, most / 2]);
    random.between(least, most)
}

/// A byte that is a valid event of the table.
pub fn event(random: &mut Random, table: &Table) -> u8 {
    if random.chance(1, 2) {
        random.below(table.inputs) as u8
    } else {
        FIRST_OUTPUT + random.below(table.outputs) as u8
    }
}

/// A byte that is not a valid event, often one beside the edge.
pub fn invalid_event(random: &mut Random, table: &Table) -> u8 {
    let edges = [table.inputs as u8, 16, 127, FIRST_OUTPUT + table.outputs as u8, 144, 255, random.byte()];
    let byte = random.pick(&edges);
    if table.event(byte, Wrong::Nothing).is_none() {
        byte
    } else {
        127
    }
}

/// The trace of a random admissible run, of at most `length` events; it ends where the run is stuck.
pub fn walk(random: &mut Random, table: &Table, bounds: Bounds, length: usize) -> Vec<u8> {
    let (mut state, mut run) = (0, 0);
    let mut line: Vec<u8> = Vec::new();
    let mut trace = Vec::new();
    // A box that likes full lines shows other things than one that takes at once.
    let (polled, eager) = (random.between(1, 4), random.between(1, 4));
    while trace.len() < length {
        let outputs: Vec<(u8, usize)> = (0..table.outputs as u8)
            .filter_map(|output| table.shown(state, output, Wrong::Nothing).map(|next| (output, next)))
            .collect();
        let taken = line.first().and_then(|input| table.taken(state, *input, Wrong::Nothing));
        let mut moves = Vec::new();
        if line.len() < bounds.waiting {
            moves.extend(vec![Move::Arrive; polled]);
        }
        if let Some(next) = taken {
            moves.extend(vec![Move::Take(next); eager]);
        }
        if !line.is_empty() && run + 1 < bounds.losses {
            moves.push(Move::Lose);
        }
        if !outputs.is_empty() {
            let (output, next) = random.pick(&outputs);
            moves.extend(vec![Move::Output(output, next); 2]);
        }
        if moves.is_empty() {
            break;
        }
        match random.pick(&moves) {
            Move::Arrive => {
                let input = likely(random, table, state);
                line.push(input);
                trace.push(input);
            }
            Move::Take(next) => {
                line.remove(0);
                state = next;
                run = 0;
            }
            Move::Lose => {
                line.remove(0);
                run += 1;
            }
            Move::Output(output, next) => {
                trace.push(FIRST_OUTPUT + output);
                state = next;
            }
        }
    }
    trace
}

#[derive(Clone, Copy)]
enum Move {
    Arrive,
    Take(usize),
    Lose,
    Output(u8, usize),
}

/// Mostly an input that the state would follow, so that the run stays alive.
fn likely(random: &mut Random, table: &Table, state: usize) -> u8 {
    for _ in 0..3 {
        let input = random.below(table.inputs) as u8;
        if table.taken(state, input, Wrong::Nothing).is_some() {
            return input;
        }
    }
    random.below(table.inputs) as u8
}

/// A walk, and in half of the cases some faults put into it: events changed, put in or left out.
pub fn trace(random: &mut Random, table: &Table, bounds: Bounds, length: usize) -> Vec<u8> {
    let mut trace = walk(random, table, bounds, length);
    if random.chance(1, 2) {
        return trace;
    }
    for _ in 0..random.between(1, 3) {
        let place = random.below(trace.len() + 1);
        let put = event(random, table);
        match random.below(3) {
            0 if place < trace.len() => trace[place] = put,
            1 if place < trace.len() => {
                trace.remove(place);
            }
            _ => trace.insert(place, put),
        }
    }
    trace
}

pub fn offered(table: &Table, bounds: Bounds) -> Offered {
    Offered {
        states: table.states as u64,
        inputs: table.inputs as u64,
        outputs: table.outputs as u64,
        waiting: bounds.waiting as u64,
        losses: bounds.losses as u64,
        rows: table.rows.clone(),
    }
}
