//! The whole run: a trace judged from the start, 12 bytes an event.

use crate::model::{Event, Watch, MOST_STATES};
use crate::refusal::{refuse, Offered, Refusal};
use crate::session::{bounds, limit, table, MOST_EVENTS};
use crate::wrong::Wrong;

pub const FIGURE: usize = 12;
pub const NOTHING: u8 = 255;

/// What a buffer is filled with before a call, so that untouched bytes can be seen.
pub const UNTOUCHED: u8 = 0xAA;

/// The figures after one event: the plausible states, and least and most waiting and run, which an
/// empty set does not have.
#[derive(Clone, Debug, PartialEq)]
pub struct Figure {
    pub states: Vec<bool>,
    pub pairs: Option<[u8; 4]>,
}

/// The answer of a run: the refusal or the flag, and the whole result buffer.
#[derive(Clone, Debug, PartialEq)]
pub struct Ran {
    pub told: [u64; 4],
    pub out: Vec<u8>,
}

/// Runs over a trace, into a result buffer of `room` bytes. Tests as an opening, then 9, 7, 10.
pub fn run(offered: &Offered, trace: &[u8], room: usize, wrong: Wrong) -> Ran {
    let mut out = vec![UNTOUCHED; room];
    if let Err(refusal) = tested(offered, trace, room, wrong) {
        if wrong == Wrong::WritesWhenRefused && refusal.number == 10 {
            let (figures, _) = judged(offered, &trace[..room / FIGURE], wrong);
            write(&figures, &mut out);
        }
        return Ran { told: [refusal.number, refusal.place, refusal.second, 0], out };
    }
    let (figures, flag) = judged(offered, trace, wrong);
    write(&figures, &mut out);
    if wrong == Wrong::ClearsRest {
        out[FIGURE * figures.len()..].fill(0);
    }
    Ran { told: [0, 0, 0, flag.map_or(0, |place| place + 1)], out }
}

fn tested(offered: &Offered, trace: &[u8], room: usize, wrong: Wrong) -> Result<(), Refusal> {
    offered.opening(wrong)?;
    if wrong == Wrong::InvalidBeforeLimit {
        valid(offered, trace, wrong)?;
    }
    if trace.len() as u64 > limit(MOST_EVENTS, wrong) {
        return refuse(9, trace.len() as u64);
    }
    if wrong != Wrong::RoomBeforeEvents {
        valid(offered, trace, wrong)?;
    }
    if room < FIGURE * trace.len() {
        return refuse(10, (FIGURE * trace.len()) as u64);
    }
    valid(offered, trace, wrong)
}

/// Number 7: the first event byte that is not valid.
pub fn valid(offered: &Offered, trace: &[u8], wrong: Wrong) -> Result<(), Refusal> {
    let table = table(offered);
    match trace.iter().position(|byte| table.event(*byte, wrong).is_none()) {
        Some(place) if wrong == Wrong::InvalidFromOne => refuse(7, place as u64 + 1),
        Some(place) => refuse(7, place as u64),
        None => Ok(()),
    }
}

/// The figures after each event and the flag's place, for what has passed the tests.
pub fn judged(offered: &Offered, trace: &[u8], wrong: Wrong) -> (Vec<Figure>, Option<u64>) {
    let mut watch = Watch::start(table(offered), bounds(offered));
    let mut figures = Vec::new();
    for byte in trace {
        let event: Option<Event> = watch.table.event(*byte, wrong);
        if let Some(event) = event {
            watch.see(event, wrong);
        }
        figures.push(figure(&watch, wrong));
    }
    (figures, watch.flag)
}

fn figure(watch: &Watch, wrong: Wrong) -> Figure {
    let mut states = vec![false; MOST_STATES];
    let mut pairs: Option<[u8; 4]> = None;
    for one in watch.set.members() {
        states[one.state] = true;
        let (waiting, run) = (one.waiting as u8, one.run as u8);
        let [least_waiting, most_waiting, least_run, most_run] = pairs.unwrap_or([waiting, waiting, run, run]);
        pairs = Some([least_waiting.min(waiting), most_waiting.max(waiting), least_run.min(run), most_run.max(run)]);
    }
    let pairs = pairs.map(|[least_waiting, most_waiting, least_run, most_run]| match wrong {
        Wrong::InventsWaiting => [0, watch.bounds.waiting as u8, least_run, most_run],
        Wrong::InventsRun => [least_waiting, most_waiting, 0, watch.bounds.losses as u8 - 1],
        _ => [least_waiting, most_waiting, least_run, most_run],
    });
    Figure { states, pairs }
}

/// The number whose bits are the states, as 8 bytes, least byte first; then the four bytes.
fn write(figures: &[Figure], out: &mut [u8]) {
    for (event, figure) in figures.iter().enumerate() {
        let bytes = &mut out[FIGURE * event..FIGURE * (event + 1)];
        for (byte, eight) in figure.states.chunks(8).enumerate() {
            bytes[byte] = eight.iter().rev().fold(0, |sum, present| 2 * sum + *present as u8);
        }
        bytes[8..].copy_from_slice(&figure.pairs.unwrap_or([NOTHING; 4]));
    }
}
