//! Cases and differences in few words, for whoever looks for a fault.

use crate::capture::Made;
use crate::case::{Answer, Case};
use crate::lent::{Left, Lent};
use crate::refusal::Offered;
use crate::session::Session;
use crate::writer::Wanted;

/// Bytes as hexadecimal digits, eight and more equal ones as one with its count; the first few of many.
fn bytes(bytes: &[u8]) -> String {
    const SHOWN: usize = 400;
    let mut digits = String::new();
    let mut rest = bytes;
    while let Some(first) = rest.first() {
        if digits.len() > SHOWN {
            return format!("{digits}... ({} bytes)", bytes.len());
        }
        let equal = rest.iter().take_while(|byte| *byte == first).count();
        if equal >= 8 {
            digits += &format!("[{first:02x} times {equal}]");
        } else {
            digits += &format!("{first:02x}").repeat(equal);
        }
        rest = &rest[equal..];
    }
    digits
}

fn offered(offered: &Offered) -> String {
    let Offered { states, inputs, outputs, waiting, losses, rows } = offered;
    let length = rows.len();
    format!("states {states} inputs {inputs} outputs {outputs} B {waiting} c {losses} rows ({length}) {}", bytes(rows))
}

fn session(session: &Session) -> String {
    let Session { states, inputs, outputs, waiting, losses, events, arrived, flag, held, set, .. } = session;
    format!(
        "states {states} inputs {inputs} outputs {outputs} B {waiting} c {losses} events {events} arrived {arrived} \
         flag {flag:?} held {} set {set:?} rows {}",
        bytes(held),
        bytes(&session.rows[..session.rows_used()])
    )
}

fn made(capture: &Made) -> String {
    let Made { start, record, times, end } = capture;
    format!("capture {}, {times} times {}, {}", bytes(start), bytes(record), bytes(end))
}

fn given(file: &[u8]) -> String {
    format!("file ({}) {}", file.len(), bytes(file))
}

fn lent(lent: &Lent) -> String {
    format!("room {} results {}", lent.room, lent.results)
}

pub fn case(case: &Case) -> String {
    match case {
        Case::Open { offered: given, before } => format!("open {} over {}", offered(given), session(before)),
        Case::Feed { session: given, event } => format!("feed event {event} {}", session(given)),
        Case::Run { offered: given, trace, room } => {
            format!("run {} trace ({}) {} room {room}", offered(given), trace.len(), bytes(trace))
        }
        Case::Read { file, row_room, event_room } => {
            format!("read rooms {row_room} {event_room} {}", given(file))
        }
        Case::List { file } => format!("list {}", given(file)),
        Case::Import { capture, room } => format!("import room {room} {}", made(capture)),
        Case::Hand { capture, place } => format!("hand place {place} {}", made(capture)),
        Case::Write { wanted, room } => {
            let Wanted { source, offered: given, trace } = wanted;
            format!("write source {source} {} trace ({}) {} room {room}", offered(given), trace.len(), bytes(trace))
        }
        Case::Again { file, room } => format!("again room {room} {}", given(file)),
        Case::Standard { room } => format!("standard room {room}"),
        Case::Rebind { file, waiting, losses, lent: memory } => {
            format!("rebind B {waiting} c {losses} {} {}", lent(memory), given(file))
        }
        Case::Retrace { file, trace, lent: memory } => {
            format!("retrace trace ({}) {} {} {}", trace.len(), bytes(trace), lent(memory), given(file))
        }
        Case::Mend { file, lent: memory } => format!("mend {} {}", lent(memory), given(file)),
        Case::Listing { file, length, lent: memory } => {
            format!("listing length {length} {} {}", lent(memory), given(file))
        }
    }
}

/// Where the right answer and the one that came differ.
pub fn difference(right: &Answer, came: &Answer) -> String {
    match (right, came) {
        (Answer::Session { told, session: one }, Answer::Session { told: came, session: other }) => {
            let rows = buffers("rows", &one.rows, &other.rows);
            format!("told {told:?} and not {came:?}; {}; not {}{rows}", session(one), session(other))
        }
        (Answer::Run(right), Answer::Run(came)) => {
            format!("told {:?} and not {:?}{}", right.told, came.told, buffers("result", &right.out, &came.out))
        }
        (Answer::Read(right), Answer::Read(came)) => {
            let rows = buffers("rows", &right.rows, &came.rows);
            let events = buffers("events", &right.events, &came.events);
            format!("told {:?} and not {:?}{rows}{events}", right.told, came.told)
        }
        (Answer::List(right), Answer::List(came)) => {
            let text = buffers("text", right.text.as_bytes(), came.text.as_bytes());
            let mut lines = right.text.lines().zip(came.text.lines());
            let line = lines.find(|(one, other)| one != other);
            format!("outcome {} and not {}{text} {line:?}", right.outcome, came.outcome)
        }
        (Answer::Import(right), Answer::Import(came)) => {
            format!("told {:?} and not {:?}{}", right.told, came.told, buffers("events", &right.events, &came.events))
        }
        (Answer::Write(right), Answer::Write(came)) => {
            format!("told {:?} and not {:?}{}", right.told, came.told, buffers("file", &right.out, &came.out))
        }
        (Answer::Standard(right), Answer::Standard(came)) => {
            format!("told {:?} and not {:?}{}", right.told, came.told, buffers("rows", &right.rows, &came.rows))
        }
        (Answer::Remade(right), Answer::Remade(came)) => left("file", right, came),
        (Answer::Listing(right), Answer::Listing(came)) => left("text", right, came),
        (Answer::Hand(right), Answer::Hand(came)) => format!("told {right:?} and not {came:?}"),
        _ => String::from("an answer of another kind"),
    }
}

fn left(name: &str, right: &Left, came: &Left) -> String {
    let answers = format!("{} {:?} and not {} {:?}", right.fits, right.told, came.fits, came.told);
    format!("told {answers}{}", buffers(name, &right.out, &came.out))
}

fn buffers(name: &str, right: &[u8], came: &[u8]) -> String {
    if right == came {
        return String::new();
    }
    match right.iter().zip(came).position(|(one, other)| one != other) {
        Some(place) => format!("; {name} at {place}: {} and not {}", right[place], came[place]),
        None => format!("; {name} of {} bytes and not {}", right.len(), came.len()),
    }
}
