//! Requests and answers as bytes, every number as 8 of them, least byte first; and a driver made of this
//! package's own implementation, with which the way of asking can be tried without the proved code.

use crate::capture::{Imported, Made};
use crate::case::{Answer, Case};
use crate::house::Answered;
use crate::lent::{Left, Lent};
use crate::listing::Listed;
use crate::refusal::Offered;
use crate::run::Ran;
use crate::session::{Session, BYTES, WORDS};
use crate::standard::Given;
use crate::writer::{Wanted, Written};
use crate::wrong::Wrong;
use std::io::{self, Read, Write};

/// No text is longer than this; a longer length is an answer out of step.
const MOST_TEXT: u64 = 1 << 24;

fn put(bytes: &mut Vec<u8>, number: u64) {
    bytes.extend(number.to_le_bytes());
}

fn put_session(bytes: &mut Vec<u8>, session: &Session) {
    for word in session.words() {
        put(bytes, word);
    }
    bytes.extend(session.bytes());
}

fn put_offered(bytes: &mut Vec<u8>, offered: &Offered) {
    for number in [offered.states, offered.inputs, offered.outputs, offered.waiting, offered.losses] {
        put(bytes, number);
    }
    put_counted(bytes, &offered.rows);
}

fn put_lent(bytes: &mut Vec<u8>, lent: &Lent) {
    put(bytes, lent.room as u64);
    put(bytes, lent.results as u64);
}

fn put_counted(bytes: &mut Vec<u8>, counted: &[u8]) {
    put(bytes, counted.len() as u64);
    bytes.extend(counted);
}

/// The bytes of a request.
pub fn request(case: &Case) -> Vec<u8> {
    let mut bytes = Vec::new();
    put(&mut bytes, case.function() as u64 + 1);
    match case {
        Case::Open { offered, before } => {
            put_offered(&mut bytes, offered);
            put_session(&mut bytes, before);
        }
        Case::Feed { session, event } => {
            put_session(&mut bytes, session);
            put(&mut bytes, *event as u64);
        }
        Case::Run { offered, trace, room } => {
            put_offered(&mut bytes, offered);
            put_counted(&mut bytes, trace);
            put(&mut bytes, *room as u64);
        }
        Case::Read { file, row_room, event_room } => {
            put_counted(&mut bytes, file);
            put(&mut bytes, *row_room as u64);
            put(&mut bytes, *event_room as u64);
        }
        Case::List { file } => put_counted(&mut bytes, file),
        Case::Import { capture, room } => {
            put_counted(&mut bytes, &capture.bytes());
            put(&mut bytes, *room as u64);
        }
        Case::Hand { capture, place } => {
            put_counted(&mut bytes, &capture.bytes());
            put(&mut bytes, *place);
        }
        Case::Write { wanted, room } => {
            put(&mut bytes, wanted.source);
            put_offered(&mut bytes, &wanted.offered);
            put_counted(&mut bytes, &wanted.trace);
            put(&mut bytes, *room as u64);
        }
        Case::Again { file, room } => {
            put_counted(&mut bytes, file);
            put(&mut bytes, *room as u64);
        }
        Case::Standard { room } => put(&mut bytes, *room as u64),
        Case::Rebind { file, waiting, losses, lent } => {
            put_counted(&mut bytes, file);
            put(&mut bytes, *waiting);
            put(&mut bytes, *losses);
            put_lent(&mut bytes, lent);
        }
        Case::Retrace { file, trace, lent } => {
            put_counted(&mut bytes, file);
            put_counted(&mut bytes, trace);
            put_lent(&mut bytes, lent);
        }
        Case::Mend { file, lent } => {
            put_counted(&mut bytes, file);
            put_lent(&mut bytes, lent);
        }
        Case::Listing { file, length, lent } => {
            put_counted(&mut bytes, file);
            put(&mut bytes, *length);
            put_lent(&mut bytes, lent);
        }
    }
    bytes
}

fn get(from: &mut dyn Read) -> io::Result<u64> {
    let mut bytes = [0; 8];
    from.read_exact(&mut bytes)?;
    Ok(u64::from_le_bytes(bytes))
}

fn get_bytes(from: &mut dyn Read, length: usize) -> io::Result<Vec<u8>> {
    let mut bytes = vec![0; length];
    from.read_exact(&mut bytes)?;
    Ok(bytes)
}

fn get_told<const COUNT: usize>(from: &mut dyn Read) -> io::Result<[u64; COUNT]> {
    let mut told = [0; COUNT];
    for number in told.iter_mut() {
        *number = get(from)?;
    }
    Ok(told)
}

fn get_session(from: &mut dyn Read) -> io::Result<Session> {
    let words: [u64; WORDS] = get_told(from)?;
    let bytes = get_bytes(from, BYTES)?;
    Ok(Session::from_parts(&words, &bytes))
}

fn get_counted(from: &mut dyn Read) -> io::Result<Vec<u8>> {
    let length = get(from)? as usize;
    get_bytes(from, length)
}

fn get_offered(from: &mut dyn Read) -> io::Result<Offered> {
    let [states, inputs, outputs, waiting, losses] = get_told(from)?;
    Ok(Offered { states, inputs, outputs, waiting, losses, rows: get_counted(from)? })
}

fn get_lent(from: &mut dyn Read) -> io::Result<Lent> {
    Ok(Lent { room: get(from)? as usize, results: get(from)? as usize })
}

/// A length that no text and no buffer has is an answer out of step.
fn get_text(from: &mut dyn Read) -> io::Result<Vec<u8>> {
    let length = get(from)?;
    if length > MOST_TEXT {
        return Err(io::Error::new(io::ErrorKind::InvalidData, format!("a text of {length} bytes")));
    }
    get_bytes(from, length as usize)
}

fn get_left(lent: &Lent, from: &mut dyn Read) -> io::Result<Left> {
    let fits = get(from)? > 0;
    let told = (0..lent.results).map(|_| get(from)).collect::<io::Result<Vec<u64>>>()?;
    Ok(Left { fits, told, out: get_text(from)? })
}

/// Reads the answer to a case.
pub fn get_answer(case: &Case, from: &mut dyn Read) -> io::Result<Answer> {
    Ok(match case {
        Case::Open { .. } | Case::Feed { .. } => Answer::Session { told: get_told(from)?, session: get_session(from)? },
        Case::Run { room, .. } => Answer::Run(Ran { told: get_told(from)?, out: get_bytes(from, *room)? }),
        Case::Read { row_room, event_room, .. } => Answer::Read(Answered {
            told: get_told(from)?,
            rows: get_bytes(from, *row_room)?,
            events: get_bytes(from, *event_room)?,
        }),
        Case::List { .. } => {
            let text = get_text(from)?;
            Answer::List(Listed { text: String::from_utf8_lossy(&text).into_owned(), outcome: get(from)? })
        }
        Case::Import { room, .. } => {
            Answer::Import(Imported { told: get_told(from)?, events: get_bytes(from, *room)? })
        }
        Case::Hand { .. } => Answer::Hand(get_told(from)?),
        Case::Write { room, .. } | Case::Again { room, .. } => {
            Answer::Write(Written { told: get_told(from)?, out: get_bytes(from, *room)? })
        }
        Case::Standard { room } => Answer::Standard(Given { told: get_told(from)?, rows: get_bytes(from, *room)? }),
        Case::Rebind { lent, .. } | Case::Retrace { lent, .. } | Case::Mend { lent, .. } => {
            Answer::Remade(get_left(lent, from)?)
        }
        Case::Listing { lent, .. } => Answer::Listing(get_left(lent, from)?),
    })
}

/// Answers requests on standard input until it ends, rightly or as a wrong monitor.
pub fn serve(wrong: Wrong) -> io::Result<()> {
    let mut input = io::BufReader::new(io::stdin().lock());
    let mut output = io::BufWriter::new(io::stdout().lock());
    loop {
        let operation = match get(&mut input) {
            Ok(operation) => operation,
            Err(error) if error.kind() == io::ErrorKind::UnexpectedEof => return output.flush(),
            Err(error) => return Err(error),
        };
        let case = get_case(operation, &mut input)?;
        output.write_all(&reply(&case.answer(wrong)))?;
        output.flush()?;
    }
}

fn get_case(operation: u64, from: &mut dyn Read) -> io::Result<Case> {
    Ok(match operation {
        1 => Case::Open { offered: get_offered(from)?, before: get_session(from)? },
        2 => Case::Feed { session: get_session(from)?, event: get(from)? as u8 },
        3 => Case::Run { offered: get_offered(from)?, trace: get_counted(from)?, room: get(from)? as usize },
        4 => Case::Read { file: get_counted(from)?, row_room: get(from)? as usize, event_room: get(from)? as usize },
        5 => Case::List { file: get_counted(from)? },
        6 => Case::Import { capture: Made::plain(get_counted(from)?), room: get(from)? as usize },
        7 => Case::Hand { capture: Made::plain(get_counted(from)?), place: get(from)? },
        8 => {
            let wanted = Wanted { source: get(from)?, offered: get_offered(from)?, trace: get_counted(from)? };
            Case::Write { wanted, room: get(from)? as usize }
        }
        9 => Case::Again { file: get_counted(from)?, room: get(from)? as usize },
        10 => Case::Standard { room: get(from)? as usize },
        11 => {
            let (file, waiting, losses) = (get_counted(from)?, get(from)?, get(from)?);
            Case::Rebind { file, waiting, losses, lent: get_lent(from)? }
        }
        12 => Case::Retrace { file: get_counted(from)?, trace: get_counted(from)?, lent: get_lent(from)? },
        13 => Case::Mend { file: get_counted(from)?, lent: get_lent(from)? },
        14 => Case::Listing { file: get_counted(from)?, length: get(from)?, lent: get_lent(from)? },
        _ => return Err(io::Error::new(io::ErrorKind::InvalidData, format!("operation {operation}"))),
    })
}

fn reply(answer: &Answer) -> Vec<u8> {
    let mut bytes = Vec::new();
    let told: &[u64] = match answer {
        Answer::Session { told, .. } => told,
        Answer::Run(ran) => &ran.told,
        Answer::Read(answered) => &answered.told,
        Answer::List(_) => &[],
        Answer::Import(imported) => &imported.told,
        Answer::Hand(told) => told,
        Answer::Write(written) => &written.told,
        Answer::Standard(given) => &given.told,
        Answer::Remade(left) | Answer::Listing(left) => {
            put(&mut bytes, left.fits as u64);
            &left.told
        }
    };
    for number in told {
        put(&mut bytes, *number);
    }
    match answer {
        Answer::Session { session, .. } => put_session(&mut bytes, session),
        Answer::Run(ran) => bytes.extend(&ran.out),
        Answer::Read(answered) => {
            bytes.extend(&answered.rows);
            bytes.extend(&answered.events);
        }
        Answer::List(listed) => {
            put_counted(&mut bytes, listed.text.as_bytes());
            put(&mut bytes, listed.outcome);
        }
        Answer::Import(imported) => bytes.extend(&imported.events),
        Answer::Hand(_) => {}
        Answer::Write(written) => bytes.extend(&written.out),
        Answer::Standard(given) => bytes.extend(&given.rows),
        Answer::Remade(left) | Answer::Listing(left) => put_counted(&mut bytes, &left.out),
    }
    bytes
}

#[cfg(test)]
mod tests {
    use super::*;
    use crate::generate;

    #[test]
    fn what_is_sent_is_what_is_read() {
        for case in generate::batch(3, 0) {
            let mut bytes = &request(&case)[..];
            let operation = get(&mut bytes).expect("an operation");
            let read = get_case(operation, &mut bytes).expect("a case");
            assert!(bytes.is_empty());
            let answer = case.answer(Wrong::Nothing);
            assert!(read.answer(Wrong::Nothing) == answer);
            assert!(get_answer(&case, &mut &reply(&answer)[..]).expect("an answer") == answer);
        }
    }
}
