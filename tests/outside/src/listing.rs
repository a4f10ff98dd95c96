//! The listing's text, exactly the documents': a header line, a line an event, and the outcome. Every
//! line ends with one line feed.

use crate::house;
use crate::lent::{Left, Lent};
use crate::model::FIRST_OUTPUT;
use crate::refusal::Refusal;
use crate::run::{judged, Figure};
use crate::wrong::Wrong;

pub const CONSISTENT: u64 = 0;
pub const FLAGGED: u64 = 1;
pub const REFUSED: u64 = 2;

/// The room that is asked for a text, whatever the file.
pub const TEXT_ROOM: usize = 393_408;

/// The results, and which of them is the flag.
pub const RESULTS: usize = 6;
pub const FLAG: usize = 5;

/// The text, and the outcome: consistent, flagged or refused.
#[derive(Clone, Debug, PartialEq)]
pub struct Listed {
    pub text: String,
    pub outcome: u64,
}

/// All that is said of a file.
struct Said {
    refusal: Option<Refusal>,
    events: u64,
    flag: Option<u64>,
    text: String,
}

/// Lists a file.
pub fn list(file: &[u8], wrong: Wrong) -> Listed {
    let Said { refusal, flag, text, .. } = said(file, file.len() as u64, wrong);
    let outcome = match (refusal, flag) {
        (Some(_), _) => REFUSED,
        (None, Some(_)) => FLAGGED,
        (None, None) => CONSISTENT,
    };
    Listed { text, outcome }
}

/// Lists a file that has so many bytes, of which these are lent, into memory: number, place, second place, the bytes of the text, the
/// events, and 0 or the flag's place + 1.
pub fn put(file: &[u8], length: u64, lent: Lent, wrong: Wrong) -> Left {
    if lent.room < TEXT_ROOM && wrong != Wrong::TextRoomOfText {
        return lent.alone();
    }
    let Said { refusal, events, flag, text } = said(file, length, wrong);
    if lent.room < text.len() || (wrong == Wrong::TextRoomOneMore && lent.room == TEXT_ROOM) {
        return lent.alone();
    }
    let [number, place, second] = refusal.map_or([0; 3], |refusal| refusal.told());
    let flag = flag.map_or(0, |place| if wrong == Wrong::ListingFlagPlace { place } else { place + 1 });
    let bytes = text.len() as u64;
    let told = match wrong {
        Wrong::ListingNumberless => [0, 0, 0, bytes, events, flag],
        Wrong::ListingCountsSwapped => [number, place, second, events, bytes, flag],
        Wrong::ListingCountsUnended => [number, place, second, bytes - 1, events, flag],
        Wrong::ListingCountsLines => [number, place, second, bytes, text.lines().count() as u64, flag],
        _ => [number, place, second, bytes, events, flag],
    };
    let mut out = text.into_bytes();
    if wrong == Wrong::ListingRefusedUnsaid && number > 0 {
        out.clear();
    }
    if wrong == Wrong::ClearsRest {
        out.resize(lent.room, 0);
    }
    lent.left(&told, out, wrong)
}

/// What is said of a file that has so many bytes, of which these are lent: it is told with 11, and looked at nowhere else. There is room
/// for every file's rows and events, so 10 never comes.
fn said(file: &[u8], length: u64, wrong: Wrong) -> Said {
    let content = match house::fitted(file, house::ROOM, house::ROOM, wrong) {
        Ok(content) => content,
        Err((mut refusal, content)) => {
            if refusal.number == 11 && wrong != Wrong::ListingKeptLength {
                refusal.place = length;
            }
            let events = match content {
                Some(content) if wrong == Wrong::TellsWhenRefused => content.events.len() as u64,
                _ => 0,
            };
            return Said { refusal: Some(refusal), events, flag: None, text: refused(&refusal, wrong) };
        }
    };
    let (figures, flag) = judged(&content.offered_as(wrong), &content.events, wrong);
    let mut text = String::from("event symbol states waiting run\n");
    for (event, figure) in figures.iter().enumerate() {
        text += &line(event, content.events[event], figure, wrong);
        if wrong == Wrong::ListingStops && flag == Some(event as u64) {
            break;
        }
    }
    match flag {
        Some(place) => text += &format!("flagged {place}\n"),
        None => text += "consistent\n",
    }
    if wrong == Wrong::ListingUnended {
        text.pop();
    }
    Said { refusal: None, events: content.events.len() as u64, flag, text }
}

/// The number and its place; for 4 row then column, for 20 to 23 block then offset.
fn refused(refusal: &Refusal, wrong: Wrong) -> String {
    let [number, place, second] = refusal.told();
    let left_out = match wrong {
        Wrong::ListingOnePlace => number == 4,
        Wrong::ListingNoOffset => number >= 20,
        Wrong::ListingNoLastOffset => number == 23,
        _ => false,
    };
    match refusal.has_second() && !left_out {
        true if wrong == Wrong::ListingOffsetFirst && number >= 20 => format!("refused {number} {second} {place}\n"),
        true => format!("refused {number} {place} {second}\n"),
        false => format!("refused {number} {place}\n"),
    }
}

fn line(event: usize, byte: u8, figure: &Figure, wrong: Wrong) -> String {
    let symbol = if byte < FIRST_OUTPUT { format!("i{byte}") } else { format!("o{}", byte - FIRST_OUTPUT) };
    let pairs = match figure.pairs {
        Some([least_waiting, most_waiting, least_run, most_run]) => {
            format!("{least_waiting}-{most_waiting} {least_run}-{most_run}")
        }
        None if wrong == Wrong::ListingOneDash => String::from("-"),
        None => String::from("- -"),
    };
    let mut states = digits(&figure.states);
    if wrong == Wrong::ListingShouts {
        states = states.to_uppercase();
    }
    format!("{event} {symbol} {states} {pairs}\n")
}

/// The states as 16 hexadecimal digits, state 63 leftmost.
fn digits(states: &[bool]) -> String {
    let mut digits = String::new();
    for four in states.chunks(4).rev() {
        let digit = four.iter().rev().fold(0, |sum, present| 2 * sum + *present as u32);
        digits.extend(char::from_digit(digit, 16));
    }
    digits
}
