//! `rillmoth list`: house files, or captures with the rules of one, listed or told in a line each.

use std::ffi::OsStr;
use std::io::{self, ErrorKind};
use std::os::unix::ffi::OsStrExt;

use rillmoth::{MOST_EVENTS, MOST_FILE_BYTES, MOST_LISTING_BYTES};

use crate::input::{self, Input};
use crate::output;
use crate::refusals::Of;
use crate::rules::Rules;
use crate::status::{Status, FLAGGED};
use crate::tell;
use crate::words::Words;

/// Room for one file after another.
struct Rooms {
    text: Box<[u8; MOST_LISTING_BYTES]>,
    /// The events of a capture.
    events: Vec<u8>,
    /// The house file that is made of them.
    file: Vec<u8>,
}

impl Rooms {
    fn new(captures: bool) -> io::Result<Rooms> {
        let text: Result<Box<[u8; MOST_LISTING_BYTES]>, _> =
            input::room(MOST_LISTING_BYTES)?.into_boxed_slice().try_into();
        let (events, file) = if captures { (MOST_EVENTS, MOST_FILE_BYTES) } else { (0, 0) };
        Ok(Rooms {
            text: text.map_err(|_| ErrorKind::OutOfMemory)?,
            events: input::room(events)?,
            file: input::room(file)?,
        })
    }
}

/// Why nothing can be said of a file.
enum Turned {
    Unread(io::Error),
    Unprinted(io::Error),
}

/// How files are told of.
struct Listing<'a> {
    rules: Option<&'a Rules>,
    summary: bool,
    /// Whether each stands under its name.
    named: bool,
}

pub fn list(words: &Words, status: &mut Status) -> Result<(), String> {
    let rules = words.word("--rules");
    let stream = [OsStr::new("-").to_os_string()];
    let names = if words.operands.is_empty() && rules.is_none() { &stream[..] } else { &words.operands[..] };
    if names.is_empty() {
        return Err(String::from("it needs a capture"));
    }
    if names.iter().map(|name| name.as_os_str()).chain(rules).filter(|name| *name == "-").count() > 1 {
        return Err(String::from("standard input can be read once only"));
    }
    let rules = match rules.map(|name| Rules::read(name, status)) {
        None => None,
        Some(Some(rules)) => Some(rules),
        Some(None) => return Ok(()),
    };
    let mut rooms = match Rooms::new(rules.is_some()) {
        Ok(rooms) => rooms,
        Err(error) => {
            tell::failed("memory", "had", &error, status);
            return Ok(());
        }
    };
    let listing = Listing { rules: rules.as_ref(), summary: words.has("--summary"), named: names.len() > 1 };
    for name in names {
        match listing.one(name, &mut rooms, status) {
            Ok(()) => {}
            Err(Turned::Unread(error)) => tell::failed(&tell::called(name, "standard input"), "read", &error, status),
            // Nobody would see what is to come.
            Err(Turned::Unprinted(error)) => {
                tell::unprinted(&error, status);
                break;
            }
        }
    }
    Ok(())
}

impl Listing<'_> {
    fn one(&self, name: &OsStr, rooms: &mut Rooms, status: &mut Status) -> Result<(), Turned> {
        if self.named && !self.summary {
            print(&[b"==> ", name.as_bytes(), b" <==\n"].concat())?;
        }
        let called = tell::called(name, "standard input");
        let Rooms { text, events, file } = rooms;
        let read: Input;
        let (bytes, length) = match self.rules {
            None => {
                read = input::house(name).map_err(Turned::Unread)?;
                (&read.bytes[..], read.length)
            }
            Some(rules) => {
                let capture = input::capture(name).map_err(Turned::Unread)?;
                match rules.with(&capture, events, file) {
                    Ok(length) => (&file[..length], length),
                    Err((refusal, of)) => {
                        tell::refused(&called, &refusal, of, status);
                        return if self.summary { line(&called, &refusal.to_string()) } else { Ok(()) };
                    }
                }
            }
        };
        let listing = rillmoth::listing(bytes, length, text);
        match listing.verdict {
            Ok(None) => {}
            Ok(Some(_)) => status.add(FLAGGED),
            Err(refusal) => tell::refused(&called, &refusal, Of::File, status),
        }
        if !self.summary {
            return print(listing.text);
        }
        match listing.verdict {
            Ok(None) => line(&called, &format!("consistent, {}", counted(listing.events))),
            Ok(Some(place)) => {
                let seen = seen(bytes, place);
                line(&called, &format!("flagged at event {place}{seen}, of {}", counted(listing.events)))
            }
            Err(refusal) => line(&called, &refusal.to_string()),
        }
    }
}

/// The line of a summary.
fn line(called: &str, what: &str) -> Result<(), Turned> {
    print(format!("{called}: {what}\n").as_bytes())
}

fn print(bytes: &[u8]) -> Result<(), Turned> {
    output::print(bytes).map_err(Turned::Unprinted)
}

fn counted(events: u64) -> String {
    format!("{events} {}", if events == 1 { "event" } else { "events" })
}

/// What the tap saw at an event of a good file, as a listing names it.
fn seen(file: &[u8], place: u64) -> String {
    let event = rillmoth::House::read(file).ok().and_then(|house| house.events.get(place as usize).copied());
    event.map_or(String::new(), |event| format!(", {}", rillmoth::symbol(event)))
}
