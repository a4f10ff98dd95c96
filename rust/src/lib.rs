//! The proved monitor for sounder boxes, called from Rust.
//!
//! It judges one box from what the tap saw. A [`Session`] is opened with the box's rules (a [`Table`]) and [`Bounds`], and fed event
//! by event; [`run`] does the same for a whole trace at once. [`House`] reads and writes house files, [`listing`] lists one, [`rebind`] and
//! [`retrace`] make one from another; [`import`] and [`Capture`] read captures of the tap.
//!
//! ```
//! use rillmoth::{Bounds, Refusal, Session, Table};
//!
//! // Two states, one input (a poll) and two outputs (a report, a blank). 255 means "not allowed here".
//! let table = Table { states: 2, inputs: 1, outputs: 2, rows: &[1, 255, 255, 255, 0, 0] };
//! let mut session = Session::open(&table, Bounds { waiting: 2, losses: 1 })?;
//! session.feed(rillmoth::input(0))?;
//! assert_eq!(session.line().to_string(), "0000000000000003 0-1 0-0");
//! session.feed(rillmoth::output(0))?;
//! session.feed(rillmoth::output(0))?;
//! assert_eq!(session.flag(), Some(2));
//! assert_eq!(session.feed(7), Err(Refusal::BadEvent { index: 3 }));
//! # Ok::<(), Refusal>(())
//! ```
//!
//! What is proved is the library; this crate only passes memory to it and names what comes back. Whatever is refused is refused with a
//! [`Refusal`], and then nothing was written. No function panics, but where the library linked is not the one this crate was written for.

#![deny(missing_docs)]
#![deny(unsafe_code)]

mod capture;
mod doors;
mod house;
mod line;
mod listing;
mod refusal;
mod run;
mod session;
mod table;

pub use capture::{import, Capture, MOST_EVENTS};
pub use house::{mend, read, rebind, retrace, write, Contents, House, Source, MOST_FILE_BYTES, MOST_FILE_EVENTS};
pub use line::{lines, Line, LINE_BYTES};
pub use listing::{list, listing, Listing, Outcome, MOST_LISTING_BYTES};
pub use refusal::Refusal;
pub use run::run;
pub use session::{Session, SESSION_BYTES, SESSION_WORDS, SET_WORDS};
pub use table::{input, output, standard_rows, symbol, Bounds, Table, MOST_ROW_BYTES, NOT_ALLOWED};

/// The version of the library that is linked: 10,000 × major + 100 × minor + patch.
pub fn version() -> u32 {
    doors::version()
}
