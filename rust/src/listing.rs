//! The listing: of a file in memory, and from one open file to another.

use crate::doors;
use crate::Refusal;
use std::os::fd::{AsFd, AsRawFd};

/// What a listing came to.
#[derive(Clone, Copy, Debug, PartialEq, Eq)]
pub enum Outcome {
    /// Some honest box could have shown this trace.
    Consistent,
    /// None could.
    Flagged,
    /// The file was refused.
    Refused,
    /// The input could not be read, or the listing not be written, to its end.
    Broken,
}

/// Lists the house file that `input` gives to its end, as text to `output`. Neither is buffered here: flush what is before.
///
/// It waits as the two do. A read or a write that fails is not tried again, also where a signal interrupted it or the file is not ready
/// (`ErrorKind::Interrupted`, `ErrorKind::WouldBlock`). After a failed read it is [`Outcome::Broken`] and nothing was written, unless the
/// input then ends without another byte: then all of it was read, and it is listed. After a failed write it is [`Outcome::Broken`], and
/// the text may be there in part.
pub fn list(input: &impl AsFd, output: &impl AsFd) -> Outcome {
    match doors::list(input.as_fd().as_raw_fd(), output.as_fd().as_raw_fd()) {
        0 => Outcome::Consistent,
        1 => Outcome::Flagged,
        2 => Outcome::Refused,
        _ => Outcome::Broken,
    }
}

/// The text of every listing has at most so many bytes.
pub const MOST_LISTING_BYTES: usize = 393_408;

/// The listing of a house file.
#[derive(Clone, Copy, Debug, PartialEq, Eq)]
pub struct Listing<'a> {
    /// All of its text, as the listing program prints it.
    pub text: &'a [u8],
    /// How many events the file has; 0 where it is refused.
    pub events: u64,
    /// The index of the flagged event, if one is; or why the file is refused.
    pub verdict: Result<Option<u64>, Refusal>,
}

/// Lists a house file of `length` bytes, of which those after [`MOST_FILE_BYTES`](crate::MOST_FILE_BYTES) + 1 need not be in `file`: a
/// file that is too long is refused with its true length. The text goes to the start of `room`; later bytes keep their values.
///
/// ```
/// use rillmoth::{Bounds, House, Refusal, MOST_LISTING_BYTES};
///
/// let file = House::standard(Bounds { waiting: 4, losses: 2 }, &[0, 129]).write()?;
/// let mut room = Box::new([0; MOST_LISTING_BYTES]);
/// let listing = rillmoth::listing(&file, file.len(), &mut room);
/// assert_eq!(listing.verdict, Ok(Some(1)));
/// assert!(listing.text.ends_with(b"\n1 o1 0000000000000000 - -\nflagged 1\n"));
///
/// let listing = rillmoth::listing(&file[..7], 7, &mut room);
/// assert_eq!(listing.verdict, Err(Refusal::BadLength { length: 7 }));
/// assert_eq!(listing.text, b"refused 11 7\n");
/// # Ok::<(), Refusal>(())
/// ```
pub fn listing<'a>(file: &[u8], length: usize, room: &'a mut [u8; MOST_LISTING_BYTES]) -> Listing<'a> {
    let mut results = [0; 6];
    doors::fits(doors::listing(file, length, room, &mut results));
    let [number, place, second, text, events, flag] = results;
    let verdict = Refusal::told(number, place, second).map(|()| flag.checked_sub(1));
    Listing { text: &room[..text as usize], events, verdict }
}
