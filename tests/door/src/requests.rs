//! The requests, each through the Rust door and back into the figures of its answer.

use crate::wire::{Input, Output};
use rillmoth::{Bounds, Capture, Contents, House, Listing, Outcome, Refusal, Session, Source, MOST_LISTING_BYTES};
use std::fs::{self, File, OpenOptions};
use std::io::{self, Read, Seek, Write};

/// Number and places, 0 where nothing was refused.
fn told<T>(answer: &Result<T, Refusal>) -> [u64; 3] {
    match answer {
        Ok(_) => [0; 3],
        Err(refusal) => refusal.figures(),
    }
}

pub fn open(input: &mut Input, output: &mut Output) -> io::Result<()> {
    let offered = input.offered()?;
    let mut session = input.session()?;
    let answer = session.reopen(&offered.table(), offered.bounds);
    // The other way to open a session gives the same one.
    let fresh = Session::open(&offered.table(), offered.bounds);
    if fresh != answer.map(|()| session.clone()) {
        return Err(io::Error::other("Session::open and Session::reopen differ"));
    }
    output.numbers(&told(&answer))?;
    output.session(&session)
}

pub fn feed(input: &mut Input, output: &mut Output) -> io::Result<()> {
    let mut session = input.session()?;
    let event = u8::try_from(input.number()?).map_err(io::Error::other)?;
    let answer = session.feed(event);
    output.numbers(&told(&answer))?;
    output.session(&session)
}

pub fn run(input: &mut Input, output: &mut Output) -> io::Result<()> {
    let offered = input.offered()?;
    let (trace, mut out) = (input.bytes()?, input.untouched()?);
    let answer = rillmoth::run(&offered.table(), offered.bounds, &trace, &mut out);
    output.numbers(&told(&answer))?;
    output.numbers(&[answer.ok().flatten().map_or(0, |place| place + 1)])?;
    output.bytes(&out)
}

/// The words that the library told of a file.
fn counts(contents: &Contents) -> [u64; 8] {
    let Contents { states, inputs, outputs, bounds, source, rows, events } = *contents;
    let source = match source {
        Source::Rows => 0,
        Source::Standard => 1,
    };
    [states, inputs, outputs, bounds.waiting, bounds.losses, source, rows, events].map(|count| count as u64)
}

pub fn read(input: &mut Input, output: &mut Output) -> io::Result<()> {
    let (file, mut rows, mut events) = (input.bytes()?, input.untouched()?, input.untouched()?);
    let answer = rillmoth::read(&file, &mut rows, &mut events);
    output.numbers(&told(&answer))?;
    output.numbers(&answer.as_ref().map_or([0; 8], counts))?;
    output.bytes(&rows)?;
    output.bytes(&events)
}

/// The listing goes from one open file to another. Both have no name, and end with the driver.
pub struct Lister {
    file: File,
    text: File,
}

impl Lister {
    pub fn new() -> io::Result<Lister> {
        let nameless = |name: &str| {
            let path = std::env::temp_dir().join(format!("door-{}-{name}", std::process::id()));
            let file = OpenOptions::new().read(true).write(true).create_new(true).open(&path)?;
            fs::remove_file(&path)?;
            Ok::<File, io::Error>(file)
        };
        Ok(Lister { file: nameless("file")?, text: nameless("text")? })
    }

    pub fn list(&mut self, input: &mut Input, output: &mut Output) -> io::Result<()> {
        for file in [&mut self.file, &mut self.text] {
            file.set_len(0)?;
            file.rewind()?;
        }
        self.file.write_all(&input.bytes()?)?;
        self.file.rewind()?;
        let outcome = match rillmoth::list(&self.file, &self.text) {
            Outcome::Consistent => 0,
            Outcome::Flagged => 1,
            Outcome::Refused => 2,
            Outcome::Broken => 3,
        };
        let mut text = Vec::new();
        self.text.rewind()?;
        self.text.read_to_end(&mut text)?;
        output.numbers(&[text.len() as u64])?;
        output.bytes(&text)?;
        output.numbers(&[outcome])
    }
}

pub fn import(input: &mut Input, output: &mut Output) -> io::Result<()> {
    let (capture, mut events) = (input.bytes()?, input.untouched()?);
    let answer = rillmoth::import(&capture, &mut events);
    output.numbers(&told(&answer))?;
    output.numbers(&[answer.map_or(0, |count| count as u64)])?;
    output.bytes(&events)
}

pub fn hand(input: &mut Input, output: &mut Output) -> io::Result<()> {
    let bytes = input.bytes()?;
    let mut capture = Capture::at(&bytes, input.size()?);
    let answer = capture.hand();
    let event = answer.ok().flatten();
    output.numbers(&told(&answer))?;
    output.numbers(&[event.is_some().into(), event.unwrap_or(0).into(), capture.place() as u64])
}

pub fn write(input: &mut Input, output: &mut Output) -> io::Result<()> {
    let source = if input.number()? == 0 { Source::Rows } else { Source::Standard };
    let offered = input.offered()?;
    let (trace, mut out) = (input.bytes()?, input.untouched()?);
    let answer = rillmoth::write(source, &offered.table(), offered.bounds, &trace, &mut out);
    output.numbers(&told(&answer))?;
    output.numbers(&[answer.map_or(0, |length| length as u64)])?;
    output.bytes(&out)
}

/// A file is read and written again through `House`.
pub fn again(input: &mut Input, output: &mut Output) -> io::Result<()> {
    let (file, mut out) = (input.bytes()?, input.untouched()?);
    let answer = House::read(&file).and_then(|house| house.write()).and_then(|written| {
        let needed = written.len();
        let room = out.get_mut(..needed).ok_or(Refusal::ShortBuffer { needed: needed as u64 })?;
        room.copy_from_slice(&written);
        Ok(needed)
    });
    output.numbers(&told(&answer))?;
    output.numbers(&[answer.map_or(0, |length| length as u64)])?;
    output.bytes(&out)
}

/// The door lends memory that the rows fill, and so never too little.
pub fn standard(input: &mut Input, output: &mut Output) -> io::Result<()> {
    let rows = rillmoth::standard_rows();
    let mut out = input.untouched()?;
    let room = out.get_mut(..rows.len());
    output.numbers(&[room.is_some().into()])?;
    if let Some(room) = room {
        room.copy_from_slice(&rows);
    }
    output.bytes(&out)
}

/// What the door is asked to write to, and how many results the answer is to have.
struct Lent {
    out: Vec<u8>,
    results: usize,
}

impl Lent {
    fn taken(input: &mut Input) -> io::Result<Lent> {
        Ok(Lent { out: input.untouched()?, results: input.size()? })
    }

    /// The door lends results of its own, and so never too few: there the library is not asked where it would answer false. Else what was
    /// told stands in the first words.
    fn answer<const COUNT: usize>(
        &mut self,
        output: &mut Output,
        ask: impl FnOnce(&mut [u8]) -> Option<[u64; COUNT]>,
    ) -> io::Result<()> {
        let told = if self.results < COUNT { None } else { ask(&mut self.out) };
        output.numbers(&[told.is_some().into()])?;
        output.results(told.as_ref().map_or(&[][..], |told| &told[..]), self.results)?;
        output.left(&self.out)
    }
}

/// Number and places, and how long the file is that was made.
fn made(answer: Result<usize, Refusal>) -> Option<[u64; 4]> {
    let [number, place, second] = told(&answer);
    Some([number, place, second, answer.map_or(0, |length| length as u64)])
}

pub fn rebind(input: &mut Input, output: &mut Output) -> io::Result<()> {
    let file = input.bytes()?;
    let bounds = Bounds { waiting: input.size()?, losses: input.size()? };
    Lent::taken(input)?.answer(output, |out| made(rillmoth::rebind(&file, bounds, out)))
}

pub fn retrace(input: &mut Input, output: &mut Output) -> io::Result<()> {
    let (file, trace) = (input.bytes()?, input.bytes()?);
    Lent::taken(input)?.answer(output, |out| made(rillmoth::retrace(&file, &trace, out)))
}

pub fn mend(input: &mut Input, output: &mut Output) -> io::Result<()> {
    let file = input.bytes()?;
    Lent::taken(input)?.answer(output, |out| made(rillmoth::mend(&file, out)))
}

/// The door asks for the room that every text has.
pub fn listing(input: &mut Input, output: &mut Output) -> io::Result<()> {
    let (file, length) = (input.bytes()?, input.size()?);
    Lent::taken(input)?.answer(output, |out| {
        let room: &mut [u8; MOST_LISTING_BYTES] = out.get_mut(..MOST_LISTING_BYTES)?.try_into().ok()?;
        let Listing { text, events, verdict } = rillmoth::listing(&file, length, room);
        let [number, place, second] = told(&verdict);
        let flag = verdict.ok().flatten().map_or(0, |place| place + 1);
        Some([number, place, second, text.len() as u64, events, flag])
    })
}
