//! House files.

use crate::doors;
use crate::{standard_rows, Bounds, Refusal, Table, MOST_ROW_BYTES};

/// A house file has at most so many events,
pub const MOST_FILE_EVENTS: usize = 4096;

/// and at most so many bytes.
pub const MOST_FILE_BYTES: usize = 7680;

/// Whose rules a house file has.
#[derive(Clone, Copy, Debug, PartialEq, Eq)]
pub enum Source {
    /// Those of its own rows.
    Rows,
    /// The standard box's; then it has no rows.
    Standard,
}

/// What a house file holds besides its rows and its events.
#[derive(Clone, Copy, Debug, PartialEq, Eq)]
pub struct Contents {
    /// How many states.
    pub states: usize,
    /// How many inputs.
    pub inputs: usize,
    /// How many outputs.
    pub outputs: usize,
    /// B and c.
    pub bounds: Bounds,
    /// Whose rules it has.
    pub source: Source,
    /// How many bytes of rows were read.
    pub rows: usize,
    /// How many events were read.
    pub events: usize,
}

/// Reads a house file: its rows and its events to the starts of two buffers, of which [`MOST_ROW_BYTES`] and [`MOST_FILE_EVENTS`] are
/// always enough; later bytes keep their values. Refuses with 11; then block by block 12, 20, 21, 22, 23; then 2, 3, 14, 1, 4, 5, 6, 9,
/// 7, 10; then both buffers are as they were.
pub fn read(file: &[u8], rows: &mut [u8], events: &mut [u8]) -> Result<Contents, Refusal> {
    let mut results = [0; 11];
    doors::fits(doors::read(file, rows, events, &mut results));
    let [number, place, second, counts @ ..] = results;
    Refusal::told(number, place, second)?;
    let [states, inputs, outputs, waiting, losses, source, rows, events] = counts.map(|count| count as usize);
    let source = if source == 0 { Source::Rows } else { Source::Standard };
    Ok(Contents { states, inputs, outputs, bounds: Bounds { waiting, losses }, source, rows, events })
}

/// Writes a house file to the start of `out`, of which [`MOST_FILE_BYTES`] are always enough, and tells how long it is. With the
/// standard box the table's rows are empty. Refuses with 2, 3, 14, 1, 4, 5, 6, 9, 7, 10; then `out` is as it was.
pub fn write(source: Source, table: &Table, bounds: Bounds, trace: &[u8], out: &mut [u8]) -> Result<usize, Refusal> {
    let mut results = [0; 4];
    let source = match source {
        Source::Rows => 0,
        Source::Standard => 1,
    };
    doors::fits(doors::write(source, table, bounds, trace, out, &mut results));
    written(results)
}

/// Writes the house file `file` with these bounds in place of its own to the start of `out`, of which [`MOST_FILE_BYTES`] are always
/// enough, and tells how long it is. Its own bounds are not looked at. Refuses with 11; then block by block 12, 20, 21, 22, 23; then as
/// [`write()`] does; then `out` is as it was.
pub fn rebind(file: &[u8], bounds: Bounds, out: &mut [u8]) -> Result<usize, Refusal> {
    let mut results = [0; 4];
    doors::fits(doors::rebind(file, bounds, out, &mut results));
    written(results)
}

/// Writes the house file `file` with this trace in place of its own, likewise. Refuses as [`read()`] does; then with 9, 7, 10 of what is to
/// be written.
pub fn retrace(file: &[u8], trace: &[u8], out: &mut [u8]) -> Result<usize, Refusal> {
    let mut results = [0; 4];
    doors::fits(doors::retrace(file, trace, out, &mut results));
    written(results)
}

/// Writes the house file `file` with the check of block 0 put right, likewise: for a setup that was changed by hand. Nothing else is looked
/// at, and nothing else changes. Refuses with 11, 10.
pub fn mend(file: &[u8], out: &mut [u8]) -> Result<usize, Refusal> {
    let mut results = [0; 4];
    doors::fits(doors::mend(file, out, &mut results));
    written(results)
}

/// How long the file is that was written, or why none was.
fn written([number, place, second, length]: [u64; 4]) -> Result<usize, Refusal> {
    Refusal::told(number, place, second)?;
    Ok(length as usize)
}

/// A house file in memory of its own.
///
/// ```
/// use rillmoth::{Bounds, House, Refusal, Session};
///
/// let house = House::standard(Bounds { waiting: 4, losses: 2 }, &[0, 128]);
/// let file = house.write()?;
/// assert_eq!(file.len(), 1024);
/// assert_eq!(House::read(&file)?, house);
/// assert_eq!(House::read(&file[1..]), Err(Refusal::BadLength { length: 1023 }));
///
/// let mut session = Session::open(&house.table(), house.bounds)?;
/// for event in &house.events {
///     session.feed(*event)?;
/// }
/// assert_eq!(session.flag(), None);
/// # Ok::<(), Refusal>(())
/// ```
#[derive(Clone, Debug, PartialEq, Eq)]
pub struct House {
    /// How many states.
    pub states: usize,
    /// How many inputs.
    pub inputs: usize,
    /// How many outputs.
    pub outputs: usize,
    /// B and c.
    pub bounds: Bounds,
    /// Whose rules it has.
    pub source: Source,
    /// The table's rows; with the standard box they are its, though the file has none.
    pub rows: Vec<u8>,
    /// The events.
    pub events: Vec<u8>,
}

impl House {
    /// A file of the standard box.
    pub fn standard(bounds: Bounds, events: &[u8]) -> House {
        House {
            states: 64,
            inputs: 16,
            outputs: 16,
            bounds,
            source: Source::Standard,
            rows: standard_rows().to_vec(),
            events: events.to_vec(),
        }
    }

    /// A file of a table's own rows.
    pub fn of(table: &Table, bounds: Bounds, events: &[u8]) -> House {
        House {
            states: table.states,
            inputs: table.inputs,
            outputs: table.outputs,
            bounds,
            source: Source::Rows,
            rows: table.rows.to_vec(),
            events: events.to_vec(),
        }
    }

    /// Reads a file. Refuses as [`read()`] does, never with 10.
    pub fn read(file: &[u8]) -> Result<House, Refusal> {
        let (mut rows, mut events) = (vec![0; MOST_ROW_BYTES], vec![0; MOST_FILE_EVENTS]);
        let contents = read(file, &mut rows, &mut events)?;
        rows.truncate(contents.rows);
        events.truncate(contents.events);
        let Contents { states, inputs, outputs, bounds, source, .. } = contents;
        if source == Source::Standard {
            rows = standard_rows().to_vec();
        }
        Ok(House { states, inputs, outputs, bounds, source, rows, events })
    }

    /// The file's bytes. Refuses as [`write()`] does, never with 10. Of the standard box the rows are not looked at.
    pub fn write(&self) -> Result<Vec<u8>, Refusal> {
        let table = match self.source {
            Source::Rows => self.table(),
            Source::Standard => Table { rows: &[], ..self.table() },
        };
        let mut file = vec![0; MOST_FILE_BYTES];
        let length = write(self.source, &table, self.bounds, &self.events, &mut file)?;
        file.truncate(length);
        Ok(file)
    }

    /// The rules of its box.
    pub fn table(&self) -> Table<'_> {
        Table { states: self.states, inputs: self.inputs, outputs: self.outputs, rows: &self.rows }
    }
}
