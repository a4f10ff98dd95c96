//! Numbers and bytes of requests and answers: every number is 8 bytes, least byte first.

use rillmoth::{Bounds, Session, SESSION_BYTES, SESSION_WORDS};
use std::io::{self, BufReader, BufWriter, Read, StdinLock, StdoutLock, Write};

/// A longer length is a request out of step.
const MOST: u64 = 64 << 20;

pub struct Input<'a> {
    from: BufReader<StdinLock<'a>>,
}

/// Counts, bounds and rows as they are handed over, nothing of them tested.
pub struct Offered {
    pub states: usize,
    pub inputs: usize,
    pub outputs: usize,
    pub bounds: Bounds,
    pub rows: Vec<u8>,
}

impl Offered {
    pub fn table(&self) -> rillmoth::Table<'_> {
        rillmoth::Table { states: self.states, inputs: self.inputs, outputs: self.outputs, rows: &self.rows }
    }
}

impl<'a> Input<'a> {
    pub fn new(from: StdinLock<'a>) -> Input<'a> {
        Input { from: BufReader::new(from) }
    }

    /// The number of the next request, if there is one.
    pub fn request(&mut self) -> io::Result<Option<u64>> {
        match self.number() {
            Ok(number) => Ok(Some(number)),
            Err(error) if error.kind() == io::ErrorKind::UnexpectedEof => Ok(None),
            Err(error) => Err(error),
        }
    }

    pub fn number(&mut self) -> io::Result<u64> {
        let mut bytes = [0; 8];
        self.from.read_exact(&mut bytes)?;
        Ok(u64::from_le_bytes(bytes))
    }

    pub fn size(&mut self) -> io::Result<usize> {
        Ok(self.number()? as usize)
    }

    pub fn bytes(&mut self) -> io::Result<Vec<u8>> {
        let count = self.number()?;
        if count > MOST {
            return Err(io::Error::new(io::ErrorKind::InvalidData, format!("{count} bytes")));
        }
        let mut bytes = vec![0; count as usize];
        self.from.read_exact(&mut bytes)?;
        Ok(bytes)
    }

    /// Memory that the library is to write to, so filled that what was left alone can be told.
    pub fn untouched(&mut self) -> io::Result<Vec<u8>> {
        Ok(vec![UNTOUCHED; self.size()?])
    }

    pub fn offered(&mut self) -> io::Result<Offered> {
        let (states, inputs, outputs) = (self.size()?, self.size()?, self.size()?);
        let bounds = Bounds { waiting: self.size()?, losses: self.size()? };
        Ok(Offered { states, inputs, outputs, bounds, rows: self.bytes()? })
    }

    pub fn session(&mut self) -> io::Result<Session> {
        let mut words = [0; SESSION_WORDS];
        for word in &mut words {
            *word = self.number()?;
        }
        let mut bytes = [0; SESSION_BYTES];
        self.from.read_exact(&mut bytes)?;
        Ok(Session::from_parts(words, bytes))
    }
}

const UNTOUCHED: u8 = 0xAA;

pub struct Output<'a> {
    to: BufWriter<StdoutLock<'a>>,
}

impl<'a> Output<'a> {
    pub fn new(to: StdoutLock<'a>) -> Output<'a> {
        Output { to: BufWriter::new(to) }
    }

    pub fn numbers(&mut self, numbers: &[u64]) -> io::Result<()> {
        numbers.iter().try_for_each(|number| self.to.write_all(&number.to_le_bytes()))
    }

    pub fn bytes(&mut self, bytes: &[u8]) -> io::Result<()> {
        self.to.write_all(bytes)
    }

    /// So many results, of which these were told.
    pub fn results(&mut self, told: &[u64], count: usize) -> io::Result<()> {
        self.numbers(told)?;
        self.numbers(&vec![u64::from_le_bytes([UNTOUCHED; 8]); count - told.len()])
    }

    /// The bytes up to the last that is not as it was before.
    pub fn left(&mut self, bytes: &[u8]) -> io::Result<()> {
        let end = bytes.iter().rposition(|byte| *byte != UNTOUCHED).map_or(0, |last| last + 1);
        self.numbers(&[end as u64])?;
        self.bytes(&bytes[..end])
    }

    pub fn session(&mut self, session: &Session) -> io::Result<()> {
        self.numbers(session.words())?;
        self.bytes(session.bytes())
    }

    pub fn flush(&mut self) -> io::Result<()> {
        self.to.flush()
    }
}
