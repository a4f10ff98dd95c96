//! The writer of house files: the reader's content numbers in its order, 2, 3, 14, 1, 4, 5, 6, 9, 7, then 10 with the length
//! needed; and a file at the start of the buffer.

use crate::house::{self, Content, BLOCK, CHECK_AT, EVENTS, HEADER, MODULUS, MOST_EVENTS, PAYLOAD, PAYLOAD_AT, ROWS};
use crate::refusal::{refuse, Offered, Refusal};
use crate::run::{valid, UNTOUCHED};
use crate::session::limit;
use crate::standard;
use crate::wrong::Wrong;

/// What somebody wants written, nothing of it tested yet. Source 0 is the rows, any other number the standard box.
#[derive(Clone, Debug)]
pub struct Wanted {
    pub source: u64,
    pub offered: Offered,
    pub trace: Vec<u8>,
}

impl Wanted {
    pub fn of(content: &Content) -> Wanted {
        let Content { states, inputs, outputs, waiting, losses, source, rows, events } = content.clone();
        let [states, inputs, outputs, waiting, losses, source] =
            [states, inputs, outputs, waiting, losses, source].map(u64::from);
        Wanted { source, offered: Offered { states, inputs, outputs, waiting, losses, rows }, trace: events }
    }

    fn blocks(&self) -> usize {
        1 + self.offered.rows.len().div_ceil(PAYLOAD) + self.trace.len().div_ceil(PAYLOAD)
    }

    pub fn needed(&self) -> usize {
        BLOCK * self.blocks()
    }
}

/// The answer: number, place, second place and the file's length; and the whole buffer.
#[derive(Clone, Debug, PartialEq)]
pub struct Written {
    pub told: [u64; 4],
    pub out: Vec<u8>,
}

/// A refused writing leaves the buffer as it was.
pub fn refused(refusal: Refusal, room: usize) -> Written {
    let [number, place, second] = refusal.told();
    Written { told: [number, place, second, 0], out: vec![UNTOUCHED; room] }
}

/// Writes into a buffer of so many bytes.
pub fn write(wanted: &Wanted, room: usize, wrong: Wrong) -> Written {
    let mut wanted = wanted.clone();
    if wrong == Wrong::CutToBytes {
        let Offered { states, inputs, outputs, waiting, losses, .. } = &mut wanted.offered;
        for number in [states, inputs, outputs, waiting, losses] {
            *number %= 256;
        }
    }
    if let Err(refusal) = tested(&wanted, room, wrong) {
        let mut answer = refused(refusal, room);
        if wrong == Wrong::WritesWhenRefused && refusal.number == 10 {
            answer.out.copy_from_slice(&laid(&wanted, wrong)[..room]);
        }
        return answer;
    }
    let file = laid(&wanted, wrong);
    let mut out = vec![if wrong == Wrong::ClearsRest { 0 } else { UNTOUCHED }; room];
    let fitting = file.len().min(room);
    out[..fitting].copy_from_slice(&file[..fitting]);
    Written { told: [0, 0, 0, wanted.needed() as u64], out }
}

fn tested(wanted: &Wanted, room: usize, wrong: Wrong) -> Result<(), Refusal> {
    if wrong == Wrong::RoomFirst {
        fits(wanted, room, wrong)?;
    }
    held(wanted, wrong)?;
    fits(wanted, room, wrong)
}

/// 2, 3, 14, 1, 4, 5, 6, 9, 7.
pub fn held(wanted: &Wanted, wrong: Wrong) -> Result<(), Refusal> {
    let Wanted { source, offered, trace } = wanted;
    let standard = *source != 0;
    if wrong == Wrong::LengthBeforeStates && !standard {
        offered.length()?;
    }
    offered.states()?;
    if wrong == Wrong::StandardBeforeCounts {
        fourteen(wanted)?;
    }
    offered.symbols(wrong)?;
    fourteen(wanted)?;
    if standard {
        if wrong == Wrong::StandardEntries {
            offered.entries(wrong)?;
        }
        if !offered.rows.is_empty() && wrong != Wrong::StandardRowsPass {
            return refuse(1, offered.rows.len() as u64);
        }
    } else {
        offered.length()?;
        offered.entries(wrong)?;
    }
    offered.bounds(wrong)?;
    if wrong == Wrong::InvalidBeforeLimit {
        valid(offered, trace, wrong)?;
    }
    if trace.len() as u64 > limit(MOST_EVENTS, wrong) {
        return refuse(9, trace.len() as u64);
    }
    valid(offered, trace, wrong)
}

fn fourteen(wanted: &Wanted) -> Result<(), Refusal> {
    let Offered { states, inputs, outputs, .. } = &wanted.offered;
    let right = [standard::STATES, standard::INPUTS, standard::OUTPUTS].map(|count| count as u64);
    if wanted.source != 0 && [*states, *inputs, *outputs] != right {
        refuse(14, 0)
    } else {
        Ok(())
    }
}

fn fits(wanted: &Wanted, room: usize, wrong: Wrong) -> Result<(), Refusal> {
    let needed = match wrong {
        Wrong::RoomForMost => BLOCK * house::MOST_BLOCKS,
        Wrong::RoomOfPayload => PAYLOAD * wanted.blocks(),
        Wrong::RoomOneMore => wanted.needed() + 1,
        _ => wanted.needed(),
    };
    if room < needed {
        refuse(10, needed as u64)
    } else {
        Ok(())
    }
}

/// A block byte by byte: each byte is said by its place.
fn block(kind: u8, number: usize, payload: &[u8], wrong: Wrong) -> Vec<u8> {
    let mut bytes: Vec<u8> = (0..CHECK_AT)
        .map(|place| match place {
            0 => kind,
            2 => (number % 256) as u8,
            3 => (number / 256) as u8,
            4 if wrong == Wrong::UsedHighFirst => (payload.len() / 256) as u8,
            5 if wrong == Wrong::UsedHighFirst => (payload.len() % 256) as u8,
            4 => (payload.len() % 256) as u8,
            5 => (payload.len() / 256) as u8,
            1 => 0,
            _ => payload.get(place - PAYLOAD_AT).copied().unwrap_or(match wrong {
                Wrong::FillLeft => UNTOUCHED,
                _ => 0,
            }),
        })
        .collect();
    let mut check = 0;
    let mut weight = if wrong == Wrong::WeightsFromZero { 0 } else { 1 };
    for byte in &bytes {
        check += weight * *byte as u64;
        weight += 1;
    }
    check %= if wrong == Wrong::CheckByWord { 65_536 } else { MODULUS };
    bytes.push((check % 256) as u8);
    bytes.push((check / 256) as u8);
    bytes
}

/// The payloads of the blocks of one kind.
fn portions(bytes: &[u8], wrong: Wrong) -> Vec<&[u8]> {
    let mut portions: Vec<&[u8]> = Vec::new();
    let mut rest = bytes;
    if wrong == Wrong::ShortFirst && bytes.len() % PAYLOAD != 0 {
        let (short, full) = bytes.split_at(bytes.len() % PAYLOAD);
        portions.push(short);
        rest = full;
    }
    while !rest.is_empty() {
        let (portion, after) = rest.split_at(rest.len().min(PAYLOAD));
        portions.push(portion);
        rest = after;
    }
    if wrong == Wrong::EmptyAfterFull && !bytes.is_empty() && bytes.len().is_multiple_of(PAYLOAD) {
        portions.push(&[]);
    }
    if wrong == Wrong::EmptyForNone && bytes.is_empty() {
        portions.push(&[]);
    }
    portions
}

/// The file.
fn laid(wanted: &Wanted, wrong: Wrong) -> Vec<u8> {
    let Offered { states, inputs, outputs, waiting, losses, rows } = &wanted.offered;
    let (waiting, losses) = if wrong == Wrong::BoundsSwapped { (losses, waiting) } else { (waiting, losses) };
    let source = if wrong == Wrong::SourceLost { 0 } else { wanted.source.min(1) };
    let setup = [*states, *inputs, *outputs, *waiting, *losses, source].map(|number| number as u8);
    let mut blocks = vec![(HEADER, setup.to_vec())];
    let standard_rows;
    let rows = if wrong == Wrong::StandardWrittenOut && wanted.source != 0 {
        standard_rows = standard::rows();
        &standard_rows
    } else {
        rows
    };
    let parts = [(ROWS, rows), (EVENTS, &wanted.trace)];
    for (kind, bytes) in parts {
        blocks.extend(portions(bytes, wrong).into_iter().map(|portion| (kind, portion.to_vec())));
    }
    let mut file = Vec::new();
    let mut of_kind = [0; 4];
    for (number, (kind, payload)) in blocks.iter().enumerate() {
        let told = if wrong == Wrong::NumbersByKind { of_kind[*kind as usize] } else { number };
        of_kind[*kind as usize] += 1;
        file.extend(block(*kind, told, payload, wrong));
    }
    file
}

/// Reads a file and writes what was read. What comes of a good file is known without a writer: the same bytes.
pub fn again(file: &[u8], room: usize, wrong: Wrong) -> Written {
    match house::fitted(file, 2048, 4096, wrong) {
        Err((refusal, _)) => refused(refusal, room),
        Ok(_) if room < file.len() => refused(Refusal { number: 10, place: file.len() as u64, second: 0 }, room),
        Ok(content) => match wrong {
            Wrong::Nothing => {
                let mut out = vec![UNTOUCHED; room];
                out[..file.len()].copy_from_slice(file);
                Written { told: [0, 0, 0, file.len() as u64], out }
            }
            _ => write(&Wanted::of(&content), room, wrong),
        },
    }
}

#[cfg(test)]
mod tests {
    use super::*;
    use crate::random::Random;
    use crate::writes;

    /// What is written is read back as it was given, and written again as it was written.
    #[test]
    fn both_round_trips() {
        let mut random = Random::new(5);
        let mut written = 0;
        for _ in 0..3000 {
            let wanted = writes::wanted(&mut random);
            let room = wanted.needed() + 7;
            let answer = write(&wanted, room, Wrong::Nothing);
            if answer.told[0] != 0 {
                continue;
            }
            written += 1;
            let file = &answer.out[..answer.told[3] as usize];
            let read = house::read(file, 2048, 4096, Wrong::Nothing);
            let Offered { states, inputs, outputs, waiting, losses, rows } = &wanted.offered;
            let counts = [*states, *inputs, *outputs, *waiting, *losses, wanted.source.min(1)];
            assert_eq!(read.told[..3], [0; 3]);
            assert_eq!(read.told[3..9], counts);
            assert_eq!(read.told[9..], [rows.len() as u64, wanted.trace.len() as u64]);
            assert_eq!(&read.rows[..rows.len()], &rows[..]);
            assert_eq!(&read.events[..wanted.trace.len()], &wanted.trace[..]);
            assert_eq!(again(file, room, Wrong::Nothing), answer);
        }
        assert!(written > 1000);
    }

    /// A good file is what the writer makes of what it holds, and so is every good edit of it.
    #[test]
    fn good_files_are_written_again() {
        let mut random = Random::new(6);
        let mut good = 0;
        for _ in 0..3000 {
            let file = writes::edited(&mut random);
            if let Ok(content) = house::fitted(&file, 2048, 4096, Wrong::Nothing) {
                good += 1;
                assert_eq!(write(&Wanted::of(&content), file.len(), Wrong::Nothing).out, file);
            }
        }
        assert!(good > 500);
    }
}
