//! The house file: a writer that builds files block by block, right ones and damaged ones, and the
//! reader with its refusals: 11; block by block 12, 20, 21, 22, 23; then 2, 3, 14, 1, 4, 5, 6, 9, 7, 10.

use crate::refusal::{refuse, Offered, Refusal};
use crate::run::{valid, UNTOUCHED};
use crate::session::limit;
use crate::standard;
use crate::wrong::Wrong;

pub const BLOCK: usize = 512;
pub const PAYLOAD: usize = 504;
pub const PAYLOAD_AT: usize = 6;
pub const CHECK_AT: usize = 510;
pub const MOST_BLOCKS: usize = 15;

/// More bytes than any file's rows or events.
pub const ROOM: usize = BLOCK * (MOST_BLOCKS + 1);

pub const MOST_EVENTS: u64 = 4096;
pub const MODULUS: u64 = 65_521;

pub const HEADER: u8 = 1;
pub const ROWS: u8 = 2;
pub const EVENTS: u8 = 3;

/// What a file says. The six numbers of block 0 may be any bytes.
#[derive(Clone, Debug, PartialEq)]
pub struct Content {
    pub states: u8,
    pub inputs: u8,
    pub outputs: u8,
    pub waiting: u8,
    pub losses: u8,
    pub source: u8,
    pub rows: Vec<u8>,
    pub events: Vec<u8>,
}

impl Content {
    /// Counts, bounds and rows as the tests want them; with source 1 and no rows the standard box's.
    pub fn offered(&self) -> Offered {
        self.offered_as(Wrong::Nothing)
    }

    pub fn offered_as(&self, wrong: Wrong) -> Offered {
        let rows = if self.source == 1 && self.rows.is_empty() { standard::rows_as(wrong) } else { self.rows.clone() };
        Offered { rows, ..self.given() }
    }

    /// Counts, bounds and rows as they stand in the file.
    fn given(&self) -> Offered {
        Offered {
            states: self.states as u64,
            inputs: self.inputs as u64,
            outputs: self.outputs as u64,
            waiting: self.waiting as u64,
            losses: self.losses as u64,
            rows: self.rows.clone(),
        }
    }
}

/// One block of 512 bytes with its number; used count, fill and check are right.
pub fn block(kind: u8, number: usize, payload: &[u8]) -> Vec<u8> {
    let mut bytes = vec![kind, 0];
    bytes.extend((number as u16).to_le_bytes());
    bytes.extend((payload.len() as u16).to_le_bytes());
    bytes.extend(payload);
    bytes.resize(BLOCK, 0);
    repair(&mut bytes);
    bytes
}

/// Writes the right check into a block.
pub fn repair(block: &mut [u8]) {
    let check = (sum(block, 1) % MODULUS) as u16;
    block[CHECK_AT..].copy_from_slice(&check.to_le_bytes());
}

/// Block 0 of some content.
pub fn header(content: &Content) -> Vec<u8> {
    let Content { states, inputs, outputs, waiting, losses, source, .. } = content;
    block(HEADER, 0, &[*states, *inputs, *outputs, *waiting, *losses, *source])
}

/// The file of some content, its blocks as full as they can be.
pub fn written(content: &Content) -> Vec<u8> {
    let mut file = header(content);
    for (kind, bytes) in [(ROWS, &content.rows), (EVENTS, &content.events)] {
        for payload in bytes.chunks(PAYLOAD) {
            file.extend(block(kind, file.len() / BLOCK, payload));
        }
    }
    file
}

/// The sum of (i + 1) times byte i, for i from 0 to 509; `first` is the weight of byte 0.
fn sum(block: &[u8], first: u64) -> u64 {
    block[..CHECK_AT].iter().enumerate().map(|(place, byte)| (place as u64 + first) * *byte as u64).sum()
}

/// The answer of the reader: number, place, second place, states, inputs, outputs, B, c, source, row
/// bytes and events, and both buffers.
#[derive(Clone, Debug, PartialEq)]
pub struct Answered {
    pub told: [u64; 11],
    pub rows: Vec<u8>,
    pub events: Vec<u8>,
}

/// Reads a file into buffers of so many bytes. A refused read writes nothing.
pub fn read(file: &[u8], row_room: usize, event_room: usize, wrong: Wrong) -> Answered {
    let mut answer = Answered { told: [0; 11], rows: vec![UNTOUCHED; row_room], events: vec![UNTOUCHED; event_room] };
    match fitted(file, row_room, event_room, wrong) {
        Err((refusal, content)) => {
            answer.told[..3].copy_from_slice(&refusal.told());
            if let (Wrong::TellsWhenRefused, Some(content)) = (wrong, &content) {
                answer.told[3..].copy_from_slice(&results(content));
            }
            if let (Wrong::WritesWhenRefused, Some(content)) = (wrong, &content) {
                let fitting = content.events.len().min(event_room);
                answer.events[..fitting].copy_from_slice(&content.events[..fitting]);
            }
        }
        Ok(content) => {
            answer.told[3..].copy_from_slice(&results(&content));
            if wrong == Wrong::ClearsRest {
                answer.rows.fill(0);
                answer.events.fill(0);
            }
            let rows = content.rows.len().min(row_room);
            answer.rows[..rows].copy_from_slice(&content.rows[..rows]);
            answer.events[..content.events.len()].copy_from_slice(&content.events);
        }
    }
    answer
}

fn results(content: &Content) -> [u64; 8] {
    [
        content.states as u64,
        content.inputs as u64,
        content.outputs as u64,
        content.waiting as u64,
        content.losses as u64,
        content.source as u64,
        content.rows.len() as u64,
        content.events.len() as u64,
    ]
}

/// A refusal, with what had been read by then if a wrong monitor tells it.
pub type Refused = (Refusal, Option<Content>);

/// All tests, for buffers of so many bytes.
pub fn fitted(file: &[u8], row_room: usize, event_room: usize, wrong: Wrong) -> Result<Content, Refused> {
    let content = content(file, wrong)?;
    rooms(&content, row_room, event_room, wrong)?;
    Ok(content)
}

/// All tests but 10.
fn content(file: &[u8], wrong: Wrong) -> Result<Content, Refused> {
    let content = unpacked(file, wrong).map_err(|refusal| (refusal, None))?;
    match judged(&content, wrong) {
        Err(refusal) => Err((refusal, Some(content))),
        Ok(()) => Ok(content),
    }
}

/// Number 11: whole blocks, one to fifteen of them.
pub fn whole(file: &[u8], wrong: Wrong) -> Result<(), Refusal> {
    let most = if wrong == Wrong::BlocksSixteen { MOST_BLOCKS + 1 } else { MOST_BLOCKS };
    if file.is_empty() || !file.len().is_multiple_of(BLOCK) || file.len() > BLOCK * most {
        refuse(11, file.len() as u64)
    } else {
        Ok(())
    }
}

/// What the blocks of a file hold, none of it tested: 11, 12 and 20 to 23 only.
pub fn unpacked(file: &[u8], wrong: Wrong) -> Result<Content, Refusal> {
    whole(file, wrong)?;
    let blocks: Vec<&[u8]> = file.chunks(BLOCK).collect();
    blocked(&blocks, wrong)?;
    Ok(gathered(&blocks))
}

/// Block by block, 12 and then 20 to 23.
fn blocked(blocks: &[&[u8]], wrong: Wrong) -> Result<(), Refusal> {
    if wrong == Wrong::ChecksFirst {
        for (number, block) in blocks.iter().enumerate() {
            checked(block, number, wrong)?;
        }
    }
    for (number, block) in blocks.iter().enumerate() {
        checked(block, number, wrong)?;
        let before = if number == 0 { None } else { Some(blocks[number - 1]) };
        if let Some(flaw) = flawed(block, number, before, wrong) {
            return Err(Refusal { number: flaw.number, place: number as u64, second: flaw.offset });
        }
    }
    Ok(())
}

/// The check that a block must have.
pub fn check(block: &[u8], wrong: Wrong) -> u64 {
    match wrong {
        Wrong::WeightsFromZero => sum(block, 0) % MODULUS,
        Wrong::CheckByWord => sum(block, 1) % 65_536,
        _ => sum(block, 1) % MODULUS,
    }
}

/// Number 12. The stored check must equal the remainder: 65,521 and above never do.
pub fn checked(block: &[u8], number: usize, wrong: Wrong) -> Result<(), Refusal> {
    let mut stored = two(block, CHECK_AT);
    if wrong == Wrong::CheckReduced {
        stored %= MODULUS;
    }
    if stored == check(block, wrong) {
        Ok(())
    } else {
        refuse(12, number as u64)
    }
}

fn two(block: &[u8], at: usize) -> u64 {
    block[at] as u64 + 256 * block[at + 1] as u64
}

fn used(block: &[u8]) -> usize {
    two(block, 4) as usize
}

/// What is wrong with a part of a block: the number, and where in the block to look.
#[derive(Clone, Copy, Debug, PartialEq)]
pub struct Flaw {
    pub number: u64,
    pub offset: u64,
}

/// The parts of a block that are wrong, each with what is told of it, in the order in which they are told.
pub fn flaws(block: &[u8], number: usize, before: Option<&[u8]>, wrong: Wrong) -> Vec<Flaw> {
    let kind = block[0];
    let kind_right = if number == 0 { kind == HEADER } else { kind == ROWS || kind == EVENTS };
    let order_right = before.is_none_or(|before| ordered(before, block, wrong));
    let second_right = block[1] == 0 || wrong == Wrong::SecondByteOverlooked;
    let number_right = two(block, 2) == number as u64 || wrong == Wrong::NumberOverlooked;
    let used = used(block);
    let used_right = match number {
        0 => used == 6 || (wrong == Wrong::UsedUpToPayload && (6..=PAYLOAD).contains(&used)),
        _ => (1..=PAYLOAD).contains(&used),
    };
    let source_right = number > 0 || block[PAYLOAD_AT + 5] <= 1;
    let strays: Vec<usize> = (PAYLOAD_AT + used..CHECK_AT).filter(|place| block[*place] != 0).collect();
    let fill_right = strays.is_empty() || wrong == Wrong::FillOverlooked;
    let stray = match wrong {
        Wrong::OffsetOfLastStray => strays.last(),
        _ => strays.first(),
    };
    let stray = stray.map_or(0, |place| *place as u64);
    let parts = [
        (kind_right, 20, 0),
        (order_right, 20, 0),
        (second_right, 21, 1),
        (number_right, 21, 2),
        (used_right, 22, 4),
        (source_right, 23, 11),
        (fill_right, 23, stray),
    ];
    let mut found = Vec::new();
    for place in order_of_parts(wrong) {
        let (right, number, offset) = parts[place];
        if !right {
            found.push(Flaw { number, offset });
        }
    }
    found
}

/// In which order the parts of a block are looked at: kind, order, byte 1, number, used count, source, zero
/// fill.
fn order_of_parts(wrong: Wrong) -> [usize; 7] {
    match wrong {
        Wrong::NumberBeforeKind => [2, 3, 0, 1, 4, 5, 6],
        Wrong::OrderLast => [0, 2, 3, 4, 5, 6, 1],
        Wrong::UsedBeforeNumber => [0, 1, 4, 2, 3, 5, 6],
        Wrong::FillBeforeUsed => [0, 1, 2, 3, 5, 6, 4],
        Wrong::FillBeforeNumber => [0, 1, 5, 6, 2, 3, 4],
        Wrong::NumberBeforeByteOne => [0, 1, 3, 2, 4, 5, 6],
        Wrong::FillBeforeSource => [0, 1, 2, 3, 4, 6, 5],
        _ => [0, 1, 2, 3, 4, 5, 6],
    }
}

/// The first flaw, as it is told.
fn flawed(block: &[u8], number: usize, before: Option<&[u8]>, wrong: Wrong) -> Option<Flaw> {
    let mut flaw = *flaws(block, number, before, wrong).first()?;
    match wrong {
        Wrong::ThirteenStill => flaw = Flaw { number: 13, offset: 0 },
        Wrong::OffsetNotTold => flaw.offset = 0,
        Wrong::OffsetInFile => flaw.offset += (BLOCK * number) as u64,
        Wrong::OffsetInPayload if flaw.number == 23 => flaw.offset -= PAYLOAD_AT as u64,
        Wrong::OffsetOfByteThree if flaw.offset == 2 && block[2] as usize == number % 256 => flaw.offset = 3,
        Wrong::OffsetOfByteFive if flaw.number == 22 && block[5] > 1 => flaw.offset = 5,
        Wrong::OffsetOfByteOne if flaw.number == 21 => flaw.offset = 1,
        Wrong::OffsetOfSource if flaw.number == 23 => flaw.offset = 11,
        _ => {}
    }
    Some(flaw)
}

/// Number 13 of document 01, which had all of that in one: whether kind, byte 1, number, used count,
/// source, zero fill and block order are right. The files turned away are still the same.
#[cfg(test)]
pub fn formed(block: &[u8], number: usize, before: Option<&[u8]>) -> bool {
    let kind = block[0];
    let (kinds, least, most) = if number == 0 { (HEADER..=HEADER, 6, 6) } else { (ROWS..=EVENTS, 1, PAYLOAD) };
    let used = used(block);
    kinds.contains(&kind)
        && block[1] == 0
        && two(block, 2) == number as u64
        && (least..=most).contains(&used)
        && (number > 0 || block[PAYLOAD_AT + 5] <= 1)
        && block[PAYLOAD_AT + used..CHECK_AT].iter().all(|byte| *byte == 0)
        && before.is_none_or(|before| ordered(before, block, Wrong::Nothing))
}

/// Rows never follow events, and no block follows one of its own kind that is not full.
fn ordered(before: &[u8], block: &[u8], wrong: Wrong) -> bool {
    if before[0] == EVENTS && block[0] == ROWS {
        return wrong == Wrong::OrderOverlooked;
    }
    before[0] != block[0] || used(before) == PAYLOAD || wrong == Wrong::ShortFollowed
}

fn gathered(blocks: &[&[u8]]) -> Content {
    let of_kind = |kind: u8| -> Vec<u8> {
        let mut bytes = Vec::new();
        for block in blocks.iter().filter(|block| block[0] == kind) {
            bytes.extend(&block[PAYLOAD_AT..PAYLOAD_AT + used(block)]);
        }
        bytes
    };
    let header = &blocks[0][PAYLOAD_AT..];
    Content {
        states: header[0],
        inputs: header[1],
        outputs: header[2],
        waiting: header[3],
        losses: header[4],
        source: header[5],
        rows: of_kind(ROWS),
        events: of_kind(EVENTS),
    }
}

/// 2, 3, 14, 1, 4, 5, 6, 9, 7.
pub fn judged(content: &Content, wrong: Wrong) -> Result<(), Refusal> {
    let standard = content.source == 1;
    let offered = content.given();
    if wrong == Wrong::LengthBeforeStates && !standard {
        offered.length()?;
    }
    offered.states()?;
    if wrong == Wrong::StandardBeforeCounts {
        fourteen(content)?;
    }
    offered.symbols(wrong)?;
    fourteen(content)?;
    if !standard {
        offered.length()?;
        offered.entries(wrong)?;
    } else {
        if wrong == Wrong::StandardEntries {
            offered.entries(wrong)?;
        }
        if !content.rows.is_empty() && wrong != Wrong::StandardRowsPass {
            return refuse(1, content.rows.len() as u64);
        }
    }
    offered.bounds(wrong)?;
    if wrong == Wrong::InvalidBeforeLimit {
        valid(&offered, &content.events, wrong)?;
    }
    if content.events.len() as u64 > limit(MOST_EVENTS, wrong) {
        return refuse(9, content.events.len() as u64);
    }
    if wrong == Wrong::RoomBeforeEvents {
        return Ok(());
    }
    valid(&offered, &content.events, wrong)
}

/// Number 14: with source 1 the counts are the standard box's.
fn fourteen(content: &Content) -> Result<(), Refusal> {
    let counts = (content.states as usize, content.inputs as usize, content.outputs as usize);
    if content.source == 1 && counts != (standard::STATES, standard::INPUTS, standard::OUTPUTS) {
        refuse(14, 0)
    } else {
        Ok(())
    }
}

/// Number 10: the row buffer, then the event buffer; with source 1 the rows need none.
fn rooms(content: &Content, row_room: usize, event_room: usize, wrong: Wrong) -> Result<(), Refused> {
    let mut needs = [(content.rows.len(), row_room), (content.events.len(), event_room)];
    if wrong == Wrong::EventRoomFirst {
        needs.reverse();
    }
    if wrong == Wrong::StandardRowsPass && content.source == 1 {
        needs[0].0 = 0;
    }
    for (needed, room) in needs {
        if room < needed {
            let refusal = Refusal { number: 10, place: needed as u64, second: 0 };
            return Err((refusal, Some(content.clone())));
        }
    }
    if wrong == Wrong::RoomBeforeEvents {
        let offered = content.offered();
        return valid(&offered, &content.events, wrong).map_err(|refusal| (refusal, None));
    }
    Ok(())
}
