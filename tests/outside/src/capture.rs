//! Captures, from request L1 alone: classic pcap whose packets are events. The whole import, and one call of the reader.

use crate::refusal::{refuse, Refusal};
use crate::session::limit;
use crate::wrong::Wrong;

pub const MAGIC: u32 = 0xa1b2_c3d4;
const NANOSECONDS: u32 = 0xa1b2_3c4d;
pub const HEADER: usize = 24;
pub const RECORD: usize = 17;
pub const LINK_TYPE: u32 = 147;
pub const MOST_RECORDS: u64 = 1 << 20;

/// What stands in memory that is to be written to.
const UNTOUCHED: u8 = 0xaa;

#[derive(Clone, Copy, Debug, PartialEq)]
pub enum Order {
    Most,
    Least,
}

impl Order {
    pub fn four(self, number: u32) -> [u8; 4] {
        match self {
            Order::Most => number.to_be_bytes(),
            Order::Least => number.to_le_bytes(),
        }
    }

    pub fn two(self, number: u16) -> [u8; 2] {
        match self {
            Order::Most => number.to_be_bytes(),
            Order::Least => number.to_le_bytes(),
        }
    }
}

/// A capture as it is made: some bytes, a record as often as this, and some bytes more. So a capture of a million
/// records is small until it is sent.
#[derive(Clone, Debug)]
pub struct Made {
    pub start: Vec<u8>,
    pub record: Vec<u8>,
    pub times: usize,
    pub end: Vec<u8>,
}

impl Made {
    pub fn plain(bytes: Vec<u8>) -> Made {
        Made { start: bytes, record: Vec::new(), times: 0, end: Vec::new() }
    }

    pub fn bytes(&self) -> Vec<u8> {
        let mut bytes = self.start.clone();
        bytes.reserve(self.record.len() * self.times + self.end.len());
        for _ in 0..self.times {
            bytes.extend(&self.record);
        }
        bytes.extend(&self.end);
        bytes
    }
}

#[derive(Clone, Debug, PartialEq)]
pub struct Imported {
    /// Number, place, second place, events written.
    pub told: [u64; 4],
    pub events: Vec<u8>,
}

/// Number 15: the byte order of a capture whose header is right.
fn order(capture: &[u8], wrong: Wrong) -> Result<Order, Refusal> {
    let unheaded = Err(Refusal { number: 15, place: 0, second: 0 });
    let Some(header) = capture.get(..HEADER) else { return unheaded };
    let magic = |order: Order, magic: u32| header[..4] == order.four(magic);
    let known = |order: Order| magic(order, MAGIC) || (wrong == Wrong::NanosecondsTaken && magic(order, NANOSECONDS));
    let order = if known(Order::Most) {
        Order::Most
    } else if known(Order::Least) {
        Order::Least
    } else {
        return unheaded;
    };
    let order = if wrong == Wrong::OrderIgnored { Order::Least } else { order };
    let version = header[4..6] == order.two(2) && header[6..8] == order.two(4);
    let link = match wrong {
        Wrong::LinkLowByte => {
            let low = if order == Order::Most { header[23] } else { header[20] };
            low == LINK_TYPE as u8
        }
        Wrong::LinkLowHalf => {
            let low = if order == Order::Most { &header[22..24] } else { &header[20..22] };
            *low == order.two(LINK_TYPE as u16)
        }
        _ => header[20..24] == order.four(LINK_TYPE),
    };
    if (version || wrong == Wrong::VersionOverlooked) && link {
        Ok(order)
    } else {
        unheaded
    }
}

/// Number 16, of what there is of a record.
fn right(record: &[u8], order: Order, wrong: Wrong) -> bool {
    record.len() == RECORD
        && (record[8..12] == order.four(1) || wrong == Wrong::CapturedOverlooked)
        && (record[12..16] == order.four(1) || wrong == Wrong::OriginalOverlooked)
}

/// Number 7: the public layout's octets.
fn event(octet: u8, wrong: Wrong) -> bool {
    let most = if wrong == Wrong::LayoutWide { 31 } else { 15 };
    match octet {
        0..=127 => octet <= most,
        128..=255 => octet - 128 <= most,
    }
}

fn records(capture: &[u8], wrong: Wrong) -> Vec<&[u8]> {
    let mut records: Vec<&[u8]> = capture[HEADER..].chunks(RECORD).collect();
    if wrong == Wrong::RestOverlooked && records.last().is_some_and(|last| last.len() < RECORD) {
        records.pop();
    }
    records
}

/// 15; then 16 over all records; then 9, 7, 10.
fn judged(capture: &[u8], room: usize, wrong: Wrong) -> Result<Vec<u8>, (Refusal, Vec<u8>)> {
    let nothing = |refusal| (refusal, Vec::new());
    let order = order(capture, wrong).map_err(nothing)?;
    let records = records(capture, wrong);
    if wrong == Wrong::HeaderAloneRefused && records.is_empty() {
        return Err(nothing(Refusal { number: 16, place: 0, second: 0 }));
    }
    let octet = |record: &&[u8]| record.get(RECORD - 1).copied().unwrap_or(0);
    let lengths = || match records.iter().position(|record| !right(record, order, wrong)) {
        Some(index) => refuse(16, index as u64),
        None => Ok(()),
    };
    let limits = || {
        if records.len() as u64 > limit(MOST_RECORDS, wrong) {
            refuse(9, records.len() as u64)
        } else {
            Ok(())
        }
    };
    let octets = || match records.iter().position(|record| !event(octet(record), wrong)) {
        Some(index) if wrong == Wrong::InvalidFromOne => refuse(7, index as u64 + 1),
        Some(index) => refuse(7, index as u64),
        None => Ok(()),
    };
    let rooms = || if room < records.len() { refuse(10, records.len() as u64) } else { Ok(()) };
    let tests: [&dyn Fn() -> Result<(), Refusal>; 4] = match wrong {
        Wrong::OctetsBeforeLengths => [&octets, &lengths, &limits, &rooms],
        Wrong::LimitBeforeLengths => [&limits, &lengths, &octets, &rooms],
        Wrong::InvalidBeforeLimit => [&lengths, &octets, &limits, &rooms],
        Wrong::RoomBeforeEvents => [&lengths, &limits, &rooms, &octets],
        _ => [&lengths, &limits, &octets, &rooms],
    };
    let events: Vec<u8> = records.iter().map(octet).collect();
    if wrong == Wrong::ImportsAsRead {
        for (index, record) in records.iter().enumerate() {
            if !right(record, order, wrong) {
                return Err((Refusal { number: 16, place: index as u64, second: 0 }, events));
            }
            if !event(octet(record), wrong) {
                return Err((Refusal { number: 7, place: index as u64, second: 0 }, events));
            }
        }
    }
    for test in tests {
        test().map_err(|refusal| (refusal, events.clone()))?;
    }
    Ok(events)
}

fn imported(told: [u64; 4], wrong: Wrong) -> [u64; 4] {
    let [number, place, second, count] = told;
    if wrong == Wrong::CountForSecond {
        [number, place, count, second]
    } else {
        told
    }
}

/// A whole import into a buffer of so many bytes.
pub fn import(capture: &[u8], room: usize, wrong: Wrong) -> Imported {
    let mut buffer = vec![UNTOUCHED; room];
    match judged(capture, room, wrong) {
        Ok(events) => {
            buffer[..events.len()].copy_from_slice(&events);
            if wrong == Wrong::ClearsRest {
                buffer[events.len()..].fill(0);
            }
            Imported { told: imported([0, 0, 0, events.len() as u64], wrong), events: buffer }
        }
        Err((refusal, events)) => {
            if wrong == Wrong::WritesWhenRefused {
                let fits = events.len().min(room);
                buffer[..fits].copy_from_slice(&events[..fits]);
            }
            let count = if wrong == Wrong::TellsWhenRefused { events.len() as u64 } else { 0 };
            Imported { told: imported([refusal.number, refusal.place, refusal.second, count], wrong), events: buffer }
        }
    }
}

/// One call of the reader: the event, or none at the end.
fn handed_out(capture: &[u8], place: u64, wrong: Wrong) -> Result<Option<u8>, Refusal> {
    let records = || capture.get(HEADER..).unwrap_or(&[]).chunks(RECORD);
    if wrong == Wrong::EndBeforeHeader && place >= records().len() as u64 {
        return Ok(None);
    }
    let order = order(capture, wrong)?;
    let Some(record) = records().nth(place as usize) else { return Ok(None) };
    if wrong == Wrong::RestOverlooked && record.len() < RECORD {
        return Ok(None);
    }
    let octet = record.get(RECORD - 1).copied().unwrap_or(0);
    if wrong == Wrong::OctetsBeforeLengths && !event(octet, wrong) {
        refuse(7, place)?;
    }
    if !right(record, order, wrong) {
        refuse(16, place)?;
    }
    if wrong == Wrong::InvalidBeforeLimit && !event(octet, wrong) {
        refuse(7, place)?;
    }
    if place >= limit(MOST_RECORDS, wrong) {
        refuse(9, if wrong == Wrong::LimitAtIndex { place } else { place + 1 })?;
    }
    if !event(octet, wrong) {
        refuse(7, if wrong == Wrong::InvalidFromOne { place + 1 } else { place })?;
    }
    Ok(Some(octet))
}

/// Number, place, second place, 1 for an event and 0 else, the event, and the reader's place then.
pub fn hand(capture: &[u8], place: u64, wrong: Wrong) -> [u64; 6] {
    let second = if wrong == Wrong::ThereForSecond { 1 } else { 0 };
    match handed_out(capture, place, wrong) {
        Ok(Some(event)) => {
            let then = if wrong == Wrong::EventNotPassed { place } else { place + 1 };
            [0, 0, second, 1, event as u64, then]
        }
        Ok(None) => [0, 0, 0, 0, 0, if wrong == Wrong::EndPassed { place.wrapping_add(1) } else { place }],
        Err(refusal) => {
            let then = if wrong == Wrong::RefusalPassed { place.wrapping_add(1) } else { place };
            [refusal.number, refusal.place, refusal.second, 0, 0, then]
        }
    }
}

#[cfg(test)]
mod tests {
    use super::*;

    /// What `text2pcap -F pcap -l 147` writes of a poll and a report, byte for byte, and the same in the other order.
    const LEAST: [u8; 58] = [
        0xd4, 0xc3, 0xb2, 0xa1, 2, 0, 4, 0, 0, 0, 0, 0, 0, 0, 0, 0, 0, 0, 4, 0, 0x93, 0, 0, 0, 0xc0, 0x0a, 0xe8, 0x6a,
        0, 0, 0, 0, 1, 0, 0, 0, 1, 0, 0, 0, 0x00, 0xc0, 0x0a, 0xe8, 0x6a, 0xe8, 3, 0, 0, 1, 0, 0, 0, 1, 0, 0, 0, 0x80,
    ];
    const MOST: [u8; 58] = [
        0xa1, 0xb2, 0xc3, 0xd4, 0, 2, 0, 4, 0, 0, 0, 0, 0, 0, 0, 0, 0, 4, 0, 0, 0, 0, 0, 0x93, 0x6a, 0xe8, 0x0a, 0xc0,
        0, 0, 0, 0, 0, 0, 0, 1, 0, 0, 0, 1, 0x00, 0x6a, 0xe8, 0x0a, 0xc0, 0, 0, 3, 0xe8, 0, 0, 0, 1, 0, 0, 0, 1, 0x80,
    ];

    #[test]
    fn both_orders_hold_the_same() {
        for capture in [LEAST, MOST] {
            let imported = import(&capture, 4, Wrong::Nothing);
            assert_eq!(imported, Imported { told: [0, 0, 0, 2], events: vec![0, 128, UNTOUCHED, UNTOUCHED] });
            assert_eq!(hand(&capture, 0, Wrong::Nothing), [0, 0, 0, 1, 0, 1]);
            assert_eq!(hand(&capture, 1, Wrong::Nothing), [0, 0, 0, 1, 128, 2]);
            assert_eq!(hand(&capture, 2, Wrong::Nothing), [0, 0, 0, 0, 0, 2]);
        }
    }

    #[test]
    fn refusals_have_their_places() {
        let told = |capture: &[u8], room: usize| import(capture, room, Wrong::Nothing).told;
        assert_eq!(told(&LEAST[..23], 4), [15, 0, 0, 0]);
        assert_eq!(told(&LEAST[..24], 0), [0, 0, 0, 0]);
        assert_eq!(told(&LEAST[..57], 4), [16, 1, 0, 0]);
        assert_eq!(told(&LEAST, 1), [10, 2, 0, 0]);
        let mut strange = LEAST;
        strange[40] = 16;
        assert_eq!(told(&strange, 4), [7, 0, 0, 0]);
        strange[49] = 2;
        assert_eq!(told(&strange, 4), [16, 1, 0, 0]);
        assert_eq!(hand(&strange, 0, Wrong::Nothing), [7, 0, 0, 0, 0, 0]);
        assert_eq!(hand(&strange, 1, Wrong::Nothing), [16, 1, 0, 0, 0, 1]);
    }
}
