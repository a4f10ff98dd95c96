//! Captures: the edges of request L1 in both byte orders, and random and damaged ones. Each is imported into a buffer
//! of some length, or a reader is called at some place of it.

use crate::capture::{Made, Order, HEADER, LINK_TYPE, MAGIC, MOST_RECORDS, RECORD};
use crate::case::Case;
use crate::random::Random;

const ORDERS: [Order; 2] = [Order::Most, Order::Least];

/// The header, of which the fields that are not read are these.
fn header(order: Order, rest: [u32; 3]) -> Vec<u8> {
    let mut bytes = order.four(MAGIC).to_vec();
    bytes.extend(order.two(2));
    bytes.extend(order.two(4));
    for number in rest {
        bytes.extend(order.four(number));
    }
    bytes.extend(order.four(LINK_TYPE));
    bytes
}

fn record(order: Order, octet: u8, time: [u32; 2]) -> Vec<u8> {
    let mut bytes = Vec::new();
    for number in [time[0], time[1], 1, 1] {
        bytes.extend(order.four(number));
    }
    bytes.push(octet);
    bytes
}

fn capture(order: Order, octets: &[u8]) -> Vec<u8> {
    let mut bytes = header(order, [0, 0, 262_144]);
    for (index, octet) in octets.iter().enumerate() {
        bytes.extend(record(order, *octet, [1_793_592_000, index as u32]));
    }
    bytes
}

fn import(capture: Vec<u8>, room: usize) -> Case {
    Case::Import { capture: Made::plain(capture), room }
}

fn hand(capture: Vec<u8>, place: u64) -> Case {
    Case::Hand { capture: Made::plain(capture), place }
}

/// A capture imported with room, and read call by call, past its end too.
fn looked_at(capture: Vec<u8>, cases: &mut Vec<Case>) {
    let records = capture.len().saturating_sub(HEADER).div_ceil(RECORD);
    cases.push(import(capture.clone(), records + 5));
    for place in 0..=records as u64 + 1 {
        cases.push(hand(capture.clone(), place));
    }
}

pub fn edges() -> Vec<Case> {
    let mut cases = Vec::new();
    for order in ORDERS {
        byte_edges(order, &mut cases);
        length_edges(order, &mut cases);
        octet_edges(order, &mut cases);
        field_edges(order, &mut cases);
        order_edges(order, &mut cases);
        room_edges(order, &mut cases);
        most_edges(order, &mut cases);
    }
    cases
}

/// Every byte of a small capture changed: by one, and in each bit.
fn byte_edges(order: Order, cases: &mut Vec<Case>) {
    let whole = capture(order, &[3, 131, 0]);
    for place in 0..whole.len() {
        for bit in 0..8 {
            let mut damaged = whole.clone();
            damaged[place] ^= 1 << bit;
            looked_at(damaged, cases);
        }
        let mut damaged = whole.clone();
        damaged[place] = damaged[place].wrapping_add(1);
        looked_at(damaged, cases);
    }
}

/// Every length, from nothing to a byte too many.
fn length_edges(order: Order, cases: &mut Vec<Case>) {
    let mut whole = capture(order, &[0, 128]);
    whole.extend([0; RECORD]);
    for length in 0..=whole.len() {
        looked_at(whole[..length].to_vec(), cases);
    }
}

/// Every octet, alone and after good ones.
fn octet_edges(order: Order, cases: &mut Vec<Case>) {
    for octet in 0..=255 {
        looked_at(capture(order, &[octet]), cases);
        looked_at(capture(order, &[1, octet, 129]), cases);
    }
}

/// Numbers in the place of each field: of the magic, the version, the link type and both lengths, in either order.
fn field_edges(order: Order, cases: &mut Vec<Case>) {
    let fours = [
        0,
        1,
        2,
        4,
        146,
        147,
        148,
        255,
        256,
        257,
        403,
        512,
        1024,
        65_535,
        65_536,
        65_537,
        65_683,
        0x0100_0000,
        0x0100_0001,
        0x9300_0000,
        0x1400_0093,
        0x0a0d_0d0a,
        0x1a2b_3c4d,
        0xa1b2_3c4d,
        0xa1b2_c3d4,
        0xa1b2_cd34,
        0xd4c3_b2a1,
        0xffff_ffff,
    ];
    let whole = capture(order, &[2, 130]);
    for at in
        [0, 4, 8, 12, 16, 20, HEADER, HEADER + 4, HEADER + 8, HEADER + 12, HEADER + RECORD + 8, HEADER + RECORD + 12]
    {
        for number in fours {
            for written in ORDERS {
                let mut changed = whole.clone();
                changed[at..at + 4].copy_from_slice(&written.four(number));
                looked_at(changed, cases);
            }
        }
    }
    // the magic in one order and all the rest in the other, and a header of one order before records of the other
    let other = if order == Order::Most { Order::Least } else { Order::Most };
    let mut mixed = whole.clone();
    mixed[..4].copy_from_slice(&other.four(MAGIC));
    looked_at(mixed, cases);
    let mut mixed = header(order, [0, 0, 0]);
    mixed.extend(record(other, 1, [0, 0]));
    looked_at(mixed, cases);
}

/// Several things wrong at once.
fn order_edges(order: Order, cases: &mut Vec<Case>) {
    let faults: [fn(&mut Vec<u8>); 7] = [
        |_| {},
        |capture| capture[4] ^= 1,
        |capture| capture[HEADER + RECORD + 9] ^= 1,
        |capture| capture[HEADER + 2 * RECORD + 12] ^= 1,
        |capture| capture[HEADER + RECORD - 1] = 99,
        |capture| capture[HEADER + 2 * RECORD - 1] = 127,
        |capture| capture.push(0),
    ];
    for first in faults {
        for second in faults {
            for third in faults {
                let mut damaged = capture(order, &[0, 129, 128, 15]);
                first(&mut damaged);
                second(&mut damaged);
                third(&mut damaged);
                cases.push(import(damaged.clone(), 2));
                looked_at(damaged, cases);
            }
        }
    }
}

fn room_edges(order: Order, cases: &mut Vec<Case>) {
    for records in [0, 1, 2, 300] {
        let octets: Vec<u8> = (0..records).map(|index| (index % 16 + 128 * (index % 2)) as u8).collect();
        for room in 0..=records.min(3) {
            cases.push(import(capture(order, &octets), room));
        }
        for room in [records.saturating_sub(1), records, records + 1, records + 1000] {
            cases.push(import(capture(order, &octets), room));
        }
    }
    for place in [5, 1 << 20, (1 << 20) + 1, 1 << 32, u64::MAX / 17, u64::MAX / 17 + 1, u64::MAX - 1, u64::MAX] {
        cases.push(hand(capture(order, &[1, 2]), place));
        cases.push(hand(capture(order, &[1, 2])[..23].to_vec(), place));
    }
}

/// Captures of 1,048,576 records and of one more, and what may be wrong with that one. They are long, so one byte order has
/// only those that the limit is about.
fn most_edges(order: Order, cases: &mut Vec<Case>) {
    let most = MOST_RECORDS as usize;
    let filled = |times: usize, end: Vec<u8>| Made {
        start: header(order, [0, 0, 262_144]),
        record: record(order, 9, [7, 7]),
        times,
        end,
    };
    let full = filled(most, Vec::new());
    let over = filled(most + 1, Vec::new());
    cases.push(Case::Import { capture: full.clone(), room: most });
    cases.push(Case::Import { capture: over.clone(), room: most + 1 });
    cases.push(Case::Hand { capture: over.clone(), place: MOST_RECORDS });
    if order == Order::Most {
        return;
    }
    let mut wrong = record(order, 9, [7, 7]);
    wrong[9] = 1;
    let over_strange = filled(most, record(order, 16, [7, 7]));
    let over_wrong = filled(most, wrong);
    let over_short = filled(most, vec![0]);
    for (capture, room) in [(&full, most - 1), (&over_strange, 0), (&over_wrong, most + 1), (&over_short, most + 1)] {
        cases.push(Case::Import { capture: capture.clone(), room });
    }
    for (capture, place) in [
        (&full, MOST_RECORDS - 1),
        (&full, MOST_RECORDS),
        (&over, MOST_RECORDS - 1),
        (&over, MOST_RECORDS + 1),
        (&over_strange, MOST_RECORDS),
        (&over_wrong, MOST_RECORDS),
        (&over_short, MOST_RECORDS),
    ] {
        cases.push(Case::Hand { capture: capture.clone(), place });
    }
}

// RANDOM ONES

fn octet(random: &mut Random) -> u8 {
    random.below(16) as u8 + random.pick(&[0, 128])
}

fn some(random: &mut Random) -> Vec<u8> {
    let order = random.pick(&ORDERS);
    let number = |random: &mut Random| random.number() as u32;
    let mut bytes = header(order, [number(random), number(random), number(random)]);
    let most = random.pick(&[0, 1, 3, 40, 400]);
    for _ in 0..random.between(0, most) {
        let time = [number(random), number(random)];
        bytes.extend(record(order, octet(random), time));
    }
    bytes
}

fn damaged(random: &mut Random) -> Vec<u8> {
    let mut bytes = some(random);
    for _ in 0..random.between(1, 3) {
        let place = random.below(bytes.len());
        match random.below(6) {
            0 => bytes.truncate(place),
            1 => bytes.insert(place, random.byte()),
            2 => bytes.push(random.byte()),
            3 => bytes[place] ^= 1 << random.below(8),
            4 => {
                // an octet, whatever it was
                let records = bytes.len().saturating_sub(HEADER) / RECORD;
                if records > 0 {
                    bytes[HEADER + RECORD * random.below(records) + RECORD - 1] = random.byte();
                }
            }
            _ => bytes[place] = random.byte(),
        }
        if bytes.is_empty() {
            break;
        }
    }
    bytes
}

fn room(random: &mut Random, capture: &[u8]) -> usize {
    let records = capture.len().saturating_sub(HEADER).div_ceil(RECORD);
    match random.below(4) {
        0 => records,
        1 => records.saturating_sub(1),
        2 => records + random.below(20),
        _ => random.below(records + 2),
    }
}

fn place(random: &mut Random, capture: &[u8]) -> u64 {
    let records = capture.len().saturating_sub(HEADER).div_ceil(RECORD);
    if random.chance(1, 20) {
        random.number()
    } else {
        random.below(records + 3) as u64
    }
}

pub fn imported(random: &mut Random) -> Case {
    let capture = if random.chance(1, 2) { some(random) } else { damaged(random) };
    let room = room(random, &capture);
    import(capture, room)
}

pub fn handed(random: &mut Random) -> Case {
    let capture = if random.chance(1, 2) { some(random) } else { damaged(random) };
    let place = place(random, &capture);
    hand(capture, place)
}
