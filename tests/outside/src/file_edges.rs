//! The documents' edges for house files, one by one and in pairs. They need no seed.

use crate::case::Case;
use crate::files::{self, content_of};
use crate::house::{self, block, header, repair, written, Content};
use crate::house::{BLOCK, CHECK_AT, EVENTS, MODULUS, PAYLOAD, PAYLOAD_AT, ROWS};
use crate::model::Bounds;
use crate::random::Random;
use crate::tables;

/// T under B 2 and c 1.
pub fn small(events: Vec<u8>) -> Content {
    content_of(&tables::small(), Bounds { waiting: 2, losses: 1 }, events)
}

pub fn standard(events: Vec<u8>) -> Content {
    let bounds = Bounds { waiting: 3, losses: 2 };
    Content { source: 1, rows: Vec::new(), ..content_of(&tables::standard_box(), bounds, events) }
}

/// Document 01's edges for files, by what they are about.
pub struct Files {
    /// What a file says, in blocks that are right.
    pub contents: Vec<Vec<u8>>,
    /// Lengths, checks, parts of a block, orders of blocks.
    pub forms: Vec<Vec<u8>>,
    /// Two parts of a block at once.
    pub flaws: Vec<Vec<u8>>,
    /// Checks that are the least and the greatest.
    pub remainders: Vec<Vec<u8>>,
    /// As many events and blocks as there may be.
    pub most: Vec<Vec<u8>>,
    /// The standard box polled again.
    pub repeats: Vec<Vec<u8>>,
}

pub fn files() -> Files {
    Files {
        contents: content_edges(),
        forms: [length_edges(), check_edges(), block_edges(), order_edges()].concat(),
        flaws: flaw_edges(),
        remainders: remainder_edges(),
        most: most_edges(),
        repeats: repeat_edges(),
    }
}

/// Each file read and listed; and the edges of the buffers.
pub fn edges(files: &Files) -> Vec<Case> {
    let Files { contents, forms, flaws, remainders, most, repeats } = files;
    let mut cases = Vec::new();
    for file in [contents, forms, flaws, remainders, most, repeats].into_iter().flatten() {
        cases.push(Case::Read { file: file.clone(), row_room: 2100, event_room: 4200 });
        cases.push(Case::List { file: file.clone() });
    }
    cases.extend(room_edges());
    cases.extend(byte_edges());
    cases
}

/// Each number of block 0 one below and one above its range, alone and every two at once; rows and
/// events too many, too few and not valid.
fn content_edges() -> Vec<Vec<u8>> {
    let faults: [fn(&mut Content); 23] = [
        |_| {},
        |content| content.states = 0,
        |content| content.states = 65,
        |content| content.states = 63,
        |content| content.inputs = 0,
        |content| content.inputs = 17,
        |content| content.inputs = 15,
        |content| content.outputs = 0,
        |content| content.outputs = 17,
        |content| content.outputs = 15,
        |content| content.waiting = 0,
        |content| content.waiting = 33,
        |content| content.waiting = 32,
        |content| content.losses = 0,
        |content| content.losses = 9,
        |content| content.losses = 8,
        |content| content.source = 1,
        |content| content.source = 2,
        |content| content.rows.push(254),
        |content| content.rows.truncate(5),
        |content| content.rows.iter_mut().take(1).for_each(|entry| *entry = 254),
        |content| content.events.push(127),
        |content| content.events.insert(1, 255),
    ];
    let mut files = Vec::new();
    for content in [small(vec![0, 128, 0]), standard(vec![0, 1, 128])] {
        for (place, first) in faults.iter().enumerate() {
            for second in &faults[place..] {
                let mut content = content.clone();
                first(&mut content);
                second(&mut content);
                files.push(written(&content));
            }
        }
    }
    // Bad entries, the first by rows not being the first by columns; the same with source 1.
    for (states, source) in [(2, 0), (64, 1)] {
        let mut content = Content { states, source, ..small(vec![0]) };
        content.rows[2] = states;
        content.rows[3] = states;
        files.push(written(&content));
    }
    for source in [0, 1] {
        for entry in [63, 64] {
            let mut content = content_of(&tables::standard_box(), Bounds { waiting: 2, losses: 2 }, vec![0]);
            content.source = source;
            content.rows[2047] = entry;
            files.push(written(&content));
        }
    }
    files.push(written(&small(Vec::new())));
    files.push(written(&standard(Vec::new())));
    files
}

/// Number 11 around each edge; 512 zeros have a right check and no kind.
fn length_edges() -> Vec<Vec<u8>> {
    let right = written(&small(vec![0, 0]));
    let mut files: Vec<Vec<u8>> = Vec::new();
    for length in [
        0, 1, 2, 510, 511, 512, 513, 1023, 1024, 1025, 1535, 1537, 7167, 7168, 7679, 7680, 7681, 8191, 8192, 8193,
        20_000,
    ] {
        let mut file = right.clone();
        file.resize(length, 0);
        files.push(file);
        files.push(vec![0; length]);
    }
    files
}

/// Number 12: stored checks of 65,521 and above, and one off; wrong checks beside other faults.
fn check_edges() -> Vec<Vec<u8>> {
    let mut files = Vec::new();
    for content in [small(vec![0; 300]), standard(vec![0; 20])] {
        let right = written(&content);
        for start in (0..right.len()).step_by(BLOCK) {
            for change in [1u16, 0xffff, 0x100, 0xff00, 15, 65_521] {
                let mut file = right.clone();
                let stored = u16::from_le_bytes([file[start + CHECK_AT], file[start + CHECK_AT + 1]]);
                file[start + CHECK_AT..start + BLOCK].copy_from_slice(&stored.wrapping_add(change).to_le_bytes());
                files.push(file.clone());
                // Block 0 or this one has a field wrong too: block by block, the check first.
                file[1] = 1;
                files.push(file.clone());
                repair(&mut file[..BLOCK]);
                files.push(file);
            }
        }
    }
    files
}

/// Blocks whose sum leaves 0 to 14 modulo 65,521, so that the remainder plus 65,521 fits in two bytes
/// and is wrong all the same; and one whose remainder is the greatest.
fn remainder_edges() -> Vec<Vec<u8>> {
    let mut files = Vec::new();
    for wanted in [0, 1, 14, 15, MODULUS - 1] {
        let mut content = content_of(
            &tables::scattered(&mut Random::new(wanted), 1, 16, 16, 100),
            Bounds { waiting: 2, losses: 1 },
            vec![15; 400],
        );
        let mut seed = Random::new(wanted);
        let file = loop {
            for _ in 0..20 {
                let place = seed.below(content.events.len());
                content.events[place] = seed.pick(&[0, 1, 7, 15, 128, 143]);
            }
            let file = written(&content);
            let stored = u16::from_le_bytes([file[file.len() - 2], file[file.len() - 1]]);
            if stored as u64 == wanted {
                break file;
            }
        };
        files.push(file.clone());
        let mut lifted = file;
        let at = lifted.len() - 2;
        let stored = (wanted as u16).wrapping_add(MODULUS as u16);
        lifted[at..].copy_from_slice(&stored.to_le_bytes());
        files.push(lifted);
    }
    files
}

/// Numbers 20 to 23 within a block: kind, byte 1, number, used count, source and fill, checks repaired.
fn block_edges() -> Vec<Vec<u8>> {
    let right = written(&small(vec![0, 128]));
    let mut files = Vec::new();
    for start in (0..right.len()).step_by(BLOCK) {
        let used = right[start + 4] as usize;
        let mut changes: Vec<(usize, u8)> = Vec::new();
        changes.extend([0, 1, 2, 3, 4, 129, 255].map(|kind| (0, kind)));
        changes.extend([1, 2, 128, 255].map(|second| (1, second)));
        changes.extend([0, 1, 2, 3, 255].map(|number| (2, number)));
        changes.extend([1, 255].map(|number| (3, number)));
        changes.extend([0, 1, 2, 3, 5, 6, 7, 8, 255].map(|used| (4, used)));
        changes.extend([1, 2, 255].map(|used| (5, used)));
        changes.extend([(PAYLOAD_AT + used, 1), (PAYLOAD_AT + used + 1, 1), (300, 1), (508, 1), (509, 1), (509, 255)]);
        for (place, byte) in changes {
            let mut file = right.clone();
            file[start + place] = byte;
            repair(&mut file[start..start + BLOCK]);
            files.push(file);
        }
    }
    for source in [0, 1, 2, 3, 128, 255] {
        files.push(written(&Content { source, ..small(vec![0]) }));
        files.push(written(&Content { source, ..standard(vec![0]) }));
    }
    // A block may use all its 504 bytes; 505 and more it cannot.
    for used in [503u16, 504, 505, 506, 512, 760, 65_535] {
        let mut file = written(&small(vec![0; 504]));
        let start = file.len() - BLOCK;
        file[start + 4..start + 6].copy_from_slice(&used.to_le_bytes());
        repair(&mut file[start..]);
        files.push(file);
    }
    files
}

/// Every two parts of a block wrong at once, and all of them from each on: the first is told.
fn flaw_edges() -> Vec<Vec<u8>> {
    let small = written(&small(vec![0, 128]));
    let long = written(&standard(vec![0; 1200]));
    let mut files = Vec::new();
    for (right, number) in [(&small, 0), (&small, 1), (&small, 2), (&long, 0), (&long, 1), (&long, 3)] {
        let start = BLOCK * number;
        let payload_end = PAYLOAD_AT + u16::from_le_bytes([right[start + 4], right[start + 5]]) as usize;
        // A kind that no block may have, and two that others have; byte 1; the number's low and high byte;
        // used counts of which the low, the high or both bytes are wrong; the source; and the fill.
        let mut changes = vec![(0, 9), (0, ROWS), (0, house::HEADER), (1, 1), (2, 77), (3, 1), (3, 255)];
        changes.extend([(4, 0), (4, 5), (4, 7), (5, 1), (5, 2), (5, 255), (PAYLOAD_AT + 5, 2)]);
        changes.extend([(12, 1), (13, 1), (payload_end, 1), (300, 1), (508, 1), (CHECK_AT - 1, 1)]);
        changes.retain(|(place, _)| *place < CHECK_AT);
        for (at, first) in changes.iter().enumerate() {
            for second in &changes[at..] {
                files.push(changed(right, start, &[*first, *second]));
            }
            files.push(changed(right, start, &changes[at..]));
        }
    }
    // A block out of order of which another part is wrong too.
    let mut file = header(&self::small(Vec::new()));
    file.extend(block(EVENTS, 1, &[0, 0]));
    file.extend(block(ROWS, 2, &tables::small().rows));
    for change in [(1, 1), (2, 77), (3, 1), (4, 0), (5, 2), (300, 1)] {
        files.push(changed(&file, 2 * BLOCK, &[change]));
    }
    files
}

/// The file with these bytes of the block at `start` changed and its check repaired.
fn changed(right: &[u8], start: usize, changes: &[(usize, u8)]) -> Vec<u8> {
    let mut file = right.to_vec();
    for (place, byte) in changes {
        file[start + place] = *byte;
    }
    repair(&mut file[start..start + BLOCK]);
    file
}

/// Number 20 between blocks. A block that follows one of its own kind that is not full is at fault.
fn order_edges() -> Vec<Vec<u8>> {
    let head = |content: &Content| vec![(house::HEADER, header(content)[PAYLOAD_AT..PAYLOAD_AT + 6].to_vec())];
    let mut files = Vec::new();
    let rows = tables::small().rows;
    let events = |length: usize| (EVENTS, vec![0u8; length]);
    let table = (ROWS, rows.clone());
    let tails: Vec<Vec<(u8, Vec<u8>)>> = vec![
        vec![table.clone(), events(3)],
        vec![events(3), table.clone()],
        vec![(ROWS, rows[..3].to_vec()), (ROWS, rows[3..].to_vec()), events(1)],
        vec![table.clone(), events(503), events(1)],
        vec![table.clone(), events(504), events(1)],
        vec![table.clone(), events(504), events(504), events(504)],
        vec![table.clone(), events(504), events(503), events(1)],
        vec![table.clone(), events(3), table.clone()],
        vec![(ROWS, rows[..3].to_vec()), events(3), (ROWS, rows[3..].to_vec())],
        vec![events(504), table.clone(), events(1)],
        vec![table.clone(), (house::HEADER, vec![2, 1, 2, 2, 1, 0])],
        vec![(house::HEADER, vec![2, 1, 2, 2, 1, 0]), table.clone()],
        vec![(4, vec![0]), table.clone()],
        vec![(0, vec![0]), table.clone()],
        vec![table.clone(), (EVENTS, Vec::new())],
        vec![(ROWS, Vec::new()), table.clone()],
    ];
    for tail in tails {
        let mut file = Vec::new();
        for (kind, payload) in head(&small(Vec::new())).into_iter().chain(tail) {
            file.extend(block(kind, file.len() / BLOCK, &payload));
        }
        files.push(file);
    }
    let full = written(&small(vec![0; 1200]));
    for first in 0..full.len() / BLOCK {
        for second in first + 1..full.len() / BLOCK {
            let mut file = full.clone();
            for place in 0..BLOCK {
                file.swap(BLOCK * first + place, BLOCK * second + place);
            }
            files.push(file.clone());
            files::renumber(&mut file);
            files.push(file);
        }
    }
    files
}

/// As many events and as many blocks as there may be, and one more.
fn most_edges() -> Vec<Vec<u8>> {
    let mut files = Vec::new();
    for length in [4095, 4096, 4097, 4536] {
        files.push(written(&small(tables::alternating(length))));
        let mut invalid = tables::alternating(length);
        invalid[length - 1] = 3;
        files.push(written(&small(invalid)));
    }
    // Fifteen blocks: five of rows and nine of events.
    let bounds = Bounds { waiting: 1, losses: 1 };
    let full = content_of(&tables::standard_box(), bounds, vec![0; 4096]);
    files.push(written(&full));
    let mut sixteen = written(&full);
    sixteen.extend(block(EVENTS, 15, &[0]));
    files.push(sixteen);
    files.push(written(&standard(vec![0; 4097])));
    let mut both = vec![0; 4097];
    both[0] = 99;
    files.push(written(&standard(both)));
    // Thirteen blocks of events and one of rows: within the length, past the limit.
    files.push(written(&small(vec![0; 13 * PAYLOAD])));
    let mut short = written(&small(vec![0; 13 * PAYLOAD]));
    short.extend(block(EVENTS, 15, &[0]));
    files.push(short);
    // Blocks hold more rows, or more events, than a good file has.
    files.push(written(&standard(vec![0; 14 * PAYLOAD])));
    for rows in [2049, 4097, 14 * PAYLOAD] {
        files.push(written(&Content { rows: vec![0; rows], ..small(Vec::new()) }));
    }
    files
}

/// The standard box is polled again, by each number, with nothing lost: after its report, and before it.
fn repeat_edges() -> Vec<Vec<u8>> {
    let bounds = Bounds { waiting: 4, losses: 1 };
    let mut files = Vec::new();
    for number in 0..16 {
        let before: Vec<u8> = (0..number).flat_map(|n| [n, 128 + n]).collect();
        let (last, next) = ((number + 15) % 16, (number + 1) % 16);
        for asked in [
            vec![last, 128 + last],
            vec![last, 128 + last, 128 + last],
            vec![last, last, 128 + last, number, 128 + number],
            vec![last, number, 128 + number],
            vec![number, number, 128 + number, 128 + number],
            vec![number, next, next, 128 + number, 128 + next, 128 + next],
            vec![next, 128 + next],
        ] {
            let events = [before.clone(), asked].concat();
            let content =
                Content { source: 1, rows: Vec::new(), ..content_of(&tables::standard_box(), bounds, events) };
            files.push(written(&content));
        }
    }
    files
}

/// Number 10 around each edge, rows first; and 7 before it.
fn room_edges() -> Vec<Case> {
    let mut cases = Vec::new();
    let mut invalid = small(vec![0, 0, 77]);
    invalid.waiting = 3;
    for content in [small(vec![0, 128, 0]), small(Vec::new()), standard(vec![0, 1, 2]), invalid] {
        let file = written(&content);
        for row_room in [0, 1, 5, 6, 7, 64] {
            for event_room in [0, 1, 2, 3, 4, 64] {
                cases.push(Case::Read { file: file.clone(), row_room, event_room });
            }
        }
    }
    cases
}

/// Every byte of a small file changed, without and with its check repaired.
fn byte_edges() -> Vec<Case> {
    let right = written(&standard(vec![0, 1, 128, 129]));
    let mut cases = Vec::new();
    for place in 0..right.len() {
        let mut file = right.clone();
        file[place] ^= 1;
        cases.push(Case::Read { file: file.clone(), row_room: 3, event_room: 9 });
        let start = place / BLOCK * BLOCK;
        repair(&mut file[start..start + BLOCK]);
        cases.push(Case::Read { file, row_room: 3, event_room: 9 });
    }
    cases
}
