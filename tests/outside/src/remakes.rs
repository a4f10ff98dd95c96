//! Files from which others are made: every edge of a file, bounds at every edge that a number of 64 bits has, traces and buffers of every
//! length that matters, results of every count; and random files, good and damaged.

use crate::case::Case;
use crate::file_edges::{small, standard, Files};
use crate::files::{self, content_of};
use crate::house::{repair, unpacked, written, Content, BLOCK, CHECK_AT, MODULUS, PAYLOAD};
use crate::lent::Lent;
use crate::model::{Bounds, Table};
use crate::random::Random;
use crate::remaker::{LOSSES_AT, WAITING_AT};
use crate::run::UNTOUCHED;
use crate::writer::Wanted;
use crate::wrong::Wrong;
use crate::{tables, writes};

const RESULTS: usize = 4;

/// More than the longest file.
const AMPLE: usize = 7750;

/// Bounds on both sides of every edge, and what narrower numbers would make good bounds of.
const BOUNDS: [u64; 19] =
    [0, 1, 2, 8, 9, 31, 32, 33, 254, 255, 256, 257, 264, 288, 1 << 32, (1 << 32) + 2, 1 << 63, u64::MAX - 1, u64::MAX];

fn rebind(file: &[u8], waiting: u64, losses: u64, room: usize) -> Case {
    Case::Rebind { file: file.to_vec(), waiting, losses, lent: Lent { room, results: RESULTS } }
}

fn retrace(file: &[u8], trace: Vec<u8>, room: usize) -> Case {
    Case::Retrace { file: file.to_vec(), trace, lent: Lent { room, results: RESULTS } }
}

fn mend(file: &[u8], room: usize) -> Case {
    Case::Mend { file: file.to_vec(), lent: Lent { room, results: RESULTS } }
}

/// The rows of the largest table in the file.
fn largest(events: Vec<u8>) -> Content {
    content_of(&tables::standard_box(), Bounds { waiting: 32, losses: 8 }, events)
}

pub fn edges(files: &Files) -> Vec<Case> {
    let mut cases = each_file(files);
    cases.extend(bound_edges());
    cases.extend(own_bound_edges());
    cases.extend(length_edges());
    cases.extend(pair_edges());
    cases.extend(event_edges());
    cases.extend(mended_lengths());
    cases.extend(mended_bytes());
    cases.extend(room_edges());
    cases.extend(result_edges());
    cases
}

/// The edges of files. Where two parts of a block are wrong, the functions take turns, a listing with them.
fn each_file(files: &Files) -> Vec<Case> {
    let mut cases = Vec::new();
    for file in &files.contents {
        for (waiting, losses) in [(32, 8), (33, 1), (2, 9)] {
            cases.push(rebind(file, waiting, losses, AMPLE));
        }
        cases.push(retrace(file, vec![0, 128], AMPLE));
    }
    for file in files.forms.iter().chain(&files.remainders).chain(&files.most) {
        cases.push(rebind(file, 1, 8, AMPLE));
        cases.push(retrace(file, vec![128], AMPLE));
        cases.push(mend(file, AMPLE));
    }
    for (place, file) in files.flaws.iter().enumerate() {
        match place % 4 {
            0 => cases.push(rebind(file, 2, 1, AMPLE)),
            1 => cases.push(retrace(file, Vec::new(), AMPLE)),
            2 => cases.push(mend(file, AMPLE)),
            _ => {}
        }
    }
    cases
}

fn bound_edges() -> Vec<Case> {
    let mut cases = Vec::new();
    for content in [small(vec![0, 128]), standard(Vec::new())] {
        let file = written(&content);
        for waiting in BOUNDS {
            for losses in BOUNDS {
                cases.push(rebind(&file, waiting, losses, AMPLE));
            }
        }
    }
    cases
}

/// Files whose own bounds are none, with good ones and with bad ones.
fn own_bound_edges() -> Vec<Case> {
    let mut cases = Vec::new();
    for waiting in [0, 1, 2, 32, 33, 128, 255] {
        for losses in [0, 1, 8, 9, 255] {
            let file = written(&Content { waiting, losses, ..small(vec![0, 128, 0]) });
            for (waiting, losses) in [(1, 1), (2, 1), (32, 8), (0, 1), (33, 8), (32, 9), (1, 0), (255, 255)] {
                cases.push(rebind(&file, waiting, losses, AMPLE));
            }
            cases.push(retrace(&file, vec![0], AMPLE));
            cases.push(mend(&file, AMPLE));
        }
    }
    cases
}

/// Old and new traces about whole blocks: the file gets shorter, longer, or stays as long as it was.
fn length_edges() -> Vec<Case> {
    let mut cases = Vec::new();
    for old in [0, 3, 505, 1008, 4096] {
        for new in [0, 1, 503, 504, 505, 1008, 1009, 4032, 4033, 4095, 4096, 4097, 5000] {
            cases.push(retrace(&written(&small(tables::alternating(old))), tables::alternating(new), AMPLE));
            if new % PAYLOAD == 0 || new > 4033 {
                cases.push(retrace(&written(&standard(vec![0; old])), tables::alternating(new), AMPLE));
                cases.push(retrace(&written(&largest(vec![0; old])), tables::alternating(new), AMPLE));
            }
        }
    }
    cases
}

/// Faults of the file, of the trace and of the buffer at once, so that the order of the numbers shows.
fn pair_edges() -> Vec<Case> {
    let mut cases = Vec::new();
    for old in [vec![0, 128], vec![0; 4097], vec![99; 4097], vec![0, 77]] {
        for (waiting, losses) in [(2, 1), (33, 1), (2, 0)] {
            let file = written(&Content { waiting, losses, ..small(old.clone()) });
            let mut late = tables::alternating(600);
            late[599] = 1;
            for new in [vec![0, 128], Vec::new(), vec![0; 4097], vec![99; 4097], vec![127, 0], vec![0, 130], late] {
                for room in [AMPLE, 1535, 0] {
                    cases.push(retrace(&file, new.clone(), room));
                }
            }
            for (waiting, losses) in [(2, 1), (33, 1), (2, 0)] {
                for room in [AMPLE, 1535, 0] {
                    cases.push(rebind(&file, waiting, losses, room));
                }
            }
        }
    }
    cases
}

/// Every byte as an event.
fn event_edges() -> Vec<Case> {
    let (small, standard) = (written(&small(vec![0])), written(&standard(vec![0])));
    let mut cases = Vec::new();
    for byte in 0..=255 {
        cases.push(retrace(&small, vec![byte], AMPLE));
        cases.push(retrace(&standard, vec![0, byte], AMPLE));
    }
    cases
}

/// Number 11 of a file that is mended around each edge, whatever its bytes are.
fn mended_lengths() -> Vec<Case> {
    let mut random = Random::new(10);
    let mut cases = Vec::new();
    for length in [0, 1, 2, 510, 511, 512, 513, 1023, 1024, 1025, 7167, 7168, 7169, 7679, 7680, 7681, 8191, 8192, 8193]
    {
        let noise: Vec<u8> = (0..length).map(|_| random.byte()).collect();
        let mut right = written(&small(vec![0, 0]));
        right.resize(length, 0);
        for file in [vec![0; length], vec![255; length], vec![UNTOUCHED; length], noise, right] {
            for room in [length.saturating_sub(1), length, length + 1, length + 600, 0] {
                cases.push(mend(&file, room));
            }
        }
    }
    for blocks in 1..=17 {
        let noise: Vec<u8> = (0..BLOCK * blocks).map(|_| random.byte()).collect();
        cases.push(mend(&noise, noise.len()));
    }
    cases
}

/// Every byte of block 0 changed; the check of every block wrong; and setups whose checks are the least and the greatest.
fn mended_bytes() -> Vec<Case> {
    let right = written(&small(vec![0, 128]));
    let mut cases = Vec::new();
    for place in 0..BLOCK {
        let mut file = right.clone();
        file[place] = file[place].wrapping_add(1 + (place % 255) as u8);
        cases.push(mend(&file, AMPLE));
    }
    for content in [small(vec![0; 600]), largest(vec![0; 4096])] {
        let right = written(&content);
        for start in (0..right.len()).step_by(BLOCK) {
            for (place, change) in [(CHECK_AT, 1), (CHECK_AT + 1, 1), (CHECK_AT + 1, 128), (0, 1), (300, 255)] {
                let mut file = right.clone();
                file[start + place] = file[start + place].wrapping_add(change);
                cases.push(mend(&file, right.len()));
                // The check of block 0 is wrong too.
                file[CHECK_AT] = file[CHECK_AT].wrapping_add(1);
                cases.push(mend(&file, right.len()));
            }
        }
    }
    for wanted in [0, 1, 14, 15, 255, 256, MODULUS - 1] {
        let mut file = with_check(right.clone(), wanted);
        cases.push(mend(&file, AMPLE));
        file[CHECK_AT..BLOCK].copy_from_slice(&(wanted as u16).wrapping_add(MODULUS as u16).to_le_bytes());
        cases.push(mend(&file, AMPLE));
    }
    cases
}

/// The file with bytes in the fill of block 0 that give it this check.
fn with_check(mut file: Vec<u8>, wanted: u64) -> Vec<u8> {
    let mut random = Random::new(wanted);
    loop {
        for _ in 0..4 {
            let place = random.between(LOSSES_AT + 2, CHECK_AT - 1);
            file[place] = random.byte();
        }
        repair(&mut file[..BLOCK]);
        if u16::from_le_bytes([file[CHECK_AT], file[CHECK_AT + 1]]) as u64 == wanted {
            return file;
        }
    }
}

fn room_edges() -> Vec<Case> {
    let mut cases = Vec::new();
    for content in [small(Vec::new()), small(vec![0; 505]), standard(Vec::new()), largest(vec![0; 4096])] {
        let file = written(&content);
        let length = file.len();
        let around = |needed: usize| [0, 1, 511, 512, needed - 512, needed - 1, needed, needed + 1, needed + 511, 9000];
        for room in around(length) {
            cases.push(rebind(&file, 4, 2, room));
            cases.push(mend(&file, room));
            cases.push(retrace(&file, content.events.clone(), room));
        }
        // So many blocks of events are in the new file.
        for blocks in [1, 2] {
            let old = content.events.len().div_ceil(PAYLOAD);
            for room in around(length + BLOCK * blocks - BLOCK * old) {
                cases.push(retrace(&file, vec![0; PAYLOAD * blocks], room));
            }
        }
    }
    cases
}

/// Results of every count, of calls that are refused and of others.
fn result_edges() -> Vec<Case> {
    let file = written(&small(vec![0, 128, 0]));
    let mut cases = Vec::new();
    for results in 0..=RESULTS + 8 {
        for room in [file.len() - 1, file.len(), file.len() + 9] {
            let lent = Lent { room, results };
            for waiting in [0, 7] {
                cases.push(Case::Rebind { file: file.clone(), waiting, losses: 1, lent });
            }
            for trace in [vec![0], vec![9]] {
                cases.push(Case::Retrace { file: file.clone(), trace, lent });
            }
            for length in [1024, 1025] {
                cases.push(Case::Mend { file: file[..length].to_vec(), lent });
            }
        }
    }
    cases
}

// RANDOM ONES

/// A file: mostly a good one whose bounds are perhaps none; else one that was edited or damaged.
fn file(random: &mut Random) -> Vec<u8> {
    match random.below(8) {
        0 => files::damaged_file(random),
        1 | 2 => writes::edited(random),
        _ => {
            let mut file = written(&writes::content(random));
            if random.chance(1, 3) {
                let place = random.pick(&[WAITING_AT, LOSSES_AT]);
                file[place] = random.pick(&[0, 1, 8, 9, 32, 33, 255]);
                repair(&mut file[..BLOCK]);
            }
            file
        }
    }
}

/// Memory for a file of so many bytes: most often just enough, and some more or less of it.
fn lent(random: &mut Random, needed: usize) -> Lent {
    let room = writes::room(random, needed);
    let results = if random.chance(1, 12) { random.below(12) } else { RESULTS };
    Lent { room, results }
}

pub fn rebound(random: &mut Random) -> Case {
    let file = file(random);
    let Bounds { waiting, losses } = tables::bounds(random);
    let (mut waiting, mut losses) = (waiting as u64, losses as u64);
    match random.below(8) {
        0 => waiting = random.pick(&BOUNDS),
        1 => losses = random.pick(&BOUNDS),
        2 => (waiting, losses) = (random.pick(&BOUNDS), random.pick(&BOUNDS)),
        _ => {}
    }
    let lent = lent(random, file.len());
    Case::Rebind { file, waiting, losses, lent }
}

/// A trace for a file with these counts, in most cases one of its events only.
pub fn trace(random: &mut Random, content: &Content) -> Vec<u8> {
    let count = |count: u8| count.clamp(1, 16) as usize;
    let (inputs, outputs) = (count(content.inputs), count(content.outputs));
    let table = Table { states: 1, inputs, outputs, rows: Vec::new() };
    let most = random.pick(&[0, 3, 60, 60, 600, 1100]);
    let mut length = random.between(0, most);
    if random.chance(1, 30) {
        length = random.pick(&[504, 1008, 4032, 4095, 4096, 4097]);
    }
    let mut trace: Vec<u8> = (0..length).map(|_| tables::event(random, &table)).collect();
    if random.chance(1, 8) {
        let place = random.below(trace.len() + 1);
        trace.insert(place, tables::invalid_event(random, &table));
    }
    trace
}

pub fn retraced(random: &mut Random) -> Case {
    let file = file(random);
    let mut trace = Vec::new();
    let mut needed = file.len();
    if let Ok(content) = unpacked(&file, Wrong::Nothing) {
        trace = self::trace(random, &content);
        needed = Wanted::of(&Content { events: trace.clone(), ..content }).needed();
    }
    let lent = lent(random, needed);
    Case::Retrace { file, trace, lent }
}

/// A file, or any bytes, with its first block changed by hand.
pub fn mended(random: &mut Random) -> Case {
    let mut file = file(random);
    if random.chance(1, 4) {
        let length = random.pick(&[0, 100, 511, 512, 513, 1024, 2048, 7680, 7681, 8192]);
        file = (0..length).map(|_| random.byte()).collect();
    }
    for _ in 0..random.below(4) {
        if file.len() >= BLOCK {
            let place = random.below(BLOCK);
            file[place] = random.byte();
        }
    }
    let lent = lent(random, file.len());
    Case::Mend { file, lent }
}
