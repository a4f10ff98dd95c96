//! What is to be written into house files: every number at its edges, alone and in pairs, buffers of every length that matters; random
//! things, good and bad; and files with one byte changed, which are read and written again.

use crate::case::Case;
use crate::files;
use crate::house::{self, repair, Content, BLOCK, CHECK_AT, EVENTS, PAYLOAD};
use crate::model::{Bounds, FIRST_OUTPUT, NOT_ALLOWED};
use crate::random::Random;
use crate::refusal::Offered;
use crate::tables;
use crate::writer::Wanted;

fn small(trace: Vec<u8>) -> Wanted {
    Wanted { source: 0, offered: tables::offered(&tables::small(), Bounds { waiting: 2, losses: 1 }), trace }
}

fn standard(trace: Vec<u8>) -> Wanted {
    let mut offered = tables::offered(&tables::standard_box(), Bounds { waiting: 3, losses: 2 });
    offered.rows.clear();
    Wanted { source: 1, offered, trace }
}

fn largest(trace: Vec<u8>) -> Wanted {
    Wanted { source: 0, offered: tables::offered(&tables::standard_box(), Bounds { waiting: 32, losses: 8 }), trace }
}

fn write(wanted: Wanted, room: usize) -> Case {
    Case::Write { wanted, room }
}

/// With room to spare.
fn ample(wanted: Wanted) -> Case {
    let room = wanted.needed().min(20_000) + 40;
    write(wanted, room)
}

pub fn edges() -> Vec<Case> {
    let mut cases = number_edges();
    cases.extend(pair_edges());
    cases.extend(length_edges());
    cases.extend(room_edges());
    cases.extend(event_edges());
    cases.extend(byte_edges());
    cases
}

type Fault = fn(&mut Wanted);

/// Every count and bound, and the source, at every edge that a number of 64 bits has.
fn number_edges() -> Vec<Case> {
    let places: [fn(&mut Wanted) -> &mut u64; 6] = [
        |wanted| &mut wanted.offered.states,
        |wanted| &mut wanted.offered.inputs,
        |wanted| &mut wanted.offered.outputs,
        |wanted| &mut wanted.offered.waiting,
        |wanted| &mut wanted.offered.losses,
        |wanted| &mut wanted.source,
    ];
    let numbers: Vec<u64> = (0..20)
        .chain([31, 32, 33, 34, 63, 64, 65, 66, 127, 128, 129, 255, 256, 257, 258, 264, 288, 320])
        .chain([65_535, 65_536, 65_538, 1 << 32, (1 << 32) + 2, 1 << 63, u64::MAX - 1, u64::MAX])
        .collect();
    let mut cases = Vec::new();
    for start in [small(vec![0, 128]), standard(vec![0, 128]), largest(vec![0, 128])] {
        for place in places {
            for number in &numbers {
                let mut wanted = start.clone();
                *place(&mut wanted) = *number;
                cases.push(ample(wanted));
            }
        }
    }
    cases
}

/// Every two things wrong at once, so that the order of the numbers shows.
fn pair_edges() -> Vec<Case> {
    let faults: [Fault; 17] = [
        |_| {},
        |wanted| wanted.offered.states = 0,
        |wanted| wanted.offered.states = 65,
        |wanted| wanted.offered.inputs = 0,
        |wanted| wanted.offered.outputs = 17,
        |wanted| wanted.source = 1 - wanted.source,
        |wanted| wanted.offered.rows.push(0),
        |wanted| {
            wanted.offered.rows.pop();
        },
        |wanted| wanted.offered.rows.clear(),
        |wanted| {
            if let Some(entry) = wanted.offered.rows.last_mut() {
                *entry = 254;
            }
        },
        |wanted| {
            if let Some(entry) = wanted.offered.rows.get_mut(2) {
                *entry = wanted.offered.states as u8;
            }
        },
        |wanted| wanted.offered.waiting = 33,
        |wanted| wanted.offered.losses = 0,
        |wanted| wanted.trace = vec![0; 4097],
        |wanted| wanted.trace = vec![99; 4097],
        |wanted| wanted.trace.push(255),
        |wanted| wanted.trace.insert(0, 127),
    ];
    let mut cases = Vec::new();
    for start in [small(vec![0, 128]), standard(vec![0, 128]), largest(vec![0, 143])] {
        for first in faults {
            for second in faults {
                let mut wanted = start.clone();
                first(&mut wanted);
                second(&mut wanted);
                cases.push(ample(wanted.clone()));
                cases.push(write(wanted, 512));
            }
        }
    }
    cases
}

/// Traces and rows about whole blocks.
fn length_edges() -> Vec<Case> {
    let mut cases = Vec::new();
    for length in [0, 1, 2, 503, 504, 505, 1007, 1008, 1009, 2016, 4031, 4032, 4033, 4095, 4096, 4097, 5000] {
        for start in [small as fn(Vec<u8>) -> Wanted, standard, largest] {
            cases.push(ample(start((0..length).map(|place| if place % 3 == 0 { 128 } else { 0 }).collect())));
        }
    }
    // 504 = 21 × 24, 1,008 = 63 × 16, 2,016 = 63 × 32, and one row more or less
    for (states, inputs, outputs) in [
        (1, 1, 1),
        (20, 12, 12),
        (21, 12, 12),
        (22, 12, 12),
        (62, 8, 8),
        (63, 8, 8),
        (64, 8, 8),
        (63, 16, 16),
        (64, 16, 16),
    ] {
        let rows = (0..states * (inputs + outputs)).map(|place| [(place % states) as u8, NOT_ALLOWED][place % 2]);
        let rows = rows.collect();
        let [states, inputs, outputs] = [states, inputs, outputs].map(|count: usize| count as u64);
        let offered = Offered { states, inputs, outputs, waiting: 1, losses: 1, rows };
        for trace in [vec![], vec![0], vec![128; PAYLOAD]] {
            cases.push(ample(Wanted { source: 0, offered: offered.clone(), trace }));
        }
    }
    cases
}

fn room_edges() -> Vec<Case> {
    let mut cases = Vec::new();
    for wanted in
        [small(vec![]), small(vec![0; 505]), standard(vec![]), standard(vec![128; 504]), largest(vec![0; 4096])]
    {
        let needed = wanted.needed();
        for room in [0, 1, 511, 512, 513, needed - 512, needed - 1, needed, needed + 1, needed + 511, needed + 9000] {
            cases.push(write(wanted.clone(), room));
        }
    }
    cases
}

/// Every byte as an event, first and last.
fn event_edges() -> Vec<Case> {
    let mut cases = Vec::new();
    for byte in 0..=255 {
        cases.push(ample(small(vec![byte])));
        cases.push(ample(standard(vec![0, byte])));
    }
    cases
}

/// Every byte of a small file changed, with the check mended and without.
fn byte_edges() -> Vec<Case> {
    let content = files::content_of(&tables::small(), Bounds { waiting: 2, losses: 1 }, vec![0, 0, FIRST_OUTPUT]);
    let file = house::written(&content);
    let mut cases = Vec::new();
    for place in 0..file.len() {
        for (by, mended) in [(1, true), (1, false), (2, true), (255, true)] {
            let mut edited = file.clone();
            edited[place] = edited[place].wrapping_add(by);
            if mended {
                mend(&mut edited, place);
            }
            cases.push(Case::Again { file: edited, room: 4200 });
        }
    }
    cases
}

fn mend(file: &mut [u8], place: usize) {
    let start = place / BLOCK * BLOCK;
    if start + BLOCK <= file.len() {
        repair(&mut file[start..start + BLOCK]);
    }
}

// RANDOM ONES

pub fn content(random: &mut Random) -> Content {
    let mut content = if random.chance(1, 10) { files::long_content(random) } else { files::content(random) };
    // longer traces than a search would like; here nothing is searched
    if random.chance(1, 4) && !content.events.is_empty() {
        let length = random.pick(&[504, 505, 1008, 4095, 4096]);
        content.events = (0..length).map(|place| content.events[place % content.events.len()]).collect();
    }
    content
}

/// Good things to write, and in a third of the cases something is wrong with them.
pub fn wanted(random: &mut Random) -> Wanted {
    let mut content = content(random);
    if random.chance(1, 6) {
        files::damage_content(random, &mut content);
    }
    let mut wanted = Wanted::of(&content);
    if random.chance(1, 6) {
        let Wanted { source, offered, .. } = &mut wanted;
        let Offered { states, inputs, outputs, waiting, losses, .. } = offered;
        let numbers = [source, states, inputs, outputs, waiting, losses];
        let (place, beside) = (random.below(numbers.len()), random.pick(&[1, 2, 255, 256, 1 << 20, 1 << 40, u64::MAX]));
        for number in numbers.into_iter().skip(place).take(1) {
            *number = number.wrapping_add(beside);
        }
    }
    wanted
}

/// Room that is short, just enough or more.
pub fn room(random: &mut Random, needed: usize) -> usize {
    match random.below(10) {
        0 => needed.saturating_sub(1),
        1 => random.below(needed),
        2..=4 => needed,
        5 => needed + 1,
        _ => needed + random.below(1000),
    }
}

pub fn written(random: &mut Random) -> Case {
    let wanted = wanted(random);
    let room = room(random, wanted.needed());
    write(wanted, room)
}

/// A file with one byte changed: of its numbers, its payloads, its fill or its checks, most often with the check mended.
pub fn edited(random: &mut Random) -> Vec<u8> {
    let mut file = house::written(&content(random));
    if random.chance(1, 4) {
        return file;
    }
    let start = BLOCK * random.below(file.len() / BLOCK);
    let used = (file[start + 4] as usize + 256 * file[start + 5] as usize).clamp(1, PAYLOAD);
    let place = start
        + match random.below(8) {
            0 => random.below(12),
            1 => random.below(BLOCK),
            2 => CHECK_AT + random.below(2),
            _ => 6 + random.below(used),
        };
    let nudged = file[place].wrapping_add(1);
    file[place] = match random.below(4) {
        0 => random.byte(),
        1 => nudged,
        _ if file[start] == EVENTS => random.pick(&[0, FIRST_OUTPUT]),
        _ => random.pick(&[0, 1, 2, NOT_ALLOWED]),
    };
    if random.chance(5, 6) {
        mend(&mut file, place);
    }
    file
}

pub fn again(random: &mut Random) -> Case {
    let file = edited(random);
    let room = 4096 + random.below(4096);
    Case::Again { file, room }
}

/// A file that was written and edited, read.
pub fn read_edited(random: &mut Random) -> Case {
    Case::Read { file: edited(random), row_room: 2048, event_room: 4096 }
}
