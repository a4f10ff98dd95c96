//! House files: random ones and damaged ones. Each is read with buffers of some length, or listed.

use crate::case::Case;
use crate::house::{self, block, repair, written, Content, BLOCK, CHECK_AT, EVENTS, PAYLOAD, ROWS};
use crate::model::{Bounds, Table};
use crate::random::Random;
use crate::tables;
use crate::wrong::Wrong;

pub fn content_of(table: &Table, bounds: Bounds, events: Vec<u8>) -> Content {
    Content {
        states: table.states as u8,
        inputs: table.inputs as u8,
        outputs: table.outputs as u8,
        waiting: bounds.waiting as u8,
        losses: bounds.losses as u8,
        source: 0,
        rows: table.rows.clone(),
        events,
    }
}

pub fn content(random: &mut Random) -> Content {
    let standard = random.chance(1, 4);
    let table = if standard { tables::standard_box() } else { tables::table(random) };
    let bounds = tables::bounds(random);
    let length = tables::length(random, &table, bounds);
    let trace = tables::trace(random, &table, bounds, length);
    let mut content = content_of(&table, bounds, trace);
    if standard {
        content.source = 1;
        content.rows.clear();
    }
    content
}

/// Content whose events fill some blocks, of a table small enough for that.
pub fn long_content(random: &mut Random) -> Content {
    let bounds = Bounds { waiting: random.between(1, 3), losses: random.between(1, 3) };
    let length = random.pick(&[503, 504, 505, 1007, 1008, 1009]);
    let trace = tables::walk(random, &tables::small(), bounds, length);
    content_of(&tables::small(), bounds, trace)
}

/// A valid file, its content's fields perhaps damaged, its bytes not.
pub fn file(random: &mut Random) -> Vec<u8> {
    let mut content = if random.chance(1, 30) { long_content(random) } else { content(random) };
    if random.chance(1, 3) {
        damage_content(random, &mut content);
    }
    written(&content)
}

pub fn damage_content(random: &mut Random, content: &mut Content) {
    match random.below(10) {
        0 => content.states = random.pick(&[0, 65, 255, content.states.wrapping_add(1)]),
        1 => content.inputs = random.pick(&[0, 17, 255, content.inputs.wrapping_add(1)]),
        2 => content.outputs = random.pick(&[0, 17, 255, content.outputs.wrapping_add(1)]),
        3 => content.waiting = random.pick(&[0, 33, 255]),
        4 => content.losses = random.pick(&[0, 9, 255]),
        5 => content.source = random.pick(&[0, 1, 2, 255]),
        6 => content.rows.push(random.byte()),
        7 => {
            content.rows.pop();
        }
        8 => {
            let place = random.below(content.rows.len());
            if let Some(entry) = content.rows.get_mut(place) {
                *entry = random.pick(&[content.states, 254]);
            }
        }
        _ => {
            let place = random.below(content.events.len() + 1);
            content.events.insert(place, random.pick(&[16, 127, 144, 255, content.inputs]));
        }
    }
}

pub fn damaged_file(random: &mut Random) -> Vec<u8> {
    let mut file = file(random);
    for _ in 0..random.pick(&[1, 1, 1, 2]) {
        damage_file(random, &mut file);
    }
    file
}

fn damage_file(random: &mut Random, file: &mut Vec<u8>) {
    if file.len() < BLOCK {
        return;
    }
    let blocks = file.len() / BLOCK;
    let start = BLOCK * random.below(blocks);
    match random.below(10) {
        0 => {
            let place = random.below(file.len());
            file[place] = file[place].wrapping_add(random.between(1, 255) as u8);
        }
        1..=3 => {
            // A byte of the block's head, of its payload or of its fill changes, and the check with it.
            let (anywhere, anything) = (random.below(CHECK_AT), random.byte());
            let place = start + random.pick(&[0, 1, 2, 3, 4, 5, 6, 7, 8, 9, 10, 11, 12, 509, anywhere]);
            file[place] = random.pick(&[0, 1, 2, 3, 4, 255, file[place].wrapping_add(1), anything]);
            repair(&mut file[start..start + BLOCK]);
        }
        4 => {
            let other = BLOCK * random.below(blocks);
            for place in 0..BLOCK {
                file.swap(start + place, other + place);
            }
            if random.chance(1, 2) {
                renumber(file);
            }
        }
        5 => {
            let anywhere = random.below(file.len());
            file.truncate(random.pick(&[start, start + 1, start + BLOCK, file.len() - 1, anywhere]));
        }
        6 => {
            let doubled = file[start..start + BLOCK].to_vec();
            file.splice(start..start, doubled);
            if random.chance(1, 2) {
                renumber(file);
            }
        }
        7 => {
            let length = random.pick(&[1, 511, 512, 513]);
            file.extend(vec![0; length]);
        }
        8 => {
            let kind = random.pick(&[0, 1, ROWS, EVENTS, 4]);
            let length = random.between(1, PAYLOAD);
            let number = file.len() / BLOCK;
            file.extend(block(kind, number, &vec![0; length]));
        }
        _ => {
            file.drain(start..start + BLOCK);
            if random.chance(1, 2) {
                renumber(file);
            }
        }
    }
}

/// Gives the blocks their right numbers and checks again.
pub fn renumber(file: &mut [u8]) {
    for (number, block) in file.chunks_mut(BLOCK).enumerate() {
        if block.len() == BLOCK {
            block[2..4].copy_from_slice(&(number as u16).to_le_bytes());
            repair(block);
        }
    }
}

/// Buffers that are ample, exact or short for what the file holds, or seems to.
fn rooms(random: &mut Random, file: &[u8]) -> (usize, usize) {
    let told = house::read(file, 8192, 8192, Wrong::Nothing).told;
    let (rows, events) = (told[9] as usize, told[10] as usize);
    let room = |random: &mut Random, needed: usize| match random.below(12) {
        0 => needed.saturating_sub(1),
        1 => needed.saturating_sub(random.below(needed + 1)),
        2 | 3 => needed + 1,
        4..=7 => needed + random.below(100),
        _ => needed,
    };
    (room(random, rows), room(random, events))
}

pub fn read(random: &mut Random) -> Case {
    let file = file(random);
    let (row_room, event_room) = rooms(random, &file);
    Case::Read { file, row_room, event_room }
}

pub fn damaged_read(random: &mut Random) -> Case {
    let file = damaged_file(random);
    let (row_room, event_room) = rooms(random, &file);
    Case::Read { file, row_room, event_room }
}

pub fn list(random: &mut Random) -> Case {
    Case::List { file: file(random) }
}

pub fn damaged_list(random: &mut Random) -> Case {
    Case::List { file: damaged_file(random) }
}
