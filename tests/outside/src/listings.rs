//! Files that are listed in memory: every edge of a file, files of which only the start is lent, memory of every length that matters; and
//! random files, good and damaged.

use crate::case::Case;
use crate::file_edges::{small, standard, Files};
use crate::files;
use crate::house::{block, written, BLOCK, EVENTS, MOST_BLOCKS};
use crate::lent::Lent;
use crate::listing::{RESULTS, TEXT_ROOM};
use crate::random::Random;
use crate::tables;

const LENT: Lent = Lent { room: TEXT_ROOM, results: RESULTS };

/// So much of a longer file is enough.
const ENOUGH: usize = BLOCK * MOST_BLOCKS + 1;

fn whole(file: Vec<u8>) -> Case {
    let length = file.len() as u64;
    Case::Listing { file, length, lent: LENT }
}

pub fn edges(files: &Files) -> Vec<Case> {
    let mut cases: Vec<Case> = files.contents.iter().chain(&files.forms).cloned().map(whole).collect();
    // The other functions have the rest of these.
    cases.extend(files.flaws.iter().skip(3).step_by(4).cloned().map(whole));
    cases.extend(files.repeats.iter().step_by(7).cloned().map(whole));
    // The search takes long over most events: two files of 4,095 are left out.
    cases.extend(files.most.iter().skip(2).cloned().map(whole));
    cases.extend(flag_edges());
    cases.extend(length_edges());
    cases.extend(room_edges());
    cases
}

/// One report too many, at every place: it is flagged where nobody asked for it, or the next one is.
fn flag_edges() -> Vec<Case> {
    let mut cases = Vec::new();
    for length in 0..12 {
        let answered = tables::alternating(length);
        cases.push(whole(written(&small(answered.clone()))));
        for place in 0..=length {
            let mut events = answered.clone();
            events.insert(place, 128);
            cases.push(whole(written(&small(events))));
        }
    }
    cases
}

/// Files that are too long, of which all, enough or the least that is too much is lent; and lengths that are not those of the files.
fn length_edges() -> Vec<Case> {
    let mut cases = Vec::new();
    let mut long = written(&small(vec![0; 4096]));
    while long.len() < 20_000 {
        long.extend(block(EVENTS, long.len() / BLOCK, &[0; 504]));
    }
    for length in [7681, 7682, 8191, 8192, 8193, 20_000] {
        for kept in [ENOUGH, ENOUGH + 1, 8192, length].into_iter().filter(|kept| *kept <= length) {
            for file in [long[..kept].to_vec(), vec![0; kept]] {
                cases.push(Case::Listing { file, length: length as u64, lent: LENT });
            }
        }
    }
    for length in [99_999, 100_000, 1 << 20, u32::MAX as u64, 1 << 32, 10_000_000_000, 1 << 63, u64::MAX - 1, u64::MAX]
    {
        cases.push(Case::Listing { file: long[..ENOUGH].to_vec(), length, lent: LENT });
    }
    let good = written(&small(vec![0, 128]));
    for length in [0, 1, 512, 1535, 1536, 1537, 7680, 7681, u64::MAX] {
        for kept in [0, 512, 700, good.len()] {
            cases.push(Case::Listing { file: good[..kept].to_vec(), length, lent: LENT });
        }
        cases.push(Case::Listing { file: long[..ENOUGH].to_vec(), length, lent: LENT });
    }
    cases
}

/// Memory that is just enough, short and longer, of calls that are refused, flagged, and neither.
fn room_edges() -> Vec<Case> {
    let mut cases = Vec::new();
    for file in [written(&small(vec![0, 128])), written(&standard(vec![0, 143, 1])), vec![0; 7]] {
        for room in [0, 1, 13, 500, TEXT_ROOM - 1, TEXT_ROOM, TEXT_ROOM + 1, TEXT_ROOM + 5000] {
            for results in [0, 1, RESULTS - 1, RESULTS, RESULTS + 1, RESULTS + 5] {
                let length = file.len() as u64;
                cases.push(Case::Listing { file: file.clone(), length, lent: Lent { room, results } });
            }
        }
    }
    cases
}

// RANDOM ONES

/// Mostly memory that is just enough.
fn lent(random: &mut Random) -> Lent {
    let room = if random.chance(1, 12) { random.pick(&[0, 100, TEXT_ROOM - 1, TEXT_ROOM + 1]) } else { TEXT_ROOM };
    let results = if random.chance(1, 12) { random.below(12) } else { RESULTS };
    Lent { room, results }
}

pub fn listed(random: &mut Random) -> Case {
    let mut file = if random.chance(2, 3) { files::file(random) } else { files::damaged_file(random) };
    let mut length = file.len() as u64;
    if random.chance(1, 20) {
        let (kept, any) = (random.between(ENOUGH, ENOUGH + 600), random.number());
        file.resize(kept, 0);
        length = random.pick(&[kept, kept + 5000, any.max(kept as u64) as usize]) as u64;
    }
    let lent = lent(random);
    Case::Listing { file, length, lent }
}
