//! All cases, from one seed: the table of edges first, then batches of random cases. A batch depends on
//! the seed and on its own number only, so that any case can be made again alone.

use crate::case::Case;
use crate::random::Random;
use crate::{captures, file_edges, files, run_edges, runs, session_edges, sessions, standard, writes};
use crate::{listings, remakes};

pub const BATCH: usize = 1000;

/// A way of making a case.
type Maker = fn(&mut Random) -> Case;

/// How many cases of each 192 come from each maker.
const MIX: &[(usize, Maker)] = &[
    (30, runs::run),
    (10, runs::damaged_run),
    (3, runs::open),
    (4, runs::damaged_open),
    (10, sessions::fed),
    (11, sessions::unclosed),
    (6, sessions::damaged),
    (2, sessions::garbage),
    (4, sessions::flagged),
    (5, files::read),
    (6, files::damaged_read),
    (5, files::list),
    (4, files::damaged_list),
    (5, captures::imported),
    (5, captures::handed),
    (24, writes::written),
    (24, writes::again),
    (6, writes::read_edited),
    (9, remakes::rebound),
    (9, remakes::retraced),
    (4, remakes::mended),
    (6, listings::listed),
];

/// The systematic cases, which need no seed.
pub fn edges() -> Vec<Case> {
    let files = file_edges::files();
    let mut cases = run_edges::edges();
    cases.extend(session_edges::edges());
    cases.extend(file_edges::edges(&files));
    cases.extend(captures::edges());
    cases.extend(writes::edges());
    cases.extend(standard::edges());
    cases.extend(remakes::edges(&files));
    cases.extend(listings::edges(&files));
    cases
}

/// One batch of random cases, the last of them a long run.
pub fn batch(seed: u64, number: u64) -> Vec<Case> {
    let mut random = Random::new(seed);
    let start = random.number();
    let mut random = Random::new(start ^ number.wrapping_mul(0xd6e8_feb8_6659_fd93));
    let all: usize = MIX.iter().map(|(share, _)| share).sum();
    let mut cases = Vec::new();
    while cases.len() + 1 < BATCH {
        let mut place = cases.len() % all;
        for (share, make) in MIX {
            if place < *share {
                cases.push(make(&mut random));
                break;
            }
            place -= share;
        }
    }
    cases.push(runs::long_run(&mut random));
    cases
}
