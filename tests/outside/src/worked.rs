//! Worked cases of documents 01 and 02, of this package's own implementation.

use crate::case::{Answer, Case};
use crate::file_edges;
use crate::files::damaged_read;
use crate::house::{flaws, formed, repair, written, Content, BLOCK};
use crate::lent::{Lent, UNTOUCHED_WORD};
use crate::listing::{list, put, TEXT_ROOM};
use crate::model::{Bounds, Configuration, Event, Set, Watch};
use crate::random::Random;
use crate::refusal::Offered;
use crate::remaker::{mend, rebind, retrace};
use crate::session::{feed, open, Session, MOST_EVENTS};
use crate::sessions::sound;
use crate::tables::{event, offered, scattered, small, trace};
use crate::wrong::Wrong;

/// T under these bounds after these events.
fn after(waiting: usize, losses: usize, trace: &[u8]) -> Watch {
    let mut watch = Watch::start(small(), Bounds { waiting, losses });
    for byte in trace {
        let event = watch.table.event(*byte, Wrong::Nothing);
        watch.see(event.expect("a valid event"), Wrong::Nothing);
    }
    watch
}

fn set(members: &[(usize, usize, usize)]) -> Set {
    let members: Vec<Configuration> = members
        .iter()
        .map(|(state, waiting, run)| Configuration { state: *state, waiting: *waiting, run: *run })
        .collect();
    Set::of(&members)
}

const POLL: u8 = 0;
const REPORT: u8 = 128;

#[test]
fn p1_no_events() {
    for waiting in 1..=32 {
        for losses in 1..=8 {
            assert_eq!(after(waiting, losses, &[]).set, set(&[(0, 0, 0)]));
        }
    }
}

#[test]
fn p2_to_p7_no_loss() {
    assert_eq!(after(2, 1, &[POLL]).set, set(&[(0, 1, 0), (1, 0, 0)]));
    assert_eq!(after(2, 1, &[POLL, REPORT]).set, set(&[(0, 0, 0)]));
    let fourth = after(2, 1, &[REPORT]);
    assert_eq!((fourth.set, fourth.flag), (Set::empty(), Some(0)));
    assert_eq!(after(2, 1, &[POLL, POLL]).set, set(&[(0, 2, 0), (1, 1, 0)]));
    assert_eq!(after(2, 1, &[POLL, POLL, POLL]).set, set(&[(1, 2, 0)]));
    let flagged = after(2, 1, &[POLL, POLL, POLL, POLL]);
    assert_eq!((flagged.set, flagged.flag), (Set::empty(), Some(3)));
    assert_eq!(after(2, 1, &[POLL, POLL, REPORT]).set, set(&[(0, 1, 0), (1, 0, 0)]));
}

#[test]
fn p8_to_p10_with_loss() {
    assert_eq!(after(1, 2, &[POLL]).set, set(&[(0, 1, 0), (1, 0, 0), (0, 0, 1)]));
    assert_eq!(after(1, 2, &[POLL, POLL]).set, set(&[(1, 1, 0), (0, 1, 1), (1, 0, 1), (1, 0, 0)]));
    assert_eq!(after(1, 2, &[POLL, POLL, REPORT, REPORT]).set, set(&[(0, 0, 0)]));
    assert_eq!(after(1, 2, &[POLL, POLL, REPORT, REPORT, REPORT]).flag, Some(4));
}

#[test]
fn limits_of_the_bounds() {
    let told = |waiting: u64, losses: u64| {
        let given = Offered { waiting, losses, ..offered(&small(), Bounds { waiting: 1, losses: 1 }) };
        open(&given, &Session::zeros(), Wrong::Nothing).0.map(|refusal| refusal.told())
    };
    assert_eq!(told(32, 8), None);
    assert_eq!(told(33, 8), Some([5, 33, 0]));
    assert_eq!(told(32, 9), Some([6, 9, 0]));
    assert_eq!(told(32, 0), Some([6, 0, 0]));
    assert_eq!(told(0, 0), Some([5, 0, 0]));
}

fn file(events: &[u8]) -> Vec<u8> {
    let table = small();
    written(&Content {
        states: 2,
        inputs: 1,
        outputs: 2,
        waiting: 2,
        losses: 1,
        source: 0,
        rows: table.rows,
        events: events.to_vec(),
    })
}

#[test]
fn listing_of_four_polls() {
    let listed = list(&file(&[POLL; 4]), Wrong::Nothing);
    assert_eq!(
        listed.text,
        "event symbol states waiting run\n\
         0 i0 0000000000000003 0-1 0-0\n\
         1 i0 0000000000000003 1-2 0-0\n\
         2 i0 0000000000000002 2-2 0-0\n\
         3 i0 0000000000000000 - -\n\
         flagged 3\n"
    );
    assert_eq!(listed.outcome, 1);
}

#[test]
fn listing_of_nothing_and_of_refusals() {
    assert_eq!(list(&file(&[]), Wrong::Nothing).text, "event symbol states waiting run\nconsistent\n");
    assert_eq!(list(&[], Wrong::Nothing).text, "refused 11 0\n");
    assert_eq!(list(&[0; 512], Wrong::Nothing).text, "refused 20 0 0\n");
    let mut content =
        Content { states: 2, inputs: 1, outputs: 2, waiting: 2, losses: 1, source: 1, rows: vec![], events: vec![] };
    assert_eq!(list(&written(&content), Wrong::Nothing).text, "refused 14 0\n");
    content.source = 0;
    assert_eq!(list(&written(&content), Wrong::Nothing).text, "refused 1 0\n");
    content.rows = vec![1, 255, 255, 255, 2, 0];
    assert_eq!(list(&written(&content), Wrong::Nothing).text, "refused 4 1 1\n");
}

/// The file with these bytes of block `number` changed and its check repaired, as it is listed.
fn listed_with(number: usize, changes: &[(usize, u8)]) -> String {
    let mut file = file(&[POLL; 4]);
    let block = &mut file[BLOCK * number..BLOCK * (number + 1)];
    for (place, byte) in changes {
        block[*place] = *byte;
    }
    repair(block);
    list(&file, Wrong::Nothing).text
}

#[test]
fn parts_of_a_block_are_told_with_their_offsets() {
    assert_eq!(listed_with(1, &[(0, 4)]), "refused 20 1 0\n");
    assert_eq!(listed_with(2, &[(0, 2)]), "refused 20 2 0\n");
    assert_eq!(listed_with(1, &[(1, 1)]), "refused 21 1 1\n");
    assert_eq!(listed_with(1, &[(2, 0)]), "refused 21 1 2\n");
    assert_eq!(listed_with(1, &[(3, 1)]), "refused 21 1 2\n");
    assert_eq!(listed_with(2, &[(4, 0)]), "refused 22 2 4\n");
    assert_eq!(listed_with(0, &[(5, 1)]), "refused 22 0 4\n");
    assert_eq!(listed_with(0, &[(11, 2)]), "refused 23 0 11\n");
    assert_eq!(listed_with(0, &[(12, 1), (509, 1)]), "refused 23 0 12\n");
    assert_eq!(listed_with(2, &[(509, 1)]), "refused 23 2 509\n");
}

#[test]
fn parts_of_a_block_are_told_in_their_order() {
    let mut changes = vec![(12, 1), (11, 2), (4, 5), (2, 1), (1, 1), (0, 2)];
    for told in ["20 0 0", "21 0 1", "21 0 2", "22 0 4", "23 0 11", "23 0 12"] {
        assert_eq!(listed_with(0, &changes), format!("refused {told}\n"));
        changes.pop();
    }
}

/// Document 01's number 13 and what stands in its place turn away the same blocks: of every edge, and of
/// damaged files by the thousand.
#[test]
fn the_blocks_turned_away_are_those_of_thirteen() {
    let mut files: Vec<Vec<u8>> = Vec::new();
    let mut random = Random::new(13);
    let cases = file_edges::edges(&file_edges::files()).into_iter().chain((0..5000).map(|_| damaged_read(&mut random)));
    for case in cases {
        if let Case::Read { file, .. } = case {
            files.push(file);
        }
    }
    let mut turned_away = 0;
    for file in files {
        let blocks: Vec<&[u8]> = file.chunks_exact(BLOCK).collect();
        for (number, block) in blocks.iter().enumerate() {
            let before = if number == 0 { None } else { Some(blocks[number - 1]) };
            let found = flaws(block, number, before, Wrong::Nothing);
            assert_eq!(found.is_empty(), formed(block, number, before));
            turned_away += !found.is_empty() as usize;
        }
    }
    assert!(turned_away > 5000);
}

/// Memory for every file that is made here.
const LENT: Lent = Lent { room: 2048, results: 4 };

#[test]
fn other_bounds_are_two_bytes_and_a_check() {
    let old = file(&[POLL; 4]);
    let left = rebind(&old, 32, 8, LENT, Wrong::Nothing);
    assert_eq!((left.fits, &left.told[..]), (true, &[0, 0, 0, 1536][..]));
    let places: Vec<usize> = (0..1536).filter(|place| left.out[*place] != old[*place]).collect();
    assert_eq!(places, [9, 10, 510, 511]);
    let mut bad = old.clone();
    bad[9] = 0;
    repair(&mut bad[..BLOCK]);
    assert_eq!(list(&bad, Wrong::Nothing).text, "refused 5 0\n");
    assert_eq!(rebind(&bad, 32, 8, LENT, Wrong::Nothing), left);
    assert_eq!(rebind(&bad, 33, 0, LENT, Wrong::Nothing).told, [5, 33, 0, 0]);
    assert_eq!(rebind(&bad, 32, 0, LENT, Wrong::Nothing).told, [6, 0, 0, 0]);
    bad[0] = 7;
    assert_eq!(rebind(&bad, 33, 0, LENT, Wrong::Nothing).told, [12, 0, 0, 0]);
}

#[test]
fn another_trace_is_other_blocks_of_events() {
    let old = file(&[POLL; 4]);
    assert_eq!(retrace(&old, &[POLL], LENT, Wrong::Nothing).out, file(&[POLL]));
    assert_eq!(retrace(&old, &[], LENT, Wrong::Nothing).told, [0, 0, 0, 1024]);
    assert_eq!(retrace(&old, &[POLL; 505], LENT, Wrong::Nothing).told, [0, 0, 0, 2048]);
    assert_eq!(retrace(&old, &[POLL; 1009], LENT, Wrong::Nothing).told, [10, 2560, 0, 0]);
    assert_eq!(retrace(&old, &[99; 4097], LENT, Wrong::Nothing).told, [9, 4097, 0, 0]);
    assert_eq!(retrace(&old, &[POLL, 1], LENT, Wrong::Nothing).told, [7, 1, 0, 0]);
    assert_eq!(retrace(&file(&[99]), &[POLL, 1], LENT, Wrong::Nothing).told, [7, 0, 0, 0]);
}

#[test]
fn a_setup_changed_by_hand_is_mended() {
    let old = file(&[POLL; 4]);
    let mut changed = old.clone();
    changed[9] = 8;
    changed[600] ^= 1;
    let left = mend(&changed, LENT, Wrong::Nothing);
    let places: Vec<usize> = (0..1536).filter(|place| left.out[*place] != changed[*place]).collect();
    assert_eq!((left.told, places), (vec![0, 0, 0, 1536], vec![510]));
}

#[test]
fn listings_in_memory() {
    let lent = Lent { room: TEXT_ROOM, results: 7 };
    let four = file(&[POLL; 4]);
    let text = list(&four, Wrong::Nothing).text.into_bytes();
    let left = put(&four, four.len() as u64, lent, Wrong::Nothing);
    assert_eq!(left.told, [0, 0, 0, text.len() as u64, 4, 4, UNTOUCHED_WORD]);
    assert_eq!((left.fits, left.out), (true, text));
    let left = put(&[0; 7681], 1 << 40, lent, Wrong::Nothing);
    assert_eq!(left.out, b"refused 11 1099511627776\n");
    assert_eq!(left.told, [11, 1 << 40, 0, 25, 0, 0, UNTOUCHED_WORD]);
    for lent in [Lent { room: TEXT_ROOM - 1, results: 6 }, Lent { room: TEXT_ROOM, results: 5 }] {
        assert_eq!(put(&four, 1536, lent, Wrong::Nothing), lent.alone());
    }
}

#[test]
fn slip_of_the_full_line() {
    let mut watch = after(2, 1, &[POLL, POLL]);
    watch.set = set(&[(0, 2, 0)]);
    let session = Session::of(&watch);
    assert!(session.sound(Wrong::Nothing));
    let (refusal, right) = feed(&session, POLL, Wrong::Nothing);
    assert_eq!((refusal, right.flag), (None, Some(2)));
    assert_eq!(feed(&session, POLL, Wrong::FullLineThenTake).1.flag, None);
}

#[test]
fn full_sessions_give_nine() {
    let session = Session { events: 1_048_576, ..Session::of(&after(2, 1, &[POLL])) };
    let (refusal, back) = feed(&session, 99, Wrong::Nothing);
    assert_eq!(refusal.map(|refusal| refusal.told()), Some([9, 1_048_577, 0]));
    assert_eq!(back, session);
}

#[test]
fn refused_openings_leave_the_session_and_zeros_are_not_sound() {
    let given = Offered { states: 65, ..offered(&small(), Bounds { waiting: 1, losses: 1 }) };
    let before = Session::of(&after(2, 1, &[POLL]));
    let (refusal, session) = open(&given, &before, Wrong::Nothing);
    assert_eq!(refusal.map(|refusal| refusal.told()), Some([2, 65, 0]));
    assert_eq!(session, before);
    assert!(!Session::zeros().sound(Wrong::Nothing));
}

#[test]
fn held_inputs_and_counts_go_on_after_a_flag() {
    let watch = after(2, 1, &[REPORT, POLL, REPORT, POLL, POLL]);
    assert_eq!((watch.flag, watch.events, watch.arrived, watch.held), (Some(0), 5, 3, vec![POLL, POLL]));
}

#[test]
fn runs_write_twelve_bytes_an_event_and_no_more() {
    let given = offered(&small(), Bounds { waiting: 2, losses: 1 });
    let answer = Case::Run { offered: given, trace: vec![POLL, REPORT, REPORT], room: 38 }.answer(Wrong::Nothing);
    let Answer::Run(ran) = answer else { panic!("a run answers as a run") };
    assert_eq!(ran.told, [0, 0, 0, 3]);
    assert_eq!(ran.out[..12], [3, 0, 0, 0, 0, 0, 0, 0, 0, 1, 0, 0]);
    assert_eq!(ran.out[12..24], [1, 0, 0, 0, 0, 0, 0, 0, 0, 0, 0, 0]);
    assert_eq!(ran.out[24..36], [0, 0, 0, 0, 0, 0, 0, 0, 255, 255, 255, 255]);
    assert_eq!(ran.out[36..], [0xAA, 0xAA]);
}

/// Every admissible run that shows the trace, move by move and with its own line of waiting inputs; the
/// last configurations of those that have shown all of it.
fn enumerate(watch: &Watch, rest: &[u8], state: usize, line: &[u8], run: usize, last: &mut Set) {
    let nothing = Wrong::Nothing;
    if rest.is_empty() {
        last.insert(Configuration { state, waiting: line.len(), run });
    }
    if let Some(input) = line.first() {
        if let Some(next) = watch.table.taken(state, *input, nothing) {
            enumerate(watch, rest, next, &line[1..], 0, last);
        }
        if run + 1 < watch.bounds.losses {
            enumerate(watch, rest, state, &line[1..], run + 1, last);
        }
    }
    match rest.first().map(|byte| watch.table.event(*byte, nothing)) {
        Some(Some(Event::Arrival(input))) if line.len() < watch.bounds.waiting => {
            let mut longer = line.to_vec();
            longer.push(input);
            enumerate(watch, &rest[1..], state, &longer, run, last);
        }
        Some(Some(Event::Output(output))) => {
            if let Some(next) = watch.table.shown(state, output, nothing) {
                enumerate(watch, &rest[1..], next, line, run, last);
            }
        }
        _ => {}
    }
}

#[test]
fn plausible_sets_are_the_last_configurations_of_all_runs() {
    let mut random = Random::new(11);
    for _ in 0..2000 {
        let (states, inputs, outputs) = (random.between(1, 4), random.between(1, 3), random.between(1, 3));
        let table = scattered(&mut random, states, inputs, outputs, 70);
        let bounds = Bounds { waiting: random.between(1, 3), losses: random.between(1, 3) };
        let length = random.below(7);
        let shown = trace(&mut random, &table, bounds, length);
        let mut watch = Watch::start(table, bounds);
        let start = watch.clone();
        for byte in &shown {
            watch.see(start.table.event(*byte, Wrong::Nothing).expect("a valid event"), Wrong::Nothing);
        }
        let mut last = Set::empty();
        enumerate(&start, &shown, 0, &[], 0, &mut last);
        assert_eq!(watch.set, last);
    }
}

/// A member of a sound session's set with its own line: the newest of the held inputs.
fn fed_alone(watch: &Watch, one: Configuration, event: Event, last: &mut Set) {
    let mut line = watch.held[watch.held.len() - one.waiting..].to_vec();
    match event {
        Event::Arrival(_) if line.len() == watch.bounds.waiting => {}
        Event::Arrival(input) => {
            line.push(input);
            enumerate(watch, &[], one.state, &line, one.run, last);
        }
        Event::Output(output) => {
            if let Some(state) = watch.table.shown(one.state, output, Wrong::Nothing) {
                enumerate(watch, &[], state, &line, one.run, last);
            }
        }
    }
}

#[test]
fn feeding_any_sound_session_moves_each_member_by_itself() {
    let mut random = Random::new(12);
    let mut seen = 0;
    while seen < 2000 {
        let session = sound(&mut random);
        assert!(session.sound(Wrong::Nothing));
        let watch = session.watch();
        let byte = event(&mut random, &watch.table);
        // A long line has too many runs to go through one by one.
        if watch.bounds.waiting > 8 || watch.events == MOST_EVENTS {
            continue;
        }
        seen += 1;
        let (refusal, fed) = feed(&session, byte, Wrong::Nothing);
        assert_eq!(refusal, None);
        assert!(fed.sound(Wrong::Nothing));
        let mut last = Set::empty();
        for one in watch.set.members() {
            let event = watch.table.event(byte, Wrong::Nothing).expect("a valid event");
            fed_alone(&watch, *one, event, &mut last);
        }
        assert_eq!(fed.set, last);
    }
}
