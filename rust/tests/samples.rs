//! The samples of this repository through the door: what is read, fed, run, written and listed of them.

use rillmoth::{Bounds, Capture, House, Line, Outcome, Refusal, Session, Table};
use rillmoth::{LINE_BYTES, MOST_FILE_BYTES, MOST_LISTING_BYTES, NOT_ALLOWED, SESSION_BYTES, SESSION_WORDS};
use std::fs::{self, File};
use std::io::{self, Read, Seek};
use std::path::PathBuf;

const GOOD: [&str; 4] = ["consistent", "lost", "queue", "flagged"];

fn repository() -> PathBuf {
    PathBuf::from(env!("CARGO_MANIFEST_DIR")).join("..")
}

fn sample(name: &str) -> Vec<u8> {
    fs::read(repository().join("samples").join(name)).expect("a sample")
}

#[test]
fn feeding_and_running_agree_line_by_line() {
    for name in GOOD {
        let house = House::read(&sample(&format!("{name}.house"))).expect("a good file");
        let mut out = vec![0; LINE_BYTES * house.events.len()];
        let flag = rillmoth::run(&house.table(), house.bounds, &house.events, &mut out).expect("a run");
        let mut session = Session::open(&house.table(), house.bounds).expect("a session");
        for (event, line) in house.events.iter().zip(rillmoth::lines(&out)) {
            session.feed(*event).expect("a fed session");
            assert_eq!(session.line(), line);
        }
        assert_eq!(session.flag(), flag);
        assert_eq!(session.events(), house.events.len() as u64);
    }
}

#[test]
fn what_was_read_is_written_again() {
    for name in GOOD {
        let file = sample(&format!("{name}.house"));
        let house = House::read(&file).expect("a good file");
        assert_eq!(house.write(), Ok(file));
    }
    assert_eq!(House::read(&sample("damaged.house")), Err(Refusal::BadCheck { block: 1 }));
}

#[test]
fn the_listing_is_the_stored_one() -> io::Result<()> {
    let outcomes = GOOD.map(|name| (name, if name == "flagged" { Outcome::Flagged } else { Outcome::Consistent }));
    for (name, outcome) in outcomes.into_iter().chain([("damaged", Outcome::Refused)]) {
        let file = File::open(repository().join(format!("samples/{name}.house")))?;
        let path = std::env::temp_dir().join(format!("rillmoth-{}-{name}", std::process::id()));
        let mut text = File::options().read(true).write(true).create_new(true).open(&path)?;
        fs::remove_file(&path)?;
        assert_eq!(rillmoth::list(&file, &text), outcome);
        let mut listed = Vec::new();
        text.rewind()?;
        text.read_to_end(&mut listed)?;
        assert_eq!(listed, sample(&format!("{name}.listing")));
    }
    Ok(())
}

#[test]
fn the_listing_in_memory_is_the_stored_one_too() {
    let mut room = Box::new([7; MOST_LISTING_BYTES]);
    for name in GOOD {
        let file = sample(&format!("{name}.house"));
        let house = House::read(&file).expect("a good file");
        let listing = rillmoth::listing(&file, file.len(), &mut room);
        let mut out = vec![0; LINE_BYTES * house.events.len()];
        assert_eq!(listing.text, sample(&format!("{name}.listing")));
        assert_eq!(listing.events, house.events.len() as u64);
        assert_eq!(listing.verdict, rillmoth::run(&house.table(), house.bounds, &house.events, &mut out));
    }
    let file = sample("damaged.house");
    let listing = rillmoth::listing(&file, file.len(), &mut room);
    assert_eq!((listing.text, listing.verdict), (&b"refused 12 1\n"[..], Err(Refusal::BadCheck { block: 1 })));
    // Of a file that is too long the start is enough, if its length is told.
    let listing = rillmoth::listing(&[0; MOST_FILE_BYTES + 1], 5_000_000, &mut room);
    assert_eq!((listing.text, listing.events), (&b"refused 11 5000000\n"[..], 0));
}

#[test]
fn a_file_has_other_bounds_another_trace_or_its_check() {
    let file = sample("lost.house");
    let house = House::read(&file).expect("a good file");
    let mut out = [7; MOST_FILE_BYTES];
    let strict = House { bounds: Bounds { waiting: 1, losses: 1 }, ..house.clone() };
    assert_eq!(rillmoth::rebind(&file, strict.bounds, &mut out), Ok(file.len()));
    assert_eq!(strict.write().as_deref(), Ok(&out[..file.len()]));
    assert!(out[file.len()..].iter().all(|byte| *byte == 7));
    let bounds = Bounds { waiting: 33, losses: 9 };
    assert_eq!(rillmoth::rebind(&file, bounds, &mut out), Err(Refusal::BadWaiting { waiting: 33 }));
    assert_eq!(rillmoth::rebind(&[], bounds, &mut out), Err(Refusal::BadLength { length: 0 }));

    let silent = House { events: Vec::new(), ..house.clone() };
    let short = silent.write().expect("a file");
    assert_eq!(rillmoth::retrace(&file, &[], &mut out), Ok(short.len()));
    assert_eq!(out[..short.len()], short);
    assert_eq!(rillmoth::retrace(&file, &[0, 130], &mut out), Err(Refusal::BadEvent { index: 1 }));

    let mut edited = file.clone();
    edited[9] = 77;
    assert_eq!(rillmoth::rebind(&edited, house.bounds, &mut out), Err(Refusal::BadCheck { block: 0 }));
    let mut mended = vec![0; edited.len()];
    assert_eq!(rillmoth::mend(&edited, &mut mended), Ok(edited.len()));
    assert_eq!(House::read(&mended), Err(Refusal::BadWaiting { waiting: 77 }));
    assert_eq!(rillmoth::rebind(&mended, house.bounds, &mut out), Ok(file.len()));
    assert_eq!(out[..file.len()], file);
    assert_eq!(rillmoth::mend(&edited, &mut mended[1..]), Err(Refusal::ShortBuffer { needed: edited.len() as u64 }));
    assert_eq!(rillmoth::mend(&edited[1..], &mut mended), Err(Refusal::BadLength { length: edited.len() as u64 - 1 }));
}

#[test]
fn the_library_has_the_version_of_the_package() {
    let parts: Vec<u32> = env!("CARGO_PKG_VERSION").split('.').filter_map(|part| part.parse().ok()).collect();
    assert_eq!(parts.len(), 3);
    assert_eq!(rillmoth::version(), 10_000 * parts[0] + 100 * parts[1] + parts[2]);
}

#[test]
fn a_closed_output_breaks_a_listing() -> io::Result<()> {
    let file = File::open(repository().join("samples/queue.house"))?;
    let nowhere = File::open("/dev/null")?; // open to be read only
    assert_eq!(rillmoth::list(&file, &nowhere), Outcome::Broken);
    Ok(())
}

/// In state e + 16p poll e is expected, and p polls are taken and not yet reported. With none unreported, the poll before the expected one
/// has its report sent again.
fn rule(state: usize, column: usize) -> u8 {
    let (expected, unreported) = (state % 16, state / 16);
    let next = if column < 16 {
        let last = (expected + 15) % 16;
        match (column == expected, unreported) {
            (true, 3) => None,
            (true, _) => Some((expected + 1) % 16 + 16 * (unreported + 1)),
            (false, 0) if column == last => Some(state + 16),
            (false, _) => Some(state),
        }
    } else {
        let oldest = (expected + 16 - unreported) % 16;
        (unreported > 0 && column - 16 == oldest).then(|| state - 16)
    };
    next.map_or(NOT_ALLOWED, |state| state as u8)
}

#[test]
fn the_standard_box_follows_its_rule() {
    let rows = rillmoth::standard_rows();
    for (place, entry) in rows.iter().enumerate() {
        assert_eq!(*entry, rule(place / 32, place % 32), "byte {place}");
    }
}

#[test]
fn a_session_is_its_words_and_bytes() {
    let table = Table { states: 64, inputs: 16, outputs: 16, rows: &rillmoth::standard_rows() };
    let mut session = Session::open(&table, Bounds { waiting: 8, losses: 1 }).expect("a session");
    session.feed(rillmoth::input(0)).expect("a fed session");
    let mut kept = Session::from_parts(*session.words(), *session.bytes());
    assert_eq!(kept, session);
    kept.feed(rillmoth::output(0)).expect("a fed session");
    assert_eq!((kept.events(), kept.arrived(), session.events()), (2, 1, 1));
}

#[test]
fn a_session_that_is_not_sound_is_refused_and_stays() {
    let table = Table { states: 2, inputs: 1, outputs: 2, rows: &[1, 255, 255, 255, 0, 0] };
    let bounds = Bounds { waiting: 2, losses: 1 };
    let session = Session::open(&table, bounds).expect("a session");
    let mut words = *session.words();
    words[0] |= 4; // a state that the table has not
    let damaged = Session::from_parts(words, *session.bytes());
    let mut fed = damaged.clone();
    assert_eq!(fed.feed(0), Err(Refusal::NotSound));
    assert_eq!(fed, damaged);

    // Zeros are none either.
    let zeros = Session::from_parts([0; SESSION_WORDS], [0; SESSION_BYTES]);
    assert_eq!(zeros.line(), Line { states: 0, waiting: None, run: None });
    assert_eq!(zeros.clone().feed(0), Err(Refusal::NotSound));
}

#[test]
fn a_session_goes_on_after_a_refused_opening() {
    let table = Table { states: 2, inputs: 1, outputs: 2, rows: &[1, 255, 255, 255, 0, 0] };
    let bounds = Bounds { waiting: 2, losses: 1 };
    let mut session = Session::open(&table, bounds).expect("a session");
    session.feed(0).expect("a fed session");
    let before = session.clone();
    let entry = Table { rows: &[1, 255, 2, 255, 0, 0], ..table };
    assert_eq!(session.reopen(&entry, bounds), Err(Refusal::BadEntry { row: 0, column: 2 }));
    assert_eq!(session.reopen(&table, Bounds { waiting: 0, ..bounds }), Err(Refusal::BadWaiting { waiting: 0 }));
    assert_eq!(session.reopen(&table, Bounds { losses: 9, ..bounds }), Err(Refusal::BadLosses { losses: 9 }));
    assert_eq!(session, before);
    session.feed(rillmoth::output(0)).expect("a fed session");
    assert_eq!((session.events(), session.flag()), (2, None));
    session.reopen(&table, bounds).expect("a session");
    assert_eq!(Session::open(&table, bounds), Ok(session));
}

#[test]
fn a_capture_is_imported_or_handed_out() -> io::Result<()> {
    let capture = fs::read(repository().join("tests/captures/poll_and_report.pcap"))?;
    let mut events = [7; 16];
    let count = rillmoth::import(&capture, &mut events).expect("an import");
    let mut reader = Capture::new(&capture);
    for event in &events[..count] {
        assert_eq!(reader.hand(), Ok(Some(*event)));
    }
    assert_eq!(reader.hand(), Ok(None));
    assert_eq!(reader.place(), count);
    assert!(events[count..].iter().all(|byte| *byte == 7));
    assert_eq!(rillmoth::import(&capture, &mut []), Err(Refusal::ShortBuffer { needed: count as u64 }));
    assert_eq!(Capture::new(&capture[..23]).hand(), Err(Refusal::BadHeader));
    Ok(())
}

#[test]
fn nothing_is_a_slice_too() {
    let table = Table { states: 0, inputs: 0, outputs: 0, rows: &[] };
    let bounds = Bounds { waiting: 0, losses: 0 };
    assert_eq!(Session::open(&table, bounds), Err(Refusal::BadStates { count: 0 }));
    assert_eq!(rillmoth::run(&table, bounds, &[], &mut []), Err(Refusal::BadStates { count: 0 }));
    assert_eq!(rillmoth::read(&[], &mut [], &mut []), Err(Refusal::BadLength { length: 0 }));
    assert_eq!(rillmoth::import(&[], &mut []), Err(Refusal::BadHeader));
    assert_eq!(rillmoth::rebind(&[], bounds, &mut []), Err(Refusal::BadLength { length: 0 }));
    assert_eq!(rillmoth::retrace(&[], &[], &mut []), Err(Refusal::BadLength { length: 0 }));
    assert_eq!(rillmoth::mend(&[], &mut []), Err(Refusal::BadLength { length: 0 }));
}
