//! The generated cases through every driver, each answer compared with this package's own; and the same
//! cases through the wrong monitors, which the right one must be told apart from.

use crate::case::{Answer, Case, FUNCTIONS};
use crate::driver::{Driver, Lost};
use crate::report;
use crate::wrong::{self, Wrong};
use std::collections::{BTreeSet, VecDeque};
use std::sync::{Arc, Mutex};
use std::thread;
use std::time::Duration;

/// A driver that is lost so often is not started again.
const MOST_LOST: usize = 5;

/// So many failures are told in full; the others are only counted.
const MOST_TOLD: usize = 10;

/// Batches handed over before their answers are awaited, so that the driver never has to wait.
const UNDER_WAY: usize = 2;

/// How to start a driver.
pub struct Start {
    pub path: String,
    pub arguments: Vec<String>,
    /// How long an answer may take.
    pub patience: Duration,
}

#[derive(Default)]
pub struct Tally {
    seed: u64,
    pub passed: [usize; FUNCTIONS.len()],
    /// Of those that agreed: neither flagged nor refused, flagged, refused.
    pub outcomes: [[usize; 3]; FUNCTIONS.len()],
    pub failed: usize,
    /// Function and refusal number of the answers that agreed.
    pub met: BTreeSet<(usize, u64)>,
    told: usize,
}

impl Tally {
    fn fail(&mut self, number: usize, case: &Case, why: &str) {
        self.failed += 1;
        self.told += 1;
        if self.told <= MOST_TOLD {
            println!("FAILED seed {} case {number}: {}", self.seed, report::case(case));
            println!("  {why}");
        } else if self.told == MOST_TOLD + 1 {
            println!("FAILED: more cases, not told here");
        }
    }

    /// A case in which every driver gave the right answer.
    fn agree(&mut self, case: &Case, right: &Answer) {
        self.passed[case.function()] += 1;
        self.met.insert((case.function(), right.number()));
        let outcome = if right.number() != 0 { 2 } else { right.flagged() as usize };
        self.outcomes[case.function()][outcome] += 1;
    }
}

/// A driver, if it runs, and how often it was lost.
struct Asked<'a> {
    start: &'a Start,
    driver: Option<Driver>,
    lost: usize,
}

impl<'a> Asked<'a> {
    fn new(start: &'a Start, tally: &mut Tally) -> Asked<'a> {
        Asked { start, driver: started(start, tally), lost: 0 }
    }

    fn send(&mut self, cases: Arc<Vec<Case>>) {
        if let Some(driver) = &mut self.driver {
            driver.send(cases);
        }
    }

    /// Whether its answer to a case is this one. A driver that is lost costs the case it did not answer; it is started again, and
    /// handed the rest. One that is gone for good fails every case, and is not told again.
    fn agrees(&mut self, at: &At, right: &Answer, tally: &mut Tally) -> bool {
        let Some(driver) = &mut self.driver else {
            tally.failed += 1;
            return false;
        };
        match driver.answer(at.case()) {
            Ok(answer) if answer == *right => return true,
            Ok(answer) => {
                let why = format!("{}: {}", self.start.path, report::difference(right, &answer));
                tally.fail(at.number, at.case(), &why);
            }
            Err(Lost { why, hangs }) => {
                tally.fail(at.number, at.case(), &format!("{}: {why}", self.start.path));
                self.lost += 1;
                // A driver that hangs is not tried again: it would cost a minute each time.
                self.driver = if self.lost < MOST_LOST && !hangs { started(self.start, tally) } else { None };
                self.send(Arc::new(at.cases[at.place + 1..].to_vec()));
                for cases in at.under_way {
                    self.send(cases.clone());
                }
            }
        }
        false
    }
}

/// A case among those of its batch, its number among all, and the batches that come after it and are handed over already.
struct At<'a> {
    number: usize,
    cases: &'a [Case],
    place: usize,
    under_way: &'a VecDeque<Arc<Vec<Case>>>,
}

impl At<'_> {
    fn case(&self) -> &Case {
        &self.cases[self.place]
    }
}

/// Sends all batches to every driver and compares all answers.
pub fn compare(starts: &[Start], seed: u64, batches: &mut dyn Iterator<Item = Vec<Case>>, first: usize) -> Tally {
    let mut tally = Tally { seed, ..Tally::default() };
    let mut number = first;
    let mut drivers: Vec<Asked> = starts.iter().map(|start| Asked::new(start, &mut tally)).collect();
    let mut under_way: VecDeque<Arc<Vec<Case>>> = VecDeque::new();
    loop {
        while under_way.len() < UNDER_WAY {
            let Some(cases) = batches.next() else { break };
            let cases = Arc::new(cases);
            for driver in &mut drivers {
                driver.send(cases.clone());
            }
            under_way.push_back(cases);
        }
        let Some(cases) = under_way.pop_front() else { break };
        for (place, case) in cases.iter().enumerate() {
            let right = case.answer(Wrong::Nothing);
            let at = At { number: number + place, cases: &cases, place, under_way: &under_way };
            let mut agreed = true;
            for driver in &mut drivers {
                agreed &= driver.agrees(&at, &right, &mut tally);
            }
            if agreed {
                tally.agree(case, &right);
            }
        }
        number += cases.len();
    }
    for Asked { start, driver, .. } in drivers {
        if let Some(Err(why)) = driver.map(Driver::finish) {
            println!("FAILED after the last case: {}: {why}", start.path);
            tally.failed += 1;
        }
    }
    tally
}

fn started(start: &Start, tally: &mut Tally) -> Option<Driver> {
    match Driver::start(&start.path, &start.arguments, start.patience) {
        Ok(driver) => Some(driver),
        Err(error) => {
            println!("FAILED: {} does not start: {error}", start.path);
            tally.failed += 1;
            None
        }
    }
}

/// How many of a function's cases tell a wrong monitor apart, function by function.
pub type Counts = [usize; FUNCTIONS.len()];

/// The counts of each wrong monitor, in the order of wrong::all(); and how many cases there were. Every processor takes the next batch.
pub fn told_apart(batches: &mut (dyn Iterator<Item = Vec<Case>> + Send)) -> (Vec<Counts>, usize) {
    let left = Mutex::new(batches);
    let workers = thread::available_parallelism().map_or(1, |count| count.get());
    let mut counts = vec![[0; FUNCTIONS.len()]; wrong::all().count()];
    let mut all = 0;
    thread::scope(|scope| {
        let parts: Vec<_> = (0..workers).map(|_| scope.spawn(|| told_apart_of(&left))).collect();
        for part in parts {
            let (some, of) = part.join().expect("no wrong monitor ends the program");
            all += of;
            for (sum, more) in counts.iter_mut().flatten().zip(some.iter().flatten()) {
                *sum += more;
            }
        }
    });
    (counts, all)
}

/// The same of the batches that this worker is the first to take.
fn told_apart_of(left: &Mutex<&mut (dyn Iterator<Item = Vec<Case>> + Send)>) -> (Vec<Counts>, usize) {
    let mut counts = vec![[0; FUNCTIONS.len()]; wrong::all().count()];
    let mut all = 0;
    while let Some(cases) = next(left) {
        all += cases.len();
        let right: Vec<Answer> = cases.iter().map(|case| case.answer(Wrong::Nothing)).collect();
        for (counts, monitor) in counts.iter_mut().zip(wrong::all()) {
            let bears = FUNCTIONS.map(|(name, _)| monitor.bears_on(name));
            for (case, right) in cases.iter().zip(&right) {
                let function = case.function();
                if bears[function] && case.answer(monitor.wrong) != *right {
                    counts[function] += 1;
                }
            }
        }
    }
    (counts, all)
}

fn next(left: &Mutex<&mut (dyn Iterator<Item = Vec<Case>> + Send)>) -> Option<Vec<Case>> {
    left.lock().expect("no worker ends while it takes a batch").next()
}
