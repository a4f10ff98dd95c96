//! The tests outside the proofs: document 01 once more, written from the document alone and by search,
//! and compared with the proved code case by case. It shares neither code nor idea with that code.

mod capture;
mod captures;
mod case;
mod compare;
mod driver;
mod file_edges;
mod files;
mod generate;
mod house;
mod lent;
mod listing;
mod listings;
mod model;
mod random;
mod refusal;
mod remaker;
mod remakes;
mod report;
mod run;
mod run_edges;
mod runs;
mod session;
mod session_edges;
mod sessions;
mod standard;
mod tables;
mod wire;
#[cfg(test)]
mod worked;
mod writer;
mod writes;
mod wrong;

use case::{Case, FUNCTIONS};
use compare::{Counts, Start, Tally};
use std::process::ExitCode;
use std::time::{Duration, Instant};
use wrong::{Monitor, Wrong};

const USAGE: &str =
    "outside --driver PATH.. | --self [--as WRONG]   compare the drivers at these paths, or this package itself
  --seed N    another seed
  --soak N    N times as many random cases
  --full      a run of 1,048,576 events too, and ten minutes for it
  --case N    one case only, told in full
outside --serve [WRONG]                         be a driver";

const BATCHES: u64 = 35;

/// Random batches that the wrong monitors see, beside all edges.
const WRONG_BATCHES: u64 = 3;

struct Asked {
    seed: u64,
    soak: u64,
    full: bool,
    case: Option<usize>,
    patience: Duration,
    starts: Vec<Start>,
}

fn main() -> ExitCode {
    let arguments: Vec<String> = std::env::args().skip(1).collect();
    if arguments.first().map(String::as_str) == Some("--serve") {
        let wrong = arguments.get(1).and_then(|name| wrong::named(name)).unwrap_or(Wrong::Nothing);
        return match wire::serve(wrong) {
            Ok(()) => ExitCode::SUCCESS,
            Err(_) => ExitCode::FAILURE,
        };
    }
    match asked(&arguments) {
        Some(asked) => work(&asked),
        None => {
            println!("{USAGE}");
            println!("0 passed, 1 failed");
            ExitCode::FAILURE
        }
    }
}

fn asked(arguments: &[String]) -> Option<Asked> {
    let patience = Duration::from_secs(60);
    let mut asked = Asked { seed: 1, soak: 1, full: false, case: None, patience, starts: Vec::new() };
    let mut rest = arguments.iter();
    while let Some(argument) = rest.next() {
        match argument.as_str() {
            "--seed" => asked.seed = rest.next()?.parse().ok()?,
            "--soak" => asked.soak = rest.next()?.parse().ok()?,
            "--full" => {
                asked.full = true;
                asked.patience = Duration::from_secs(600);
            }
            "--case" => asked.case = Some(rest.next()?.parse().ok()?),
            "--driver" => asked.starts.push(Start { path: rest.next()?.clone(), arguments: Vec::new(), patience }),
            "--self" => {
                let path = std::env::current_exe().ok()?.to_str()?.to_string();
                asked.starts.push(Start { path, arguments: vec![String::from("--serve")], patience });
            }
            "--as" => {
                let name = rest.next()?;
                wrong::named(name)?;
                asked.starts.last_mut()?.arguments.push(name.clone());
            }
            _ => return None,
        }
    }
    for start in &mut asked.starts {
        start.patience = asked.patience;
    }
    if asked.starts.is_empty() {
        None
    } else {
        Some(asked)
    }
}

/// The edges in batches, then the random batches, then the full run if it is wanted.
fn batches(edges: &[Case], seed: u64, random: u64, full: bool) -> impl Iterator<Item = Vec<Case>> + Send + '_ {
    let last = if full { vec![vec![run_edges::full_run()]] } else { Vec::new() };
    let systematic = edges.chunks(generate::BATCH).map(|cases| cases.to_vec());
    systematic.chain((0..random).map(move |number| generate::batch(seed, number))).chain(last)
}

fn work(asked: &Asked) -> ExitCode {
    println!("seed {}", asked.seed);
    let begun = Instant::now();
    let edges = generate::edges();
    println!("{} edges, made in {:.1} s", edges.len(), begun.elapsed().as_secs_f64());
    let (mut passed, mut failed) = (0, 0);
    if let Some(number) = asked.case {
        let all = batches(&edges, asked.seed, BATCHES * asked.soak, asked.full).flatten();
        let only: Vec<Case> = all.skip(number).take(1).collect();
        for case in &only {
            println!("{case:?}");
        }
        if only.is_empty() {
            println!("FAILED: there is no case {number}");
            failed += 1;
        }
        let tally = compare::compare(&asked.starts, asked.seed, &mut std::iter::once(only), number);
        passed += tally.passed.iter().sum::<usize>();
        failed += tally.failed;
    } else {
        let begun = Instant::now();
        let mut all = batches(&edges, asked.seed, BATCHES * asked.soak, asked.full);
        let tally = compare::compare(&asked.starts, asked.seed, &mut all, 0);
        compared(&tally, &mut passed, &mut failed);
        println!("compared in {:.1} s", begun.elapsed().as_secs_f64());
        let begun = Instant::now();
        let mut some = batches(&edges, asked.seed, WRONG_BATCHES, false);
        let (counts, of) = compare::told_apart(&mut some);
        apart(&counts, of, &mut passed, &mut failed);
        println!("told apart in {:.1} s", begun.elapsed().as_secs_f64());
    }
    println!("{passed} passed, {failed} failed");
    if failed == 0 {
        ExitCode::SUCCESS
    } else {
        ExitCode::FAILURE
    }
}

/// Tells the cases compared and the refusal numbers met: each function must have given each number
/// that it can give.
fn compared(tally: &Tally, passed: &mut usize, failed: &mut usize) {
    for (function, (name, numbers)) in FUNCTIONS.iter().enumerate() {
        let met = |number: &&u64| tally.met.contains(&(function, **number));
        let seen: Vec<String> = numbers.iter().filter(met).map(u64::to_string).collect();
        let missing: Vec<String> = numbers.iter().filter(|number| !met(number)).map(u64::to_string).collect();
        let [rest, flagged, refused] = tally.outcomes[function];
        println!(
            "{name}: {} cases agree ({rest} plain, {flagged} flagged, {refused} refused); refusals met: {}",
            tally.passed[function],
            seen.join(" ")
        );
        if !missing.is_empty() {
            println!("FAILED {name}: refusals never met: {}", missing.join(" "));
        }
        *passed += tally.passed[function] + seen.len();
        *failed += missing.len();
    }
    *failed += tally.failed;
}

/// Tells how many cases told each wrong monitor apart; at least one must.
fn apart(counts: &[Counts], of: usize, passed: &mut usize, failed: &mut usize) {
    println!("wrong monitors, and how many of {of} cases tell them apart:");
    let names: String = FUNCTIONS.iter().map(|(name, _)| format!("{name:>9}")).collect();
    println!("   all{names}");
    for (counts, Monitor { name, does, .. }) in counts.iter().zip(wrong::all()) {
        let all: usize = counts.iter().sum();
        let each: String = counts.iter().map(|count| format!("{count:9}")).collect();
        println!("{all:6}{each}  {name}: {does}");
        if all > 0 {
            *passed += 1;
        } else {
            println!("FAILED {name}: never told apart");
            *failed += 1;
        }
    }
}
