//! The command `rillmoth`. Whatever is judged, read, written or imported is so by the proved library: here files are opened, memory is lent,
//! what was handed back is written, and what happened is told.

#![deny(unsafe_code)]

mod help;
mod house;
mod import;
mod input;
mod list;
mod output;
mod rebound;
mod refusals;
mod rules;
mod show;
mod signals;
mod status;
mod tell;
mod words;

use std::ffi::OsString;
use std::process::ExitCode;

use help::Page;
use status::{Status, USAGE};
use words::{Known, Words};

const HELP: Known = Known { names: &["--help", "-h"], word: false };
const OUTPUT: Known = Known { names: &["-o", "--output"], word: true };
const IN_PLACE: Known = Known { names: &["-i", "--in-place"], word: false };
const MEND: Known = Known { names: &["--mend"], word: false };
const SUMMARY: Known = Known { names: &["--summary"], word: false };
const RULES: Known = Known { names: &["--rules"], word: true };

type Command = fn(&Words, &mut Status) -> Result<(), String>;

/// Each command with its page and its options.
const COMMANDS: [(&Page, &[Known], Command); 5] = [
    (&help::LIST, &[HELP, SUMMARY, RULES], list::list),
    (&help::REBOUND, &[HELP, OUTPUT, IN_PLACE, MEND], rebound::rebound),
    (&help::IMPORT, &[HELP, OUTPUT], import::import),
    (&help::SHOW, &[HELP], show::show),
    (&help::HELP, &[HELP], explain),
];

fn main() -> ExitCode {
    signals::fail_at_the_limit();
    let mut status = Status::default();
    let mut words = std::env::args_os().skip(1);
    match words.next() {
        None => wrong("it needs a command", None, &mut status),
        Some(word) => begin(&word, words.collect(), &mut status),
    }
    status.code()
}

fn begin(word: &OsString, rest: Vec<OsString>, status: &mut Status) {
    let text = word.to_string_lossy();
    match text.as_ref() {
        "--help" | "-h" => print(&help::overview(), status),
        "--version" | "-V" => print(&format!("rillmoth {}\n", env!("CARGO_PKG_VERSION")), status),
        _ => match COMMANDS.iter().find(|(page, _, _)| page.name == text) {
            None => wrong(&format!("{text} is none of its commands"), None, status),
            Some((page, known, command)) => follow(page, known, *command, rest, status),
        },
    }
}

fn follow(page: &Page, known: &[Known], command: Command, rest: Vec<OsString>, status: &mut Status) {
    let done = words::take(known, rest).and_then(|words| {
        if words.has("--help") {
            print(&help::of(page.name).unwrap_or_default(), status);
            return Ok(());
        }
        command(&words, status)
    });
    if let Err(what) = done {
        wrong(&format!("{}: {what}", page.name), Some(page), status);
    }
}

/// `rillmoth help`.
fn explain(words: &Words, status: &mut Status) -> Result<(), String> {
    let text = match &words.operands[..] {
        [] => help::overview(),
        [word] => {
            let word = word.to_string_lossy();
            help::about(&word).ok_or(format!("{word} is no command and no refusal"))?
        }
        _ => return Err(String::from("it takes one word")),
    };
    print(&text, status);
    Ok(())
}

fn print(text: &str, status: &mut Status) {
    if let Err(error) = output::print(text.as_bytes()) {
        tell::unprinted(&error, status);
    }
}

fn wrong(what: &str, page: Option<&Page>, status: &mut Status) {
    let usage = page.map_or(String::from("rillmoth COMMAND ... (rillmoth help)"), help::usage);
    tell::say(&format!("{what}\nusage: {usage}"));
    status.add(USAGE);
}
