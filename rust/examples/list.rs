//! Lists a house file, as `rillmoth list` does: reads it, runs over its events, and prints a line for each.
//!
//!     cargo run --example list -- FILE
//!
//! Exit status: 0 consistent; 1 flagged; 2 refused, or the file could not be read.

use rillmoth::{House, Refusal, LINE_BYTES};
use std::process::ExitCode;

/// The listing, and whether the box is flagged.
fn listing(file: &[u8]) -> Result<(String, bool), Refusal> {
    let house = House::read(file)?;
    let mut out = vec![0; LINE_BYTES * house.events.len()];
    let flag = rillmoth::run(&house.table(), house.bounds, &house.events, &mut out)?;

    let mut text = String::from("event symbol states waiting run\n");
    for (index, (event, line)) in house.events.iter().zip(rillmoth::lines(&out)).enumerate() {
        let direction = if *event < rillmoth::output(0) { 'i' } else { 'o' };
        let symbol = event % rillmoth::output(0);
        text += &format!("{index} {direction}{symbol} {line}\n");
    }
    text += &match flag {
        Some(place) => format!("flagged {place}\n"),
        None => String::from("consistent\n"),
    };
    Ok((text, flag.is_some()))
}

fn main() -> ExitCode {
    let Some(name) = std::env::args_os().nth(1) else {
        eprintln!("usage: list FILE");
        return ExitCode::from(2);
    };
    let file = match std::fs::read(&name) {
        Ok(file) => file,
        Err(error) => {
            eprintln!("list: {}: {error}", name.to_string_lossy());
            return ExitCode::from(2);
        }
    };
    match listing(&file) {
        Ok((text, flagged)) => {
            print!("{text}");
            ExitCode::from(u8::from(flagged))
        }
        Err(refusal) => {
            println!("{}", refusal.listed());
            eprintln!("list: {}: {refusal}", name.to_string_lossy());
            ExitCode::from(2)
        }
    }
}
