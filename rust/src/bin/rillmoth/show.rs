//! `rillmoth show`: the setup and the rules of a house file, in words.

use std::ffi::OsStr;
use std::fmt::Write;

use rillmoth::{House, Source, NOT_ALLOWED};

use crate::house;
use crate::output;
use crate::status::Status;
use crate::tell;
use crate::words::Words;

pub fn show(words: &Words, status: &mut Status) -> Result<(), String> {
    let name = match &words.operands[..] {
        [] => OsStr::new("-"),
        [name] => name,
        _ => return Err(String::from("it shows one file")),
    };
    if let Some((_, house)) = house::read(name, status) {
        if let Err(error) = output::print(in_words(&house).as_bytes()) {
            tell::unprinted(&error, status);
        }
    }
    Ok(())
}

fn in_words(house: &House) -> String {
    let House { states, inputs, outputs, bounds, source, rows, events } = house;
    let source = match source {
        Source::Rows => "0, the rows below",
        Source::Standard => "1, the standard box, whose rows are below",
    };
    let lost = match bounds.losses {
        1 => String::from("none may be lost"),
        losses => format!("at most {} may be lost in a row", losses - 1),
    };
    let mut text = format!(
        "states   {states}\ninputs   {inputs}\noutputs  {outputs}\nB        {}, so many may wait\nc        {}, so {lost}\nsource   \
         {source}\nevents   {}\n\n",
        bounds.waiting,
        bounds.losses,
        events.len()
    );
    let columns = (0..*inputs).map(|a| format!("i{a}")).chain((0..*outputs).map(|a| format!("o{a}")));
    text += "state";
    for column in columns {
        let _ = write!(text, " {column:>3}");
    }
    text.push('\n');
    for (state, row) in rows.chunks(inputs + outputs).enumerate() {
        let _ = write!(text, "{state:>5}");
        for entry in row {
            if *entry == NOT_ALLOWED {
                text += "   -";
            } else {
                let _ = write!(text, " {entry:>3}");
            }
        }
        text.push('\n');
    }
    text
}
