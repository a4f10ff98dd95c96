//! What the command does, in words: `rillmoth help`, and from the same text the manual page.

use std::fmt::Write;

use crate::refusals;

/// One command.
pub struct Page {
    pub name: &'static str,
    /// What it does, in a few words.
    brief: &'static str,
    /// Its words, a line for each way to call it.
    usage: &'static [&'static str],
    /// Paragraphs. Those that begin with a blank are examples, line by line.
    text: &'static [&'static str],
}

pub const LIST: Page = Page {
    name: "list",
    brief: "lists house files: which states the box may be in after each event, and whether it is flagged",
    usage: &["list [--summary] [FILE...]", "list [--summary] --rules RULES CAPTURE..."],
    text: &[
        "Lists each house file, or standard input where none is named. Of several, each stands under a line with its name. The last line of \
         a listing is `consistent`, `flagged N` or `refused N PLACE`.",
        "--summary: one line a file instead: the verdict, how many events there are, and where the flag fell and what was seen there; or \
         the refusal in words.",
        "--rules RULES: the files are captures of the tap. Each is judged with the rules and the bounds of the house file RULES, as if it \
         were imported and then listed. A capture that is refused has no listing.",
        " rillmoth list samples/queue.house\n rillmoth list --summary --rules samples/queue.house tap/*.pcap",
    ],
};

pub const REBOUND: Page = Page {
    name: "rebound",
    brief: "writes a house file with other bounds",
    usage: &["rebound [--mend] B c FILE -o NEW", "rebound [--mend] B c FILE -i"],
    text: &[
        "Writes the house file FILE with these bounds in place of its own: B polls may wait, and fewer than c may be lost in a row. Nothing \
         else changes. Its own bounds are not looked at.",
        "-o NEW: where it goes; - is standard output. -i: in place of FILE. The file is written whole or not at all.",
        "--mend: the setup was changed by hand, so that the check of block 0 no longer fits. That one check is made anew, and what was \
         read of the setup is shown: see whether it is what was meant.",
        " rillmoth rebound 8 2 samples/queue.house -o wider.house",
    ],
};

pub const IMPORT: Page = Page {
    name: "import",
    brief: "makes a house file from a capture of the tap",
    usage: &["import RULES CAPTURE -o NEW"],
    text: &[
        "Writes the house file RULES with the capture's events in place of its own. A capture is a classic pcap file of link type 147, one \
         octet a packet; at most 4,096 of them fit in a house file. Any good house file of the box will do for RULES.",
        "-o NEW: where it goes; - is standard output. The file is written whole or not at all.",
        " rillmoth import samples/queue.house tap.pcap -o morning.house",
    ],
};

pub const SHOW: Page = Page {
    name: "show",
    brief: "shows the setup and the rules of a house file",
    usage: &["show [FILE]"],
    text: &[
        "Says in words what the house file holds: states, inputs, outputs, bounds, source and how many events; then its rules, a row a \
         state. An entry is the next state, or - where the symbol is not allowed. It judges nothing.",
    ],
};

pub const HELP: Page = Page {
    name: "help",
    brief: "says what a command does, or what a refusal means",
    usage: &["help [COMMAND | NUMBER | man]"],
    text: &["help 12 says what refusal 12 means and what to do. help man is the manual page, for man -l."],
};

const PAGES: [&Page; 5] = [&LIST, &REBOUND, &IMPORT, &SHOW, &HELP];

const ABOUT: &str = "Judges sounder boxes from what the hub's tap saw. A box's rules, its bounds (how many polls may wait, and how many may be \
    lost in a row) and the events of a morning are a house file. After each event it says which states the box may be in, or flags the box: \
    then no honest box could have shown this.";

const EVERYWHERE: [&str; 3] = [
    "- for a file is standard input, or standard output. -- ends the options. --help after a command says what it does; --version tells \
     the version.",
    "What is refused is told by its number and place (README.md, docs/REFUSALS.md); standard error says in words what is wrong and what to \
     do. A refusal says nothing about the box: it is no flag and no zero catch.",
    "A flag rests on what the tap saw: that it saw every poll and every report, once, in their true order.",
];

const STATUS: [(&str, &str); 5] = [
    ("1", "some box is flagged"),
    ("2", "something was refused"),
    ("4", "something could not be read, written or built, or the reader of a pipe has gone"),
    ("8", "the words are not those of the command"),
    ("0", "none of these"),
];

/// How wide a line may be.
const WIDTH: usize = 100;

/// The page of a command.
pub fn of(name: &str) -> Option<String> {
    let page = PAGES.iter().find(|page| page.name == name)?;
    let mut text = filled(&format!("rillmoth {}: {}.", page.name, page.brief), "") + "\n";
    for line in page.usage {
        let _ = writeln!(text, "    rillmoth {line}");
    }
    for part in page.text {
        text.push('\n');
        match part.strip_prefix(' ') {
            Some(lines) => lines.split("\n ").for_each(|line| text += &format!("    {line}\n")),
            None => text += &filled(part, ""),
        }
    }
    Some(text)
}

/// How a command is called, in one line or two.
pub fn usage(page: &Page) -> String {
    page.usage.iter().map(|line| format!("rillmoth {line}")).collect::<Vec<_>>().join("\n   or: ")
}

/// What a word after `help` asks for.
pub fn about(word: &str) -> Option<String> {
    match word {
        "man" => Some(manual()),
        _ => of(word).or_else(|| refusals::page(word).map(|page| page + "\n")),
    }
}

/// All commands at a glance.
pub fn overview() -> String {
    let mut text = filled(&format!("rillmoth {}. {ABOUT}", env!("CARGO_PKG_VERSION")), "");
    text.push('\n');
    for page in PAGES {
        for line in page.usage {
            let _ = writeln!(text, "    rillmoth {line}");
        }
        text += &filled(page.brief, "        ");
    }
    for part in EVERYWHERE {
        text.push('\n');
        text += &filled(part, "");
    }
    text += "\nThe exit status is the sum of\n";
    for (number, meaning) in STATUS {
        let _ = writeln!(text, "    {number}  {meaning}");
    }
    text
}

/// The same as a manual page.
fn manual() -> String {
    let mut text = format!(
        ".TH RILLMOTH 1 \"\" \"rillmoth {}\"\n.SH NAME\nrillmoth \\- judges sounder boxes\n.SH SYNOPSIS\n.nf\n",
        env!("CARGO_PKG_VERSION")
    );
    for line in PAGES.iter().flat_map(|page| page.usage) {
        let _ = writeln!(text, "rillmoth {}", roff(line));
    }
    text += ".fi\n.SH DESCRIPTION\n";
    let _ = writeln!(text, "{}", roff(ABOUT));
    for part in EVERYWHERE {
        let _ = write!(text, ".PP\n{}\n", roff(part));
    }
    text += ".SH COMMANDS\n";
    for page in PAGES {
        let _ = write!(text, ".SS {}\nIt {}.\n", page.name, roff(page.brief));
        for part in page.text {
            match part.strip_prefix(' ') {
                Some(lines) => {
                    let _ = write!(text, ".PP\n.nf\n{}\n.fi\n", roff(&lines.replace("\n ", "\n")));
                }
                None => {
                    let _ = write!(text, ".PP\n{}\n", roff(part));
                }
            }
        }
    }
    text += ".SH EXIT STATUS\nThe sum of\n";
    for (number, meaning) in STATUS {
        let _ = write!(text, ".TP\n.B {number}\n{}\n", roff(meaning));
    }
    text
}

/// Text as roff has it: no line of it is taken for a request.
fn roff(text: &str) -> String {
    text.replace('\\', "\\e").replace('-', "\\-").replace('`', "\\(ga").replace("\n.", "\n\\&.")
}

/// A paragraph in lines of at most [`WIDTH`] characters, each after this margin.
fn filled(text: &str, margin: &str) -> String {
    let mut lines = String::new();
    let mut line = String::from(margin);
    for word in text.split_whitespace() {
        if line.len() > margin.len() && line.chars().count() + 1 + word.chars().count() > WIDTH {
            lines += &line;
            lines.push('\n');
            line = String::from(margin);
        }
        if line.len() > margin.len() {
            line.push(' ');
        }
        line += word;
    }
    lines + &line + "\n"
}

#[cfg(test)]
mod tests {
    use super::{about, overview, PAGES, WIDTH};

    #[test]
    fn no_line_is_too_wide() {
        for text in PAGES.iter().filter_map(|page| about(page.name)).chain([overview()]) {
            assert!(text.lines().all(|line| line.chars().count() <= WIDTH), "{text}");
            assert!(text.ends_with('\n'));
        }
    }

    #[test]
    fn the_manual_has_every_command_and_every_status() {
        let manual = about("man").unwrap_or_default();
        for page in PAGES {
            assert!(manual.contains(&format!(".SS {}\n", page.name)));
            assert!(overview().contains(&format!("rillmoth {}", page.usage[0])));
        }
        for number in ["0", "1", "2", "4", "8"] {
            assert!(manual.contains(&format!(".B {number}\n")));
        }
    }

    #[test]
    fn refusals_have_words() {
        assert!(about("12").unwrap_or_default().starts_with("12: a check."));
        assert_eq!(about("13"), None);
    }
}
