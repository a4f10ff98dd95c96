//! The words of a command: options, which may stand anywhere before `--`, and operands.

use std::ffi::{OsStr, OsString};

/// An option of a command.
#[derive(Clone, Copy)]
pub struct Known {
    /// All its names, as `-o` and `--output`.
    pub names: &'static [&'static str],
    /// Whether a word goes with it.
    pub word: bool,
}

/// What was said: the options by their first names, and the operands.
#[derive(Default)]
pub struct Words {
    options: Vec<(&'static str, OsString)>,
    pub operands: Vec<OsString>,
}

impl Words {
    /// Whether an option was given.
    pub fn has(&self, name: &str) -> bool {
        self.word(name).is_some()
    }

    /// The word that was given with it.
    pub fn word(&self, name: &str) -> Option<&OsStr> {
        self.options.iter().find(|(known, _)| *known == name).map(|(_, word)| word.as_os_str())
    }
}

/// Takes words apart; the error says which is wrong.
pub fn take(known: &[Known], words: impl IntoIterator<Item = OsString>) -> Result<Words, String> {
    let mut taken = Words::default();
    let mut words = words.into_iter();
    while let Some(word) = words.next() {
        if word == "--" {
            taken.operands.extend(words);
            break;
        }
        // `-` is a stream. A name that is no text is no option.
        let text = match word.to_str() {
            Some(text) if text.starts_with('-') && text != "-" => text,
            _ => {
                taken.operands.push(word);
                continue;
            }
        };
        let (name, joined) = match text.split_once('=') {
            Some((name, joined)) if name.starts_with("--") => (name, Some(OsString::from(joined))),
            _ => (text, None),
        };
        let option =
            known.iter().find(|option| option.names.contains(&name)).ok_or(format!("{name} is no option of it"))?;
        let first = option.names[0];
        if taken.has(first) {
            return Err(format!("{first} is given twice"));
        }
        let value = match (option.word, joined) {
            (false, None) => OsString::new(),
            (false, Some(_)) => return Err(format!("{name} takes no word")),
            (true, Some(joined)) => joined,
            (true, None) => words.next().ok_or(format!("a word must follow {name}"))?,
        };
        taken.options.push((first, value));
    }
    Ok(taken)
}

/// A whole number in decimal digits.
pub fn number(word: &OsStr) -> Option<usize> {
    let text = word.to_str()?;
    if text.is_empty() || !text.bytes().all(|byte| byte.is_ascii_digit()) {
        return None;
    }
    text.parse().ok()
}

#[cfg(test)]
mod tests {
    use super::{number, take, Known};
    use std::ffi::{OsStr, OsString};

    const KNOWN: [Known; 2] =
        [Known { names: &["-o", "--output"], word: true }, Known { names: &["--mend"], word: false }];

    fn words(line: &str) -> Result<super::Words, String> {
        take(&KNOWN, line.split(' ').map(OsString::from))
    }

    #[test]
    fn options_stand_anywhere() {
        for line in [
            "8 2 old -o new --mend",
            "--mend -o new 8 2 old",
            "8 --output=new --mend 2 old",
            "--mend --output new 8 2 -- old",
        ] {
            let words = words(line).expect(line);
            assert_eq!(words.operands, ["8", "2", "old"], "{line}");
            assert_eq!(words.word("-o"), Some(OsStr::new("new")), "{line}");
            assert!(words.has("--mend"), "{line}");
        }
    }

    #[test]
    fn after_two_dashes_all_are_operands() {
        let words = words("- -- -o -- --mend").expect("words");
        assert_eq!(words.operands, ["-", "-o", "--", "--mend"]);
        assert!(!words.has("-o") && !words.has("--mend"));
    }

    #[test]
    fn wrong_words_are_told() {
        for line in ["-x", "--outputs=new", "-o", "--mend=1", "-o a -o b", "-o a --output b", "--mend --mend", "---"] {
            assert!(words(line).is_err(), "{line}");
        }
    }

    #[test]
    fn numbers_are_digits() {
        assert_eq!(number(OsStr::new("0032")), Some(32));
        assert_eq!(number(OsStr::new("18446744073709551615")), Some(usize::MAX));
        for word in ["", "-1", "+1", " 1", "1 ", "0x1", "1.0", "18446744073709551616", "one"] {
            assert_eq!(number(OsStr::new(word)), None, "{word}");
        }
    }
}
