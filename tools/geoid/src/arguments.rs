//! The words behind a command: its operands and its options.

use std::collections::BTreeMap;
use std::ffi::{OsStr, OsString};
use std::path::Path;

use crate::error::Error;

/// One option of a command, as its help shows it. An empty `value` makes it a switch.
pub struct Opt {
    pub name: &'static str,
    pub value: &'static str,
    pub help: &'static str,
}

/// The word before a `=` and the value behind it, which need not be text (a file's name).
#[allow(unsafe_code)]
fn split_at_sign(word: &OsStr) -> (&OsStr, Option<OsString>) {
    let bytes = word.as_encoded_bytes();
    match bytes.iter().position(|&byte| byte == b'=') {
        None => (word, None),
        // SAFETY: the encoded bytes are cut just before and just behind an ASCII character.
        Some(place) => unsafe {
            let value = OsStr::from_encoded_bytes_unchecked(&bytes[place + 1..]);
            (OsStr::from_encoded_bytes_unchecked(&bytes[..place]), Some(value.to_os_string()))
        },
    }
}

/// A word as a shell takes it.
fn quoted(word: &str) -> String {
    let plain = |c: char| c.is_alphanumeric() || "-_./=+:,@%".contains(c);
    if !word.is_empty() && word.chars().all(plain) { word.to_string() } else { format!("'{}'", word.replace('\'', "'\\''")) }
}

/// What a command line gives: its operands in order, and each option's value.
#[derive(Debug, Default)]
pub struct Arguments {
    /// The words as a shell takes them.
    pub line: String,
    operands: Vec<OsString>,
    options: BTreeMap<&'static str, OsString>,
}

impl Arguments {
    /// Sort the words behind a command by the options it knows. An option's value is the next word,
    /// whatever it begins with (`--region -10/20/35/60`), or stands behind a `=`.
    pub fn parse(words: Vec<OsString>, known: &[Opt]) -> Result<Self, Error> {
        let line = words.iter().map(|word| quoted(&word.to_string_lossy())).collect::<Vec<_>>().join(" ");
        let mut found = Arguments { line, ..Arguments::default() };
        let mut words = words.into_iter();
        while let Some(word) = words.next() {
            if word == "--" {
                found.operands.extend(words.by_ref());
            } else if word.as_encoded_bytes().starts_with(b"-") && word != "-" {
                found.option(&word, &mut words, known)?;
            } else {
                found.operands.push(word);
            }
        }
        Ok(found)
    }

    fn option(&mut self, word: &OsStr, words: &mut impl Iterator<Item = OsString>, known: &[Opt]) -> Result<(), Error> {
        let (front, joined) = split_at_sign(word);
        let name = &*front.to_string_lossy();
        let opt = known.iter().find(|opt| opt.name == name).ok_or_else(|| Error::usage(format!("unknown option '{name}'")))?;
        let value = match (opt.value, joined) {
            ("", None) => OsString::new(),
            ("", Some(_)) => return Err(Error::usage(format!("option {name} takes no value"))),
            (_, Some(value)) => value,
            (due, None) => words.next().ok_or_else(|| Error::usage(format!("option {name} needs a value: {name} {due}")))?,
        };
        match self.options.insert(opt.name, value) {
            None => Ok(()),
            Some(_) => Err(Error::usage(format!("option {name} is given twice"))),
        }
    }

    /// Check that there are just the operands that a command names; a last name with `...` behind it
    /// stands for one operand or more.
    pub fn expect_operands(&self, names: &[&str]) -> Result<(), Error> {
        if let Some(missing) = names.get(self.operands.len()) {
            return Err(Error::usage(format!("{} is missing", missing.trim_end_matches("..."))));
        }
        let open = names.last().is_some_and(|last| last.ends_with("..."));
        match self.operands.get(names.len()) {
            Some(extra) if !open => Err(Error::usage(format!("unexpected word '{}'", extra.to_string_lossy()))),
            _ => Ok(()),
        }
    }

    /// The operand at a place that [`expect_operands`](Self::expect_operands) has checked.
    pub fn operand(&self, place: usize) -> &Path {
        Path::new(&self.operands[place])
    }

    /// The operands from such a place to the last.
    pub fn operands_from(&self, place: usize) -> impl ExactSizeIterator<Item = &Path> {
        self.operands[place..].iter().map(Path::new)
    }

    /// Whether an option is given.
    pub fn has(&self, name: &str) -> bool {
        self.options.contains_key(name)
    }

    /// An option's value as a path.
    pub fn path(&self, name: &str) -> Option<&Path> {
        self.options.get(name).map(Path::new)
    }

    /// An option's value as text.
    pub fn text(&self, name: &str) -> Result<Option<&str>, Error> {
        match self.options.get(name) {
            None => Ok(None),
            Some(value) => value.to_str().map(Some).ok_or_else(|| Error::usage(format!("the value of {name} is not UTF-8 text"))),
        }
    }

    /// An option's value as a finite number.
    pub fn number(&self, name: &str) -> Result<Option<f64>, Error> {
        let Some(text) = self.text(name)? else { return Ok(None) };
        match text.parse::<f64>() {
            Ok(value) if value.is_finite() => Ok(Some(value)),
            _ => Err(Error::usage(format!("{name} is '{text}'; expected a number"))),
        }
    }

    /// An option's value as a positive finite number.
    pub fn positive(&self, name: &str) -> Result<Option<f64>, Error> {
        match self.number(name)? {
            Some(value) if value <= 0.0 => Err(Error::usage(format!("{name} is {value}; expected a number above 0"))),
            value => Ok(value),
        }
    }

    /// An option's value as a whole number from 0.
    pub fn whole(&self, name: &str) -> Result<Option<u64>, Error> {
        let Some(text) = self.text(name)? else { return Ok(None) };
        text.parse().map(Some).map_err(|_| Error::usage(format!("{name} is '{text}'; expected a whole number from 0")))
    }

    /// An option's value as a degree (or another count), 0 to `largest`.
    pub fn count(&self, name: &str, largest: usize) -> Result<Option<usize>, Error> {
        match self.whole(name)? {
            None => Ok(None),
            Some(value) => match usize::try_from(value) {
                Ok(value) if value <= largest => Ok(Some(value)),
                _ => Err(Error::usage(format!("{name} is {value}; expected a whole number from 0 to {largest}"))),
            },
        }
    }
}
