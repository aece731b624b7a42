//! Text files: their characters, their lines, and what is wrong in them.

use std::borrow::Cow;
use std::path::Path;

use crate::error::Error;

/// What is wrong with a text, and the number of the line where it shows (the first line is 1).
#[derive(Debug)]
pub struct Fault {
    line: Option<usize>,
    what: String,
}

impl Fault {
    /// A fault of one line.
    pub fn at(line: usize, what: impl Into<String>) -> Self {
        Fault { line: Some(line), what: what.into() }
    }

    /// A fault of the text as a whole.
    pub fn whole(what: impl Into<String>) -> Self {
        Fault { line: None, what: what.into() }
    }

    /// The error that names the file too.
    pub fn in_file(self, path: &Path) -> Error {
        match self.line {
            Some(line) => Error::in_file(path, format!("line {line}: {}", self.what)),
            None => Error::in_file(path, self.what),
        }
    }
}

/// The text of a file: UTF-8 (a mark of it in front is left out), else Latin-1, whose every byte is a
/// character. Numbers are ASCII in both.
pub fn decoded(bytes: &[u8]) -> Cow<'_, str> {
    let bytes = bytes.strip_prefix(b"\xef\xbb\xbf").unwrap_or(bytes);
    match std::str::from_utf8(bytes) {
        Ok(text) => text.into(),
        Err(_) => bytes.iter().copied().map(char::from).collect::<String>().into(),
    }
}

/// A count with its noun, of which more than one has an `s`.
pub fn counted(count: usize, noun: &str) -> String {
    format!("{count} {noun}{}", if count == 1 { "" } else { "s" })
}

/// A text whose last line has no end is cut: its last number may be another one.
pub fn check_end(text: &str) -> Result<(), Fault> {
    match text.rsplit('\n').next() {
        Some(rest) if !rest.trim().is_empty() => {
            let what = "the file ends inside this line, without a line break: it is cut; expected a line break at its end";
            Err(Fault::at(text.lines().count(), what))
        }
        _ => Ok(()),
    }
}
