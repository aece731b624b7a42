//! A text that is read from its front to its end.

use crate::text::Fault;

/// The most characters of a text that a message repeats.
const SHOWN: usize = 20;

/// A text and how far it is read.
#[derive(Clone, Copy)]
pub struct Scan<'a> {
    text: &'a str,
    at: usize,
}

impl<'a> Scan<'a> {
    pub fn new(text: &'a str) -> Self {
        Scan { text, at: 0 }
    }

    /// The next character, not yet read.
    pub fn peek(&self) -> Option<char> {
        self.text[self.at..].chars().next()
    }

    /// Read the next character, which is not looked at.
    pub fn skip(&mut self) {
        self.at += self.peek().map_or(0, char::len_utf8);
    }

    /// Read the characters in front that are of a kind.
    pub fn take_while(&mut self, kind: impl Fn(char) -> bool) -> &'a str {
        let rest = &self.text[self.at..];
        let taken = &rest[..rest.find(|next| !kind(next)).unwrap_or(rest.len())];
        self.at += taken.len();
        taken
    }

    /// Skip blanks and line breaks.
    pub fn skip_blank(&mut self) {
        self.take_while(|next| matches!(next, ' ' | '\t' | '\n' | '\r'));
    }

    /// Skip blanks and read a character if it is the one that stands there.
    pub fn eat(&mut self, wanted: char) -> bool {
        self.skip_blank();
        let found = self.peek() == Some(wanted);
        if found {
            self.skip();
        }
        found
    }

    /// Read to the end, where only blanks may stand.
    pub fn end(mut self, expected: &str) -> Result<(), Fault> {
        self.skip_blank();
        if self.peek().is_none() { Ok(()) } else { Err(self.expected(expected)) }
    }

    /// What is wrong where the reading stands.
    pub fn fault(&self, what: impl Into<String>) -> Fault {
        Fault::at(1 + self.text[..self.at].matches('\n').count(), what)
    }

    /// The fault of a text in which something else was due here.
    pub fn expected(&self, due: &str) -> Fault {
        let found: String = self.text[self.at..].lines().next().unwrap_or("").chars().take(SHOWN).collect();
        let found = if self.peek().is_none() { "the text ends".to_string() } else { format!("found '{found}'") };
        self.fault(format!("{found}; expected {due}"))
    }
}
