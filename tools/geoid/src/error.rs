//! What stops a command: one line for the user.

use std::fmt;
use std::path::Path;

use geopotential::Refusal;

/// One line that says what is wrong, and the exit status that goes with it.
#[derive(Clone, Debug, PartialEq, Eq)]
pub struct Error {
    message: String,
    status: u8,
}

impl Error {
    /// The command line itself is wrong.
    pub fn usage(message: impl Into<String>) -> Self {
        Error { message: message.into(), status: 2 }
    }

    /// The command line is right, but what it asks for cannot be done.
    pub fn failure(message: impl Into<String>) -> Self {
        Error { message: message.into(), status: 1 }
    }

    /// A failure that belongs to a file.
    pub fn in_file(path: &Path, what: impl fmt::Display) -> Self {
        Error::failure(format!("{}: {what}", path.display()))
    }

    /// The exit status: 2 for a wrong command line, 1 for everything else.
    pub fn status(&self) -> u8 {
        self.status
    }
}

impl fmt::Display for Error {
    /// Control characters (a file's name may have a line break in it) are shown as `?`, so that the
    /// message stays one line.
    fn fmt(&self, f: &mut fmt::Formatter<'_>) -> fmt::Result {
        f.write_str(&self.message.replace(char::is_control, "?"))
    }
}

impl std::error::Error for Error {}

impl From<Refusal> for Error {
    fn from(refusal: Refusal) -> Self {
        Error::failure(refusal.to_string())
    }
}
