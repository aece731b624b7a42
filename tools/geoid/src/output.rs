//! What leaves the program: files, written whole or not at all, and notes on standard error.

use std::fs::{self, File};
use std::io::{self, BufWriter, Write};
use std::path::{Path, PathBuf};

use crate::error::Error;
use crate::part_file::PartFile;

/// The most links from one name to the next.
const LINKS: usize = 40;

/// Write a file of these bytes, whole or not at all.
pub fn write_whole(path: &Path, bytes: &[u8]) -> Result<(), Error> {
    write_with(path, |out| out.write_all(bytes))
}

/// Write what `fill` writes under a temporary name beside the file's place and rename it, so that
/// nobody ever sees half of it and an older file stays where the writing fails. Behind a symbolic link
/// the file it names is replaced, and the link stays. A device or a pipe is written as it is.
pub fn write_with(path: &Path, fill: impl Fn(&mut dyn Write) -> io::Result<()>) -> Result<(), Error> {
    let failed = |error| Error::in_file(path, format!("cannot be written: {error}"));
    match fs::metadata(path) {
        Ok(found) if found.is_dir() => Err(Error::in_file(path, "is a folder; expected a file's name")),
        Ok(found) if !found.is_file() => File::options().write(true).open(path).and_then(|file| filled(&file, fill)).map_err(failed),
        _ => {
            let place = behind_links(path).map_err(failed)?;
            let part = PartFile::beside(&place).map_err(failed)?;
            filled(&part.file, fill).and_then(|()| part.rename(&place)).map_err(failed)
        }
    }
}

/// Whether a path names something that is written as it is: a device or a pipe.
pub fn is_special(path: &Path) -> bool {
    fs::metadata(path).is_ok_and(|found| !found.is_file())
}

fn filled(file: &File, fill: impl Fn(&mut dyn Write) -> io::Result<()>) -> io::Result<()> {
    let mut out = BufWriter::new(file);
    fill(&mut out)?;
    out.flush()
}

/// The name at the end of a path's symbolic links, whether or not there is a file yet.
fn behind_links(path: &Path) -> io::Result<PathBuf> {
    let mut place = path.to_path_buf();
    for _ in 0..LINKS {
        match fs::read_link(&place) {
            // A relative link starts at its own folder.
            Ok(next) => place = place.parent().unwrap_or(Path::new("")).join(next),
            Err(_) => return Ok(place),
        }
    }
    Err(io::Error::other("its symbolic links lead in a circle"))
}

/// Read a file whole.
pub fn read_whole(path: &Path) -> Result<Vec<u8>, Error> {
    fs::read(path).map_err(|error| Error::in_file(path, format!("cannot be read: {error}")))
}

/// A line on standard error that is no refusal. What a file says of itself may be in it, so control characters are shown as `?`.
pub fn note(text: &str) {
    let _ = writeln!(io::stderr(), "geoid: note: {}", text.replace(char::is_control, "?"));
}
