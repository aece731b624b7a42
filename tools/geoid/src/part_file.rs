//! Files under work: they have names of their own, and go when the writing fails or a signal ends the program.

use std::fs::{self, File};
use std::io;
use std::path::{Path, PathBuf};
use std::sync::atomic::{AtomicUsize, Ordering};
use std::time::{SystemTime, UNIX_EPOCH};

/// A file beside the place where it will be, removed unless it gets there.
pub struct PartFile {
    path: PathBuf,
    pub file: File,
}

impl PartFile {
    /// A new file beside a path. A name that is taken is never touched.
    pub fn beside(path: &Path) -> io::Result<PartFile> {
        let part = path.with_file_name(part_name());
        signals::remember(&part);
        match File::create_new(&part) {
            Ok(file) => Ok(PartFile { path: part, file }),
            Err(error) => {
                signals::forget();
                Err(error)
            }
        }
    }

    /// Put the file in its place.
    pub fn rename(self, path: &Path) -> io::Result<()> {
        self.file.sync_all()?;
        fs::rename(&self.path, path)
    }
}

impl Drop for PartFile {
    fn drop(&mut self) {
        // After a rename there is nothing of this name any more.
        let _ = fs::remove_file(&self.path);
        signals::forget();
    }
}

/// A name that no other run has, on any machine that shares the folder: by process, moment and count.
fn part_name() -> String {
    static COUNT: AtomicUsize = AtomicUsize::new(0);
    let moment = SystemTime::now().duration_since(UNIX_EPOCH).map_or(0, |since| since.as_nanos());
    format!(".geoid-{}-{moment}-{}.part", std::process::id(), COUNT.fetch_add(1, Ordering::Relaxed))
}

pub use signals::catch as catch_signals;

#[cfg(unix)]
#[allow(unsafe_code)]
mod signals {
    use std::ffi::{CString, c_char, c_int};
    use std::os::unix::ffi::OsStrExt;
    use std::path::Path;
    use std::ptr::null_mut;
    use std::sync::atomic::{AtomicPtr, Ordering};

    /// The signals that ask a program to end (hang-up, interrupt, terminate), and the two ways not to handle one.
    const SIGNALS: [c_int; 3] = [1, 2, 15];
    const DEFAULT: usize = 0;
    const IGNORE: usize = 1;

    /// The name of the file under work.
    static PART: AtomicPtr<c_char> = AtomicPtr::new(null_mut());

    unsafe extern "C" {
        fn signal(number: c_int, handler: usize) -> usize;
        fn unlink(path: *const c_char) -> c_int;
        fn raise(number: c_int) -> c_int;
    }

    /// The name is leaked, so that a signal never finds one that is gone.
    pub fn remember(path: &Path) {
        if let Ok(name) = CString::new(path.as_os_str().as_bytes()) {
            PART.store(name.into_raw(), Ordering::SeqCst);
        }
    }

    pub fn forget() {
        PART.store(null_mut(), Ordering::SeqCst);
    }

    /// Remove the file under work, and end as the signal would have ended the program.
    extern "C" fn end(number: c_int) {
        let part = PART.load(Ordering::SeqCst);
        // SAFETY: the three calls may be made in a handler; the name is a C string that is never freed.
        unsafe {
            if !part.is_null() {
                unlink(part);
            }
            signal(number, DEFAULT);
            raise(number);
        }
    }

    /// From now on a signal that ends the program removes the file under work. A signal that is ignored stays so.
    pub fn catch() {
        for number in SIGNALS {
            // SAFETY: the handler has the signature that `signal` asks for and is always there.
            unsafe {
                if signal(number, end as *const () as usize) == IGNORE {
                    signal(number, IGNORE);
                }
            }
        }
    }
}

#[cfg(not(unix))]
mod signals {
    pub fn remember(_: &std::path::Path) {}
    pub fn forget() {}
    pub fn catch() {}
}

#[cfg(test)]
mod tests {
    use super::PartFile;
    use std::path::Path;

    #[test]
    fn parts_of_one_file_have_two_names_and_go() {
        let place = std::env::temp_dir().join("geoid-part-file-test");
        let (first, second) = (PartFile::beside(&place).unwrap(), PartFile::beside(&place).unwrap());
        let paths = [first.path.clone(), second.path.clone()];
        assert!(paths[0] != paths[1] && paths.iter().all(|path| path.exists()));
        drop((first, second));
        assert!(!paths.iter().any(|path| path.exists()));
        assert!(PartFile::beside(Path::new("no/such/folder/x")).is_err());
    }
}
