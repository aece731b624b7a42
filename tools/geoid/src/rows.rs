//! Pieces of a grid: some rows of it in a file, from which the whole is put together.
//!
//! A piece has 40 bytes of head (the mark, the grid's fingerprint, its first row, its rows and columns,
//! little-endian) and then its values, 8 bytes each.

use std::ops::Range;
use std::path::{Path, PathBuf};

use crate::error::Error;
use crate::output::{read_whole, write_with};

const MARK: &[u8; 8] = b"geoidrow";
const HEAD: usize = 40;

/// A grid of which pieces are made: what tells it from every other, and its size.
#[derive(Clone, Copy)]
pub struct Whole {
    pub fingerprint: u64,
    pub rows: usize,
    pub columns: usize,
}

/// The rows of an option's value, `FROM/TO`, counted from 1 in the north; TO may lie behind the last.
pub fn parse(text: &str, rows: usize) -> Result<Range<usize>, Error> {
    let numbers: Option<Vec<usize>> = text.split('/').map(|part| part.trim().parse().ok()).collect();
    match numbers.as_deref() {
        Some(&[from, to]) if 1 <= from && from <= to && from <= rows => Ok(from - 1..to.min(rows)),
        _ => Err(Error::usage(format!(
            "--rows is '{text}'; expected FROM/TO with 1 <= FROM <= TO, rows of the grid's {rows} from the north"
        ))),
    }
}

/// Write the values of some rows.
pub fn write(path: &Path, whole: Whole, rows: Range<usize>, values: &[f64]) -> Result<(), Error> {
    write_with(path, |out| {
        out.write_all(MARK)?;
        for number in [whole.fingerprint, rows.start as u64, rows.len() as u64, whole.columns as u64] {
            out.write_all(&number.to_le_bytes())?;
        }
        values.iter().try_for_each(|value| out.write_all(&value.to_le_bytes()))
    })
}

/// The values of the whole grid, from the pieces in a folder: each row once.
pub fn join(folder: &Path, whole: Whole) -> Result<Vec<f64>, Error> {
    let mut values = vec![0.0; whole.rows * whole.columns];
    let mut owners: Vec<Option<usize>> = vec![None; whole.rows];
    let paths = pieces_of(folder)?;
    for (piece, path) in paths.iter().enumerate() {
        let (rows, numbers) = read(path, whole)?;
        for row in rows.clone() {
            if let Some(other) = owners[row].replace(piece) {
                return Err(Error::in_file(path, format!("has row {}, which {} has too", row + 1, paths[other].display())));
            }
        }
        let start = rows.start * whole.columns;
        values[start..start + numbers.len()].copy_from_slice(&numbers);
    }
    match owners.iter().position(Option::is_none) {
        None => Ok(values),
        Some(row) => {
            let absent = owners.iter().filter(|owner| owner.is_none()).count();
            Err(Error::in_file(folder, format!("{absent} of the grid's {} rows are in no piece, the first is row {}", whole.rows, row + 1)))
        }
    }
}

/// The files of a folder whose names end with `.rows`, by name.
fn pieces_of(folder: &Path) -> Result<Vec<PathBuf>, Error> {
    let failed = |error| Error::in_file(folder, format!("cannot be read: {error}"));
    let mut paths = Vec::new();
    for entry in std::fs::read_dir(folder).map_err(failed)? {
        let path = entry.map_err(failed)?.path();
        if path.extension().is_some_and(|extension| extension == "rows") {
            paths.push(path);
        }
    }
    paths.sort();
    Ok(paths)
}

/// The rows of a piece and their values.
fn read(path: &Path, whole: Whole) -> Result<(Range<usize>, Vec<f64>), Error> {
    let bytes = read_whole(path)?;
    let (head, values) = bytes.split_at_checked(HEAD).ok_or_else(|| Error::in_file(path, "ends early; expected a piece of a grid"))?;
    let (mark, numbers) = head.split_at(MARK.len());
    if mark != MARK {
        return Err(Error::in_file(path, "is no piece of a grid"));
    }
    let numbers: Vec<u64> = numbers.as_chunks().0.iter().map(|&bytes| u64::from_le_bytes(bytes)).collect();
    if numbers[0] != whole.fingerprint || numbers[3] != whole.columns as u64 {
        return Err(Error::in_file(path, "is a piece of another grid: of another field or of other options"));
    }
    let rows = numbers[1].checked_add(numbers[2]).filter(|&end| end <= whole.rows as u64).map(|end| numbers[1] as usize..end as usize);
    match rows {
        Some(rows) if values.len() == rows.len() * whole.columns * 8 => {
            Ok((rows, values.as_chunks().0.iter().map(|&bytes| f64::from_le_bytes(bytes)).collect()))
        }
        _ => Err(Error::in_file(path, "has not the length that its head tells")),
    }
}

/// FNV-1a over some parts, each with its length before it.
pub fn fingerprint<'a>(parts: impl IntoIterator<Item = &'a [u8]>) -> u64 {
    let mut hash = 0xcbf2_9ce4_8422_2325u64;
    let mut take = |byte: u8| hash = (hash ^ u64::from(byte)).wrapping_mul(0x0000_0100_0000_01b3);
    for part in parts {
        (part.len() as u64).to_le_bytes().into_iter().for_each(&mut take);
        part.iter().copied().for_each(&mut take);
    }
    hash
}

#[cfg(test)]
mod tests {
    use super::*;

    #[test]
    fn rows_are_counted_from_one() {
        assert_eq!(parse("1/10", 181).unwrap(), 0..10);
        assert_eq!(parse("181/999", 181).unwrap(), 180..181);
        for wrong in ["0/1", "2/1", "182/182", "1", "1/2/3", "a/b", "-1/2"] {
            assert!(parse(wrong, 181).is_err(), "{wrong}");
        }
    }

    #[test]
    fn fingerprints_tell_parts_apart() {
        // FNV-1a's own value for no bytes, and two cuts of the same bytes.
        assert_eq!(fingerprint([]), 0xcbf2_9ce4_8422_2325);
        assert_ne!(fingerprint([&b"ab"[..], b"c"]), fingerprint([&b"a"[..], b"bc"]));
    }
}
