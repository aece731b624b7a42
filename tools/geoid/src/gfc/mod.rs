//! The ICGEM text format (`.gfc`): Barthelmes & Förste, The ICGEM-format (2011), and its version 2.0.
//!
//! A head of `key value` lines ends with `end_of_head`; then each pair of coefficients has a line
//! `gfc n m C S [sigmas]`, or lines `gfct`, `trnd`, `acos`, `asin` where it changes with time. Numbers may
//! have Fortran's `D` exponents. Standard deviations are counted and checked but not kept: the library's
//! field has no place for them.

mod data;
mod epoch;
mod head;
mod number;
mod write;

use data::Pairs;
pub use number::{number, whole};
pub use write::write;

use crate::field_file::{Choices, FieldFile};
use crate::text::{Fault, check_end};

/// Whether a text has the line that ends an ICGEM head.
pub fn is_gfc(text: &str) -> bool {
    text.lines().any(|line| head::is_end(line.trim_start()))
}

/// Read a file's text. Every fault names the line, what was found and what was expected.
pub fn read(text: &str, choices: &Choices) -> Result<FieldFile, Fault> {
    let (head, end) = head::read(text)?;
    check_end(text)?;
    let Pairs { table, moved, doubt } = data::read(&head, text, end, choices.epoch)?;
    let (mut field, mut notes) = table.finish(choices.absent_as_zero)?;
    notes.extend(doubt);
    let epoch = choices.epoch.filter(|_| moved > 0);
    if epoch.is_none() {
        notes.extend(choices.unused_epoch());
    }
    field.date = epoch.map(|epoch| epoch.days());
    let time = epoch.map(|epoch| format!("{epoch} (the {moved} pairs that change with time)"));
    Ok(FieldFile { field, name: head.name, time, dating: epoch.map(|_| "the day of --epoch"), span: None, notes })
}
