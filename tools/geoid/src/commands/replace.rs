//! `geoid replace`: the coefficients that GRACE sees poorly, from its technical notes.

use std::fmt::Write;
use std::path::Path;

use geopotential::Coefficients;

use super::{ABSENT_AS_ZERO, Command, EPOCH, field_file};
use crate::arguments::{Arguments, Opt};
use crate::body::{ANY_BODY, is_difference};
use crate::dating::shown;
use crate::difference::TIDE_AS_IS;
use crate::error::Error;
use crate::field_file::{FieldFile, save};
use crate::technical_note::{Entry, When, load_13, load_14, pick};

/// GRACE's own constants, which the notes' coefficients belong to.
const GM: f64 = 3.986004415e14;
const RADIUS: f64 = 6378136.3;
/// The permanent tide is 4.2e-9 of C(2,0), what GRACE gets wrong of it some 1e-10.
const TIDE: f64 = 2e-9;

pub const COMMAND: Command = Command {
    name: "replace",
    summary: "C(2,0), C(3,0) and degree 1 of a month, from GRACE's technical notes 13 and 14",
    usage: "IN OUT [--month YYYY-MM] [--c20 FILE] [--c30 FILE] [--degree1 FILE]",
    operands: &["IN", "OUT"],
    options: &[
        Opt {
            name: "--month",
            value: "YYYY-MM",
            help: "the month of IN: the solution whose middle lies in it; or YYYY-MM-DD, a day in the solution;\ndefault the solution whose middle is less than a week from that of IN's own days, which a monthly\ntext of GRACE tells, or else from the date of IN",
        },
        Opt { name: "--c20", value: "FILE", help: "C(2,0) from a file of technical note 14" },
        Opt { name: "--c30", value: "FILE", help: "C(3,0) from a file of technical note 14" },
        Opt { name: "--degree1", value: "FILE", help: "C(1,0), C(1,1) and S(1,1) from a file of technical note 13" },
        Opt { name: TIDE_AS_IS.name, value: "", help: "take a C(2,0) that differs from IN's by as much as the permanent tide" },
        ABSENT_AS_ZERO,
        EPOCH,
        ANY_BODY,
    ],
    details: "IN is a month itself, not a difference (replace first, then subtract). The notes' values belong to GRACE's GM\n\
              3.986004415e14 and radius 6378136.3; the library expresses them with IN's. The answer has a line for each\n\
              coefficient, with the value before and the new one. A month that a file lacks, has twice or calls NaN is\n\
              refused. OUT has the date of IN, as geoid convert finds it: a --month is refused where that date is neither\n\
              a day of it nor of the solution, nor less than a week from the solution's middle.\n",
    run,
};

fn run(arguments: &Arguments) -> Result<String, Error> {
    let named = arguments.text("--month")?.map(When::parse).transpose()?;
    let (from, to) = (arguments.operand(0), arguments.operand(1));
    let file = field_file(arguments, from)?;
    let when = named.map_or_else(|| own_days(from, &file), Ok)?;
    let entries = entries(arguments, when)?;
    let mut field = file.field;
    if is_difference(&field)? {
        return Err(Error::in_file(
            from,
            "its C(0,0) is about 0, as of a difference of fields; expected a month itself (replace first, then subtract)",
        ));
    }
    let mut text = String::new();
    for entry in &entries {
        if entry.n > field.max_degree() {
            return Err(Error::in_file(from, format!("has degree {}; C({},0) has no place in it", field.max_degree(), entry.n)));
        }
        check_date(from, field.date, when, entry)?;
        let new = expressed(entry, &field)?;
        check_tide(from, &field, &new, arguments.has(TIDE_AS_IS.name))?;
        put(&mut field, &new, &mut text)?;
    }
    save(to, &field)?;
    Ok(format!("{}: degree {}, solution of {}\n{text}", to.display(), field.max_degree(), entries[0].span.line()))
}

/// The days that a month's own file tells, or the one in their middle that it states as its date.
fn own_days(path: &Path, file: &FieldFile) -> Result<When, Error> {
    match (file.span, file.field.date) {
        (Some(span), _) => Ok(When::Like(span)),
        (None, Some(date)) => Ok(When::Dated(date)),
        (None, None) => Err(Error::in_file(path, "does not tell its month; expected --month YYYY-MM")),
    }
}

/// The entries that the options ask for.
fn entries(arguments: &Arguments, when: When) -> Result<Vec<Entry>, Error> {
    let mut entries = Vec::new();
    if let Some(path) = arguments.path("--degree1") {
        let note = load_13(path)?;
        for place in [(1, 0), (1, 1)] {
            entries.push(pick(path, &note, place, when)?);
        }
    }
    for (option, place) in [("--c20", (2, 0)), ("--c30", (3, 0))] {
        if let Some(path) = arguments.path(option) {
            entries.push(pick(path, &load_14(path)?, place, when)?);
        }
    }
    if entries.is_empty() {
        return Err(Error::usage("nothing to replace; expected --c20, --c30 or --degree1"));
    }
    Ok(entries)
}

/// An entry with a field's own GM and radius.
fn expressed(entry: &Entry, field: &Coefficients) -> Result<Entry, Error> {
    let mut alone = Coefficients::try_zeros(GM, RADIUS, entry.n)?;
    alone.try_set(entry.n, entry.m, entry.c, entry.s)?;
    let alone = alone.rescaled(field.gm, field.radius);
    Ok(Entry { c: alone.try_c(entry.n, entry.m)?, s: alone.try_s(entry.n, entry.m)?, ..*entry })
}

/// OUT keeps the date of IN: with coefficients of another time it would state what is not so.
fn check_date(path: &Path, date: Option<i32>, when: When, entry: &Entry) -> Result<(), Error> {
    let Some(date) = date.filter(|&date| !when.suits(date, entry.span)) else { return Ok(()) };
    Err(Error::in_file(
        path,
        format!(
            "its date is {}, but the solution for --month {when} is that of {}; expected a --month about its date, or another date by geoid convert --date first",
            shown(date),
            entry.span.line()
        ),
    ))
}

/// A C(2,0) of another tide system would be a wrong number that nobody sees.
fn check_tide(path: &Path, field: &Coefficients, new: &Entry, as_is: bool) -> Result<(), Error> {
    let old = field.try_c(new.n, 0)?;
    if as_is || new.n != 2 || (new.c - old).abs() <= TIDE {
        return Ok(());
    }
    Err(Error::in_file(
        path,
        format!(
            "its C(2,0) is {old:e}, the note's {:e}: {:.1e} apart, as much as the permanent tide (4.2e-9) or more: another tide system? --tide-as-is takes it",
            new.c,
            (new.c - old).abs()
        ),
    ))
}

/// Put an entry in its place, and tell what stood there.
fn put(field: &mut Coefficients, new: &Entry, text: &mut String) -> Result<(), Error> {
    let (n, m) = (new.n, new.m);
    let (c, s) = (field.try_c(n, m)?, field.try_s(n, m)?);
    let _ = writeln!(text, "C({n},{m})  {c:e} -> {:e}", new.c);
    if m > 0 {
        let _ = writeln!(text, "S({n},{m})  {s:e} -> {:e}", new.s);
    }
    field.try_set(n, m, new.c, if m > 0 { new.s } else { s })?;
    Ok(())
}
