//! The date of a field, a count of days from 2000-01-01: how it is shown, and the option that gives one.

use crate::arguments::{Arguments, Opt};
use crate::day::Day;
use crate::error::Error;

const NAME: &str = "--date";
/// The value that takes a date away.
const NONE: &str = "none";

/// The option that gives a field a date; each command has its own words for what goes without it.
pub const fn option(help: &'static str) -> Opt {
    Opt { name: NAME, value: "YYYY-MM-DD|none", help }
}

/// What the option says: nothing, that there is no date, or which one.
pub fn wished(arguments: &Arguments) -> Result<Option<Option<i32>>, Error> {
    match arguments.text(NAME)? {
        None => Ok(None),
        Some(NONE) => Ok(Some(None)),
        Some(text) => parsed(text).map(|date| Some(Some(date))),
    }
}

fn parsed(text: &str) -> Result<i32, Error> {
    let wrong = |what: String| Error::usage(format!("{NAME} is '{text}'{what}"));
    let day = Day::parse(text).ok_or_else(|| wrong(Day::fault(text, &format!("YYYY-MM-DD or {NONE}"))))?;
    let [first, last] = [i32::MIN, i32::MAX].map(shown);
    i32::try_from(day.count()).map_err(|_| wrong(format!("; expected a day from {first} to {last}")))
}

/// The day of a date.
pub fn shown(date: i32) -> String {
    Day::of_count(date.into()).to_string()
}
