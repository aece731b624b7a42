//! The head: everything up to `end_of_head`.

use std::collections::HashMap;

use geopotential::{MAX_DEGREE, TideSystem};

use super::number::{number, whole};
use crate::text::Fault;

/// What the head says of the field.
pub struct Head {
    pub name: Option<String>,
    pub gm: f64,
    pub radius: f64,
    pub max_degree: usize,
    pub tide_system: TideSystem,
    /// The standard deviations of a line; where the head is silent, those of the first line.
    pub sigmas: Option<usize>,
    /// Whether lines that change with time have intervals (version 2.0).
    pub intervals: bool,
}

/// The keys that are read; a head may have others, and free text.
const KEYS: [&str; 9] =
    ["product_type", "modelname", "earth_gravity_constant", "radius", "max_degree", "norm", "tide_system", "errors", "format"];
/// Another word for a key, for models of other bodies.
const GRAVITY_CONSTANT: &str = "gravity_constant";

/// The values of `errors`, with the numbers behind C and S that each asks for.
const ERRORS: [(&str, usize); 4] = [("no", 0), ("calibrated", 2), ("formal", 2), ("calibrated_and_formal", 4)];

/// A key's value and the number of its line.
type Values<'a> = HashMap<&'static str, (usize, &'a str)>;

/// The head, and the number of the line that ends it.
pub fn read(text: &str) -> Result<(Head, usize), Fault> {
    let (values, end) = values(text)?;
    word(&values, "product_type", &["gravity_field"])?;
    word(&values, "norm", &["fully_normalized"])?;
    let errors = word(&values, "errors", &ERRORS.map(|(name, _)| name))?;
    let head = Head {
        name: values.get("modelname").map(|(_, name)| name.to_string()).filter(|name| !name.is_empty()),
        gm: required(&values, end, "earth_gravity_constant", number)?,
        radius: required(&values, end, "radius", number)?,
        max_degree: required(&values, end, "max_degree", degree)?,
        tide_system: tide_system(&values)?,
        sigmas: errors.map(|place| ERRORS[place].1),
        intervals: intervals(&values)?,
    };
    Ok((head, end))
}

/// Whether a line's front ends a head.
pub fn is_end(line: &str) -> bool {
    begins(line, "end_of_head")
}

fn begins(line: &str, word: &str) -> bool {
    line.get(..word.len()).is_some_and(|front| front.eq_ignore_ascii_case(word))
}

/// The values of the keys. Lines before `begin_of_head`, where there is one, are free text.
fn values(text: &str) -> Result<(Values<'_>, usize), Fault> {
    let lines = || (1..).zip(text.lines().map(str::trim_start));
    let Some((end, _)) = lines().find(|(_, line)| is_end(line)) else {
        let what = "the file stops before 'end_of_head'; expected an ICGEM head (a model file begins with the byte 1 or 4)";
        return Err(Fault::at(text.lines().count().max(1), what));
    };
    let begin = lines().take(end).find(|(_, line)| begins(line, "begin_of_head")).map_or(0, |(number, _)| number);
    let mut values = Values::new();
    for (number, line) in lines().take(end).skip(begin) {
        let mut words = line.split_whitespace();
        let Some(key) = words.next().and_then(key) else { continue };
        if let Some((first, _)) = values.insert(key, (number, words.next().unwrap_or(""))) {
            let what = format!("the key '{key}' is given a second time (first in line {first}); expected each key once");
            return Err(Fault::at(number, what));
        }
    }
    Ok((values, end))
}

/// The key that a word is, in small or capital letters.
fn key(word: &str) -> Option<&'static str> {
    let word = if word.eq_ignore_ascii_case(GRAVITY_CONSTANT) { "earth_gravity_constant" } else { word };
    KEYS.into_iter().find(|key| key.eq_ignore_ascii_case(word))
}

/// A key that must be there, by its own reader.
fn required<T>(values: &Values, end: usize, key: &str, read: fn(&str) -> Result<T, String>) -> Result<T, Fault> {
    match values.get(key) {
        None => Err(Fault::at(end, format!("the head ends without the key '{key}'; expected a line '{key} VALUE'"))),
        Some(&(line, value)) => read(value).map_err(|what| Fault::at(line, format!("{key}: {what}"))),
    }
}

/// A key that may be absent, and otherwise has one of some words: which of them.
fn word(values: &Values, key: &str, expected: &[&str]) -> Result<Option<usize>, Fault> {
    let Some(&(line, value)) = values.get(key) else { return Ok(None) };
    match expected.iter().position(|word| word.eq_ignore_ascii_case(value)) {
        Some(place) => Ok(Some(place)),
        None => Err(Fault::at(line, format!("{key} is '{value}'; expected {}", expected.join(" or ")))),
    }
}

/// Whether the format is version 2.0; a line that begins with `format` and names none is free text.
fn intervals(values: &Values) -> Result<bool, Fault> {
    match values.get("format") {
        Some((_, value)) if begins(value, "icgem") => Ok(word(values, "format", &["icgem1.0", "icgem2.0"])? == Some(1)),
        _ => Ok(false),
    }
}

fn degree(text: &str) -> Result<usize, String> {
    match whole(text)? {
        degree if degree <= MAX_DEGREE => Ok(degree),
        degree => Err(format!("degree {degree} is above the library's limit; expected at most {MAX_DEGREE}")),
    }
}

fn tide_system(values: &Values) -> Result<TideSystem, Fault> {
    let found = word(values, "tide_system", &["tide_free", "zero_tide", "mean_tide", "unknown"])?;
    Ok(match found {
        Some(0) => TideSystem::TideFree,
        Some(1) => TideSystem::ZeroTide,
        Some(2) => TideSystem::MeanTide,
        _ => TideSystem::Unknown,
    })
}
