//! The head: the few lines of its YAML that say what the field is.

use geopotential::{MAX_DEGREE, TideSystem};

use crate::date::Date;
use crate::gfc::{number, whole};
use crate::span::Span;
use crate::text::Fault;

/// What the head says of the field.
pub struct Head {
    pub name: Option<String>,
    pub gm: f64,
    pub radius: f64,
    pub max_degree: usize,
    pub tide_system: TideSystem,
    pub coverage: Option<Coverage>,
}

/// The time that the head says the field is the mean of.
pub struct Coverage {
    /// In the head's words.
    pub words: String,
    /// Its days, where its two ends are written as times.
    pub span: Option<Span>,
}

/// A key with those above it (`a/b/c`), its value and the number of its line.
struct Entry<'a> {
    path: String,
    value: &'a str,
    line: usize,
}

/// What ends a head, behind a `#`.
const END: &str = "end of yaml header";

/// Whether a line ends a head.
pub fn is_end(line: &str) -> bool {
    line.trim_start_matches(['#', ' ']).get(..END.len()).is_some_and(|front| front.eq_ignore_ascii_case(END))
}

/// The head, and the number of the line that ends it.
pub fn read(text: &str) -> Result<(Head, usize), Fault> {
    let end = 1 + text.lines().take_while(|line| !is_end(line)).count();
    let entries = entries(text, end);
    normalized(&entries)?;
    let head = Head {
        name: find(&entries, "product_name").or_else(|| find(&entries, "title")).map(|entry| entry.value.to_string()),
        gm: required(&entries, end, "earth_gravity_param/value", number)?,
        radius: required(&entries, end, "mean_equator_radius/value", number)?,
        max_degree: required(&entries, end, "dimensions/degree", degree)?,
        tide_system: tide_system(&entries)?,
        coverage: coverage(&entries)?,
    };
    Ok((head, end))
}

/// The keys before line `end`. A key belongs to the last one above it that is indented less.
fn entries(text: &str, end: usize) -> Vec<Entry<'_>> {
    let mut above: Vec<(usize, &str)> = Vec::new();
    let mut entries = Vec::new();
    for (line, content) in (1..end).zip(text.lines()) {
        let indent = content.len() - content.trim_start().len();
        let Some((key, value)) = content.split_once(':') else { continue };
        above.retain(|&(other, _)| other < indent);
        above.push((indent, key.trim()));
        let path = above.iter().map(|(_, key)| *key).collect::<Vec<_>>().join("/");
        entries.push(Entry { path, value: value.trim().trim_matches(['"', '\'']), line });
    }
    entries
}

/// The entry of a key, by the end of its path.
fn find<'a, 'b>(entries: &'b [Entry<'a>], key: &str) -> Option<&'b Entry<'a>> {
    entries.iter().find(|entry| entry.path == key || entry.path.strip_suffix(key).is_some_and(|front| front.ends_with('/')))
}

fn required<T>(entries: &[Entry], end: usize, key: &str, read: fn(&str) -> Result<T, String>) -> Result<T, Fault> {
    match find(entries, key) {
        None => Err(Fault::at(end, format!("the head ends without '{key}'; expected the head of a release 06 field"))),
        Some(entry) => read(entry.value).map_err(|what| Fault::at(entry.line, format!("{key}: {what}"))),
    }
}

fn degree(text: &str) -> Result<usize, String> {
    match whole(text)? {
        degree if degree <= MAX_DEGREE => Ok(degree),
        degree => Err(format!("degree {degree} is above the library's limit; expected at most {MAX_DEGREE}")),
    }
}

fn normalized(entries: &[Entry]) -> Result<(), Fault> {
    match find(entries, "normalization") {
        Some(entry) if !entry.value.to_ascii_lowercase().starts_with("fully normalized") => {
            Err(Fault::at(entry.line, format!("normalization is '{}'; expected 'fully normalized'", entry.value)))
        }
        _ => Ok(()),
    }
}

/// With the permanent tide's deformation in it a field is zero tide, without it tide-free.
fn tide_system(entries: &[Entry]) -> Result<TideSystem, Fault> {
    let Some(entry) = find(entries, "permanent_tide_flag") else { return Ok(TideSystem::Unknown) };
    match entry.value.to_ascii_lowercase() {
        flag if flag.starts_with("inclusive") => Ok(TideSystem::ZeroTide),
        flag if flag.starts_with("exclusive") => Ok(TideSystem::TideFree),
        _ => Err(Fault::at(entry.line, format!("permanent_tide_flag is '{}'; expected inclusive or exclusive", entry.value))),
    }
}

fn coverage(entries: &[Entry]) -> Result<Option<Coverage>, Fault> {
    let [start, end] = ["time_coverage_start", "time_coverage_end"].map(|key| find(entries, key));
    let Some((start, end)) = start.zip(end) else { return Ok(None) };
    let times = Date::stamp(start.value).zip(Date::stamp(end.value));
    let span = times.map(|(from, to)| Span::new(from, to)).transpose();
    let span = span.map_err(|what| Fault::at(end.line, format!("time_coverage_end: {what}")))?;
    Ok(Some(Coverage { words: format!("{} to {}", start.value, end.value), span }))
}
