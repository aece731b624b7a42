//! The lines behind the head: a pair of coefficients each, or a part of one that changes with time.

use geopotential::Coefficients;

use super::epoch::Moving;
use super::head::Head;
use super::number::{number, whole};
use crate::date::Date;
use crate::pair_table::PairTable;
use crate::progress::Progress;
use crate::text::Fault;

/// What a line's keyword says of its numbers.
#[derive(Clone, Copy, Debug, PartialEq, Eq, Hash)]
pub enum Kind {
    /// A pair that does not change.
    Still,
    /// A pair at its epoch.
    Base,
    /// What a pair gains in a year.
    Trend,
    Cosine,
    Sine,
}

const KEYWORDS: [(&str, Kind); 6] =
    [("gfc", Kind::Still), ("gfct", Kind::Base), ("trnd", Kind::Trend), ("dot", Kind::Trend), ("acos", Kind::Cosine), ("asin", Kind::Sine)];

/// A line: its place, its two numbers, and the words behind its standard deviations.
pub struct Record<'a> {
    pub line: usize,
    pub keyword: &'a str,
    pub kind: Kind,
    pub pair: (usize, usize),
    pub values: (f64, f64),
    pub times: Vec<&'a str>,
}

/// The pairs of a text, how many of them change with time, and what is doubtful about those.
pub struct Pairs {
    pub table: PairTable,
    pub moved: usize,
    pub doubt: Option<String>,
}

/// Read the pairs behind line `end`, those that change with time as they are at the epoch.
pub fn read(head: &Head, text: &str, end: usize, epoch: Option<Date>) -> Result<Pairs, Fault> {
    let mut field =
        Coefficients::try_zeros(head.gm, head.radius, head.max_degree).map_err(|refusal| Fault::at(end, refusal.to_string()))?;
    field.tide_system = head.tide_system;
    let mut table = PairTable::new(field);
    let mut moving = Moving::new(head.intervals, epoch);
    let mut sigmas = head.sigmas;
    let mut ends_moving = false;
    let mut progress = Progress::new("reading pairs", table.pairs());
    for (line, content) in (1..).zip(text.lines()).skip(end) {
        let Some(record) = record(line, content, head, &mut sigmas).map_err(|what| Fault::at(line, what))? else { continue };
        ends_moving = record.kind != Kind::Still;
        match record.kind {
            Kind::Still => table.put(record.pair, record.values, line)?,
            _ => moving.keep(&record).map_err(|what| Fault::at(line, what))?,
        }
        progress.advance(1);
    }
    let doubt = moving.doubt().filter(|_| ends_moving);
    let moved = moving.put_into(&mut table)?;
    Ok(Pairs { table, moved, doubt })
}

/// The numbers of a line of some kind that stand behind its standard deviations.
fn times(kind: Kind, intervals: bool) -> usize {
    match (kind, intervals) {
        (Kind::Still, _) | (Kind::Trend, false) => 0,
        (_, false) => 1,
        (Kind::Base | Kind::Trend, true) => 2,
        (Kind::Cosine | Kind::Sine, true) => 3,
    }
}

/// The record of a line; an empty line has none. The first line says how many standard deviations each
/// line has where the head does not.
fn record<'a>(line: usize, content: &'a str, head: &Head, sigmas: &mut Option<usize>) -> Result<Option<Record<'a>>, String> {
    let mut words = content.split_whitespace();
    let Some(keyword) = words.next() else { return Ok(None) };
    let Some((_, kind)) = KEYWORDS.into_iter().find(|(name, _)| name.eq_ignore_ascii_case(keyword)) else {
        return Err(format!("'{keyword}' is no keyword of a data line; expected 'gfc n m C S'"));
    };
    let mut index = |name: &str| whole(words.next().ok_or_else(|| format!("{name} is missing; expected '{keyword} n m C S'"))?);
    let pair = checked((index("the degree n")?, index("the order m")?), head.max_degree)?;
    let rest: Vec<&str> = words.collect();
    let behind = times(kind, head.intervals);
    let due = sigmas.unwrap_or_else(|| sigmas_of(rest.len().saturating_sub(behind)));
    if rest.len() != 2 + due + behind {
        let rule = if head.sigmas.is_some() { "by the head's 'errors'" } else { "as in the first line" };
        return Err(miscounted(rest.len(), due, behind, rule));
    }
    *sigmas = Some(due);
    let (numbers, times) = rest.split_at(2 + due);
    let numbers = numbers.iter().map(|word| number(word)).collect::<Result<Vec<f64>, String>>()?;
    Ok(Some(Record { line, keyword, kind, pair, values: (numbers[0], numbers[1]), times: times.to_vec() }))
}

/// The standard deviations of a line with so many numbers, where the head does not tell.
fn sigmas_of(numbers: usize) -> usize {
    match numbers {
        0..=2 => 0,
        3..=4 => 2,
        _ => 4,
    }
}

fn miscounted(found: usize, sigmas: usize, behind: usize, rule: &str) -> String {
    let mut parts = vec!["C, S".to_string()];
    if sigmas > 0 {
        parts.push(format!("{sigmas} standard deviations"));
    }
    if behind > 0 {
        parts.push(format!("{behind} for the time"));
    }
    format!("{found} numbers behind n and m; expected {} {rule}: {}", 2 + sigmas + behind, parts.join(", "))
}

/// A degree and an order, if there is such a pair in the field.
fn checked((n, m): (usize, usize), max_degree: usize) -> Result<(usize, usize), String> {
    if n > max_degree {
        return Err(format!("degree {n} is above the head's max_degree; expected n from 0 to {max_degree}"));
    }
    if m > n {
        return Err(format!("order {m} is above degree {n}; expected m from 0 to n"));
    }
    Ok((n, m))
}
