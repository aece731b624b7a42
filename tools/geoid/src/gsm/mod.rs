//! Monthly fields of GRACE and GRACE-FO: the text of release 06 (`GSM-2_...`), a head in YAML and behind it
//! a line `GRCOF2 n m C S sigmaC sigmaS begin end flags` for each pair.

mod head;

use geopotential::Coefficients;
use head::{Coverage, Head};

use crate::date::Date;
use crate::field_file::{Choices, FieldFile};
use crate::gfc::{number, whole};
use crate::pair_table::PairTable;
use crate::span::Span;
use crate::text::{Fault, check_end};

/// The keyword of a pair's line, and the words behind it.
const PAIR: &str = "GRCOF2";
const WORDS: usize = 9;

/// What a date is by.
const BY_HEAD: &str = "the day in the middle of its head's span";
const BY_LINES: &str = "the day in the middle of its lines' span";

/// Whether a text has the line that ends the head.
pub fn is_gsm(text: &str) -> bool {
    text.lines().any(head::is_end)
}

/// Read a file's text.
pub fn read(text: &str, choices: &Choices) -> Result<FieldFile, Fault> {
    let (head, end) = head::read(text)?;
    check_end(text)?;
    let mut table = PairTable::new(empty(&head).map_err(|what| Fault::at(end, what))?);
    let mut lines: Option<Span> = None;
    for (line, content) in (1..).zip(text.lines()).skip(end) {
        let Some(record) = record(content, &head).map_err(|what| Fault::at(line, what))? else { continue };
        table.put(record.pair, record.values, line)?;
        lines = Some(lines.map_or(record.span, |span| span.joined(record.span)));
    }
    let (mut field, mut notes) = table.finish(choices.absent_as_zero)?;
    notes.extend(choices.unused_epoch());
    let stated = supported(head.coverage, lines, &mut notes);
    let by_head = stated.as_ref().and_then(|coverage| coverage.span).map(|span| (span, BY_HEAD));
    let (span, dating) = by_head.or(lines.map(|span| (span, BY_LINES))).unzip();
    field.date = span.map(|span| span.middle().days());
    let time = stated.map(|coverage| coverage.words).or(lines.map(|span| span.line()));
    Ok(FieldFile { field, name: head.name, time, dating, span: lines, notes })
}

/// What the head states, unless the lines speak against it: the middle of it would be a date that no line supports.
fn supported(stated: Option<Coverage>, lines: Option<Span>, notes: &mut Vec<String>) -> Option<Coverage> {
    let stated = stated?;
    match (stated.span, lines) {
        (Some(span), Some(lines)) if !lines.holds(span.middle()) => {
            notes.push(format!("its head says {}, but its lines are of {}, which are taken", stated.words, lines.line()));
            None
        }
        _ => Some(stated),
    }
}

fn empty(head: &Head) -> Result<Coefficients, String> {
    let mut field = Coefficients::try_zeros(head.gm, head.radius, head.max_degree).map_err(|refusal| refusal.to_string())?;
    field.tide_system = head.tide_system;
    Ok(field)
}

/// A line: its place, its two numbers and the time that they are the mean of.
struct Record {
    pair: (usize, usize),
    values: (f64, f64),
    span: Span,
}

/// The record of a line; an empty line has none.
fn record(content: &str, head: &Head) -> Result<Option<Record>, String> {
    let words: Vec<&str> = content.split_whitespace().collect();
    let Some((&keyword, words)) = words.split_first() else { return Ok(None) };
    if !keyword.eq_ignore_ascii_case(PAIR) {
        return Err(format!("'{keyword}' is no keyword of a data line; expected '{PAIR}'"));
    }
    let [n, m, c, s, sigma_c, sigma_s, begin, end, _flags] = words[..] else {
        let expected = format!("'{PAIR} n m C S sigmaC sigmaS begin end flags'");
        return Err(format!("{} words behind {PAIR}; expected {WORDS}: {expected}", words.len()));
    };
    let (n, m) = (whole(n)?, whole(m)?);
    if n > head.max_degree || m > n {
        return Err(format!("the pair ({n}, {m}) is outside the head's dimensions; expected m <= n <= {}", head.max_degree));
    }
    number(sigma_c)?;
    number(sigma_s)?;
    let span = Span::new(Date::compact(begin)?, Date::compact(end)?)?;
    Ok(Some(Record { pair: (n, m), values: (number(c)?, number(s)?), span }))
}
