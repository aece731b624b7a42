//! Monthly coefficients from the files of GRACE's technical notes 13 (degree 1) and 14 (C(2,0) and C(3,0)).
//!
//! Note 13 has lines `GRCOF2 n m C S sigmaC sigmaS YYYYMMDD.hhmm YYYYMMDD.hhmm` of degree 1; note 14 has a line of ten
//! columns a month: MJD and year at the beginning, C(2,0), its anomaly and sigma, C(3,0), its anomaly and sigma,
//! MJD and year at the end. What stands before is text.

use std::fmt;
use std::path::Path;

use crate::date::Date;
use crate::dating::shown;
use crate::day::Day;
use crate::error::Error;
use crate::gfc::number;
use crate::output::read_whole;
use crate::span::Span;
use crate::text::{Fault, decoded};

/// Solutions that overlap have middles two weeks apart: a field's own days and those of its solution have middles closer than this.
const NEAR_DAYS: f64 = 7.0;

/// A coefficient pair of a solution.
#[derive(Clone, Copy, Debug, PartialEq)]
pub struct Entry {
    pub span: Span,
    pub n: usize,
    pub m: usize,
    pub c: f64,
    pub s: f64,
}

/// Which solution is meant.
#[derive(Clone, Copy, Debug, PartialEq)]
pub enum When {
    /// The one whose middle lies in a month: its first day, and that of the next.
    Month(Date, Date),
    /// The one in which a day lies.
    Day(Date),
    /// The one of about the same days as a field.
    Like(Span),
    /// The one about the date of a field: the day in the middle of its own days.
    Dated(i32),
}

impl When {
    /// What an option's value names: `YYYY-MM`, or a day in the solution, `YYYY-MM-DD`.
    pub fn parse(text: &str) -> Result<When, Error> {
        let day = || Date::parse(text).ok().filter(|_| text.contains('-')).map(When::Day);
        let when = Date::month(text).map(|(first, next)| When::Month(first, next)).or_else(day);
        let day = if text.matches('-').count() == 1 { format!("{text}-01") } else { text.to_string() };
        when.ok_or_else(|| Error::usage(format!("--month is '{text}'{}", Day::fault(&day, "YYYY-MM, or a day YYYY-MM-DD"))))
    }

    fn meets(&self, span: Span) -> bool {
        match *self {
            When::Month(first, next) => (first..next).contains(&span.middle()),
            When::Day(day) => span.holds(day),
            When::Like(own) => is_near(span, own.middle()),
            When::Dated(date) => is_near(span, Date::noon(date)),
        }
    }

    /// Whether a field that states a date may be of the solution that was picked. A date may be any day of the month that was asked
    /// for, or of the solution; what was picked by the field's own days needs no more.
    pub fn suits(&self, date: i32, span: Span) -> bool {
        let noon = Date::noon(date);
        match *self {
            When::Month(first, next) if (first..next).contains(&noon) => true,
            When::Month(..) | When::Day(_) => span.holds(noon) || is_near(span, noon),
            When::Like(_) | When::Dated(_) => true,
        }
    }

    /// How the solution of a field's own days is found, where no option names one.
    fn rule(&self) -> &'static str {
        match self {
            When::Month(..) | When::Day(_) => "",
            When::Like(_) | When::Dated(_) => " (middles less than a week apart; --month names another)",
        }
    }
}

fn is_near(span: Span, middle: Date) -> bool {
    span.middle().days_since(middle).abs() < NEAR_DAYS
}

impl fmt::Display for When {
    fn fmt(&self, f: &mut fmt::Formatter<'_>) -> fmt::Result {
        match self {
            When::Month(first, _) => write!(f, "{:.7}", first.to_string()),
            When::Day(day) => write!(f, "{day}"),
            When::Like(own) => f.write_str(&own.line()),
            When::Dated(date) => f.write_str(&shown(*date)),
        }
    }
}

/// The one entry of a pair of coefficients in a file that meets a month.
pub fn pick(path: &Path, entries: &[Entry], (n, m): (usize, usize), when: When) -> Result<Entry, Error> {
    let all: Vec<&Entry> = entries.iter().filter(|entry| (entry.n, entry.m) == (n, m)).collect();
    let met: Vec<&&Entry> = all.iter().filter(|entry| when.meets(entry.span)).collect();
    match met[..] {
        [entry] if entry.c.is_finite() && entry.s.is_finite() => Ok(**entry),
        [entry] => Err(Error::in_file(path, format!("has no C({n},{m}) for {when} ({}): it says NaN", entry.span.line()))),
        [] => Err(Error::in_file(path, format!("has no C({n},{m}) for {when}{}; {}", when.rule(), reach(&all)))),
        _ => {
            let spans: Vec<String> = met.iter().map(|entry| entry.span.line()).collect();
            Err(Error::in_file(
                path,
                format!("has {} C({n},{m}) for {when} ({}); --month YYYY-MM-DD names a day in one", met.len(), spans.join(", ")),
            ))
        }
    }
}

/// From when to when entries reach.
fn reach(entries: &[&Entry]) -> String {
    match (entries.first(), entries.last()) {
        (Some(first), Some(last)) => format!("its {} solutions are from {} on to {}", entries.len(), first.span.line(), last.span.line()),
        _ => "it has none at all".into(),
    }
}

/// The entries of a file of note 13: degree 1.
pub fn load_13(path: &Path) -> Result<Vec<Entry>, Error> {
    load(path, line_13, "no line 'GRCOF2 1 0 ...'; expected a file of technical note 13")
}

/// The entries of a file of note 14: C(2,0) and C(3,0).
pub fn load_14(path: &Path) -> Result<Vec<Entry>, Error> {
    load(path, line_14, "no line of ten columns that begins with an MJD; expected a file of technical note 14")
}

/// A line's entries; none for a line of text.
type Line = fn(&str) -> Result<Vec<Entry>, String>;

fn load(path: &Path, read: Line, none: &str) -> Result<Vec<Entry>, Error> {
    let bytes = read_whole(path)?;
    let mut entries = Vec::new();
    for (number, line) in (1..).zip(decoded(&bytes).lines()) {
        entries.extend(read(line).map_err(|what| Fault::at(number, what).in_file(path))?);
    }
    if entries.is_empty() { Err(Error::in_file(path, none)) } else { Ok(entries) }
}

fn line_13(line: &str) -> Result<Vec<Entry>, String> {
    let words: Vec<&str> = line.split_whitespace().collect();
    let ["GRCOF2", n, m, c, s, _, _, from, to, ..] = words[..] else {
        return if words.first() == Some(&"GRCOF2") { Err(format!("{} words; expected 9", words.len())) } else { Ok(Vec::new()) };
    };
    let (n, m) = match (n.parse(), m.parse()) {
        (Ok(1), Ok(m @ (0 | 1))) => (1, m),
        _ => return Err(format!("degree {n}, order {m}; expected degree 1")),
    };
    let span = Span::new(Date::compact(from)?, Date::compact(to)?)?;
    Ok(vec![Entry { span, n, m, c: coefficient(c)?, s: coefficient(s)? }])
}

fn line_14(line: &str) -> Result<Vec<Entry>, String> {
    let words: Vec<&str> = line.split_whitespace().collect();
    // Days from 1995 to 2132: no other line begins with such a number.
    if !words.first().and_then(|word| word.parse::<f64>().ok()).is_some_and(|mjd| (50_000.0..100_000.0).contains(&mjd)) {
        return Ok(Vec::new());
    }
    let [from, _, c20, _, _, c30, _, _, to, _] = words[..] else {
        return Err(format!("{} columns; expected 10", words.len()));
    };
    let span = Span::new(Date::of_mjd(number(from)?)?, Date::of_mjd(number(to)?)?)?;
    let entry = |n, text| Ok::<Entry, String>(Entry { span, n, m: 0, c: coefficient(text)?, s: 0.0 });
    Ok(vec![entry(2, c20)?, entry(3, c30)?])
}

/// A number, or NaN where the file says that there is none.
fn coefficient(text: &str) -> Result<f64, String> {
    if text.eq_ignore_ascii_case("nan") { Ok(f64::NAN) } else { number(text) }
}

#[cfg(test)]
mod tests {
    use super::*;

    fn when(text: &str) -> When {
        When::parse(text).unwrap()
    }

    #[test]
    fn months_and_days_are_read() {
        assert!(matches!(when("2008-04"), When::Month(..)) && matches!(when("2008-04-30"), When::Day(_)));
        for text in ["2008-04", "2008-04-30"] {
            assert_eq!(when(text).to_string(), text);
        }
        for wrong in ["2008", "2008-4", "2008-13", "2008-02-30", "08-04", "2008-04-01-02", "2008/04", "", "-"] {
            assert!(When::parse(wrong).is_err(), "{wrong}");
        }
        for (text, lack) in [("2008-13", "a year has no month 13"), ("2008-02-30", "2008-02 has no day 30")] {
            assert_eq!(When::parse(text).unwrap_err().to_string(), format!("--month is '{text}': {lack}"));
        }
    }

    fn span(from: &str, to: &str) -> Span {
        Span::new(Date::parse(from).unwrap(), Date::parse(to).unwrap()).unwrap()
    }

    fn date(text: &str) -> i32 {
        Date::parse(text).unwrap().days()
    }

    #[test]
    fn a_month_has_the_solution_whose_middle_is_in_it() {
        let december = span("2011-12-13", "2012-01-10");
        assert!(when("2011-12").meets(december) && !when("2012-01").meets(december));
        assert!(when("2012-01-09").meets(december) && !when("2012-01-10").meets(december));
        assert!(when("2012-12").meets(span("2012-12-01", "2013-01-01")));
        // A field's own days are about those of its solution, and not those of one that overlaps.
        let own = When::Like(span("2011-12-14", "2012-01-11"));
        assert!(own.meets(december) && !own.meets(span("2011-12-28", "2012-01-25")));
    }

    #[test]
    fn a_date_has_the_solution_about_it() {
        // Solutions that overlap, with the dates that their own fields state.
        let [october, november] = [span("2011-10-16", "2011-11-15"), span("2011-10-31", "2011-11-29")];
        for (day, own, other) in [("2011-10-31", october, november), ("2011-11-14", november, october)] {
            assert!(When::Dated(date(day)).meets(own) && !When::Dated(date(day)).meets(other), "{day}");
        }
        assert!(!When::Dated(date("2011-11-07")).meets(october) && !When::Dated(date("2011-11-07")).meets(november));
    }

    #[test]
    fn a_date_suits_its_month_and_its_solution() {
        let short = span("2018-06-09", "2018-06-19");
        let suits = |month, day| when(month).suits(date(day), short);
        // Any day of the month; else a day of the solution, or one less than a week from its middle.
        for day in ["2018-06-01", "2018-06-08", "2018-06-16", "2018-06-30"] {
            assert!(suits("2018-06", day), "{day}");
        }
        for day in ["2018-06-07", "2018-06-09", "2018-06-18", "2018-06-20"] {
            assert!(suits("2018-06-15", day), "{day}");
        }
        for (month, day) in
            [("2018-06", "2018-05-31"), ("2018-06", "2018-07-01"), ("2018-06-15", "2018-06-06"), ("2018-06-15", "2018-06-21")]
        {
            assert!(!suits(month, day), "{month} {day}");
        }
        // A solution that begins before its month, and a date in those days.
        let early = span("2018-05-28", "2018-06-25");
        assert!(when("2018-06").suits(date("2018-05-28"), early) && !when("2018-06").suits(date("2018-05-27"), early));
    }

    #[test]
    fn lines_of_text_are_passed_by() {
        assert_eq!(line_14("1. MJD of beginning of solution span"), Ok(vec![]));
        assert_eq!(line_14("2002 was the first year"), Ok(vec![]));
        assert_eq!(line_14("52368.0 2002.25 -4.84e-4"), Err("3 columns; expected 10".into()));
        assert_eq!(line_13("end of header ======"), Ok(vec![]));
        assert_eq!(line_13("GRCOF2 1 0 1e-10"), Err("4 words; expected 9".into()));
        assert_eq!(line_13("GRCOF2 2 0 1 0 0 0 20020404.0000 20020501.0000"), Err("degree 2, order 0; expected degree 1".into()));
        assert_eq!(
            line_13("GRCOF2 1 0 1 0 0 0 20021304.0000 20020501.0000"),
            Err("'20021304.0000' is no date; expected yyyymmdd or yyyymmdd.hhmm".into())
        );
        let empty = "the time from 2002-05-01 to 2002-04-04 is empty; expected a start before the end".to_string();
        assert_eq!(line_13("GRCOF2 1 0 1 0 0 0 20020501.0000 20020404.0000"), Err(empty.clone()));
        assert_eq!(line_14("52395.0 2002.3 -4.84e-4 0 0 NaN NaN NaN 52368.0 2002.3"), Err(empty));
    }
}
