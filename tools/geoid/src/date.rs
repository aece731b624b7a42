//! Dates: the epochs of fields that change with time, and the times that monthly solutions are of.

use std::fmt;

use crate::day::Day;

/// Days of a year where a rate is given for a year.
const YEAR: f64 = 365.25;
/// The years that a date may have: a number outside is a mistake, no epoch of a gravity field.
const YEARS: std::ops::RangeInclusive<i32> = 1800..=2200;

/// The modified Julian date of 2000-01-01.
const MJD_2000: f64 = 51_544.0;

/// A moment, by its days since 2000-01-01 at 0 h.
#[derive(Clone, Copy, Debug, PartialEq, PartialOrd)]
pub struct Date {
    days: f64,
}

impl Date {
    /// The date of an option's value: `YYYY-MM-DD` or a decimal year.
    pub fn parse(text: &str) -> Result<Date, String> {
        let date = if text.contains('-') { Day::parse(text).and_then(of_day) } else { decimal(text) };
        date.ok_or_else(|| format!("'{text}' is no date{}", Day::fault(text, "YYYY-MM-DD or a decimal year such as 2010.5")))
    }

    /// The date of ICGEM's and GRACE's lines: `yyyymmdd` or `yyyymmdd.hhmm`.
    pub fn compact(text: &str) -> Result<Date, String> {
        let (day, clock) = text.split_once('.').unwrap_or((text, "0000"));
        let part = |from: usize, to: usize| day.get(from..to).unwrap_or("");
        let date = if day.len() == 8 { Day::parse(&[part(0, 4), part(4, 6), part(6, 8)].join("-")).and_then(of_day) } else { None };
        match (date, minutes(clock)) {
            (Some(date), Some(minutes)) => Ok(date.after(minutes)),
            _ => Err(format!("'{text}' is no date; expected yyyymmdd or yyyymmdd.hhmm")),
        }
    }

    /// The date of GRACE's heads, `YYYY-MM-DDThh:mm:ss` with or without a `Z` behind it, to the nearest minute: 23:59:59.999 is the end
    /// of its day.
    pub fn stamp(text: &str) -> Option<Date> {
        let (day, clock) = text.strip_suffix('Z').unwrap_or(text).split_once('T')?;
        let (clock, seconds) = clock.rsplit_once(':')?;
        let seconds: f64 = seconds.parse().ok().filter(|seconds| (0.0..60.0).contains(seconds))?;
        let minutes = minutes(&clock.replace(':', ""))?;
        Day::parse(day).and_then(of_day).map(|date| date.after(minutes + (seconds / 60.0).round()))
    }

    /// The first day of a month, `YYYY-MM`, and that of the next.
    pub fn month(text: &str) -> Option<(Date, Date)> {
        let first = Day::parse(&format!("{text}-01"))?;
        Some((of_day(first)?, of_count(first.next_month().count())))
    }

    /// The middle of a day, counted from 2000-01-01.
    pub fn noon(days: i32) -> Date {
        Date { days: f64::from(days) + 0.5 }
    }

    /// The date of a modified Julian date.
    pub fn of_mjd(mjd: f64) -> Result<Date, String> {
        let days = mjd - MJD_2000;
        let [first, behind] = [*YEARS.start(), YEARS.end() + 1].map(|year| Day::new_year(year).count() as f64);
        if (first..behind).contains(&days) {
            Ok(Date { days })
        } else {
            Err(format!("{mjd} is no modified Julian date of a day in the years {YEARS:?}"))
        }
    }

    /// The day that it lies in, counted from 2000-01-01.
    pub fn days(&self) -> i32 {
        self.days.floor() as i32
    }

    /// The moment half way to another.
    pub fn half_way_to(&self, other: Date) -> Date {
        Date { days: (self.days + other.days) / 2.0 }
    }

    /// Days from another date to this one.
    pub fn days_since(&self, other: Date) -> f64 {
        self.days - other.days
    }

    /// Years of 365.25 days from another date to this one.
    pub fn years_since(&self, other: Date) -> f64 {
        self.days_since(other) / YEAR
    }

    fn after(&self, minutes: f64) -> Date {
        Date { days: self.days + minutes / 1440.0 }
    }
}

/// A whole number of so many digits.
fn whole(text: &str, digits: usize) -> Option<i64> {
    text.parse().ok().filter(|_| text.len() == digits && text.bytes().all(|byte| byte.is_ascii_digit()))
}

/// The minutes of `hhmm`; digits that are not written are 0, as Fortran leaves them out.
fn minutes(clock: &str) -> Option<f64> {
    let clock = whole(&format!("{clock:0<4}"), 4)?;
    let (hours, minutes) = (clock / 100, clock % 100);
    (hours <= 24 && minutes < 60).then_some((60 * hours + minutes) as f64)
}

/// The beginning of a day in one of the years that a date may have.
fn of_day(day: Day) -> Option<Date> {
    let reach = i64::from(*YEARS.start())..=i64::from(*YEARS.end());
    reach.contains(&day.year()).then(|| of_count(day.count()))
}

fn of_count(days: i64) -> Date {
    Date { days: days as f64 }
}

/// A decimal year: its fraction is that of the year's own days.
fn decimal(text: &str) -> Option<Date> {
    let plain = text.bytes().all(|byte| byte.is_ascii_digit() || byte == b'.');
    let year: f64 = text.parse().ok().filter(|year: &f64| plain && YEARS.contains(&(*year as i32)))?;
    let whole = year as i32;
    let (start, end) = (Day::new_year(whole).count(), Day::new_year(whole + 1).count());
    Some(Date { days: start as f64 + year.fract() * (end - start) as f64 })
}

impl fmt::Display for Date {
    /// `YYYY-MM-DD`, with the clock's hours and minutes where it is not midnight.
    fn fmt(&self, f: &mut fmt::Formatter<'_>) -> fmt::Result {
        let minutes = (self.days * 1440.0).round() as i64;
        let (day, clock) = (minutes.div_euclid(1440), minutes.rem_euclid(1440));
        write!(f, "{}", Day::of_count(day))?;
        if clock == 0 { Ok(()) } else { write!(f, "T{:02}:{:02}", clock / 60, clock % 60) }
    }
}

#[cfg(test)]
mod tests {
    use super::*;

    #[test]
    fn dates_come_in_three_ways() {
        let days = |date: Result<Date, String>| date.unwrap().days;
        assert_eq!(days(Date::parse("2000-01-01")), 0.0);
        assert_eq!(days(Date::parse("2000-03-01")), 60.0);
        assert_eq!(days(Date::parse("1999-12-31")), -1.0);
        assert_eq!(days(Date::parse("2004.5")), 4.0 * 365.0 + 1.0 + 183.0);
        assert_eq!(days(Date::parse("2010")), days(Date::compact("20100101")));
        assert_eq!(days(Date::compact("20000102.0600")), 1.25);
        assert_eq!(days(Date::compact("20000102.06")), 1.25);
    }

    #[test]
    fn what_is_no_date_is_refused() {
        for wrong in ["", "2010-1-1", "2010-02-29", "2010-13-01", "20100101", "twenty", "2e3", "1500.0", "2010-01", "-2010", "nan"] {
            assert!(Date::parse(wrong).is_err(), "{wrong}");
        }
        for wrong in ["2010", "2010-01-01", "20100230", "20100101.2460", "20100101.00001", "2010010a", "é0100101"] {
            assert!(Date::compact(wrong).is_err(), "{wrong}");
        }
    }

    #[test]
    fn dates_are_shown_as_they_are_read() {
        for text in ["1800-01-01", "1985-01-09", "2000-02-29", "2010-12-31", "2200-12-31"] {
            assert_eq!(Date::parse(text).unwrap().to_string(), text);
        }
        assert_eq!(Date::compact("19850109.1751").unwrap().to_string(), "1985-01-09T17:51");
    }

    #[test]
    fn days_have_their_modified_julian_dates() {
        for (mjd, text) in [(40_587.0, "1970-01-01"), (51_544.0, "2000-01-01"), (52_368.0, "2002-04-04"), (54_557.5, "2008-04-01T12:00")] {
            assert_eq!(Date::of_mjd(mjd).unwrap().to_string(), text);
        }
        for wrong in [-1e5, 1e300, f64::NAN, 137_000.0 + 51_544.0] {
            assert!(Date::of_mjd(wrong).is_err(), "{wrong}");
        }
    }

    #[test]
    fn months_end_where_the_next_begins() {
        let month = |text| Date::month(text).map(|(first, next)| format!("{first} {next}"));
        assert_eq!(month("2008-02").as_deref(), Some("2008-02-01 2008-03-01"));
        assert_eq!(month("2011-12").as_deref(), Some("2011-12-01 2012-01-01"));
        for wrong in ["2008", "2008-4", "2008-13", "08-04", "2008-04-01", "-", ""] {
            assert_eq!(month(wrong), None, "{wrong}");
        }
    }

    #[test]
    fn stamps_are_taken_to_the_minute() {
        for (text, expected) in [
            ("2018-06-01T00:00:00.000", "2018-06-01"),
            ("2018-06-30T23:59:59.999", "2018-07-01"),
            ("2018-06-30T23:59:59", "2018-07-01"),
            ("2018-06-30T24:00:00", "2018-07-01"),
            ("2018-06-01T00:00:00Z", "2018-06-01"),
            ("2018-06-30T23:59:59.999Z", "2018-07-01"),
            ("2018-06-16T11:59:29.9", "2018-06-16T11:59"),
        ] {
            assert_eq!(Date::stamp(text).unwrap().to_string(), expected);
        }
        for wrong in ["2018-06-31T00:00:00", "2018-06-30", "2018-06-30T", "2018-06-30T25:00:00", "2018-06-30T12:00:60", "T::", "", "soon"] {
            assert_eq!(Date::stamp(wrong), None, "{wrong}");
        }
        for wrong in ["2018-06-30Z", "2018-06-30T12:00:00ZZ", "2018-06-30T12:00:00 Z", "Z"] {
            assert_eq!(Date::stamp(wrong), None, "{wrong}");
        }
    }

    #[test]
    fn a_moment_lies_in_its_day() {
        for (text, days) in [("2000-01-01", 0), ("1999-12-31", -1), ("2004.5", 4 * 365 + 1 + 183), ("1999.9999", -1), ("2024-03-15", 8840)]
        {
            assert_eq!(Date::parse(text).unwrap().days(), days, "{text}");
        }
        for days in [i32::MIN, -1, 0, 8840, i32::MAX] {
            assert_eq!((Date::noon(days).days(), Date::noon(days).to_string()), (days, format!("{}T12:00", Day::of_count(days.into()))));
        }
    }

    #[test]
    fn years_have_365_days_and_a_quarter() {
        let (from, to) = (Date::parse("2000-01-01").unwrap(), Date::parse("2004-01-01").unwrap());
        assert_eq!(to.years_since(from), 4.0);
    }
}
