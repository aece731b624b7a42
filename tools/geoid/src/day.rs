//! Days of the calendar and their counts from 2000-01-01: proleptic Gregorian, with a year 0 and negative years before it.
//!
//! Here a year goes from March to February, so that a leap day is its last, and 400 of them have the same days each time: the way
//! from a count to a day and back is the same few divisions for every year.

use std::fmt;

/// Days of 400 years.
const CYCLE: i64 = 146_097;
/// Days from 0000-03-01 to 2000-01-01.
const FROM_MARCH_0: i64 = 730_425;

/// A day that a month has.
#[derive(Clone, Copy, Debug, PartialEq, Eq)]
pub struct Day {
    year: i64,
    month: i64,
    day: i64,
}

impl Day {
    /// The first day of a year.
    pub fn new_year(year: i32) -> Day {
        Day { year: year.into(), month: 1, day: 1 }
    }

    /// The day of a text that is written as days are shown, and no other way.
    pub fn parse(text: &str) -> Option<Day> {
        Day::written(text).filter(Day::exists)
    }

    /// What is wrong with a text that is no day, behind it: the calendar lacks the day that it writes, or it is not written as expected.
    pub fn fault(text: &str, expected: &str) -> String {
        match Day::written(text).filter(|day| !day.exists()) {
            None => format!("; expected {expected}"),
            Some(Day { month: 1..=12, .. }) => {
                let (month, number) = text.rsplit_once('-').unwrap_or_default();
                format!(": {month} has no day {number}")
            }
            Some(Day { month, .. }) => format!(": a year has no month {month:02}"),
        }
    }

    /// The numbers of a text that is written as days are shown, whether or not the calendar has such a day.
    fn written(text: &str) -> Option<Day> {
        let mut parts = text.rsplitn(3, '-');
        let (day, month, year) = (parts.next()?, parts.next()?, parts.next()?);
        let year = i64::from(year.parse::<i32>().ok()?);
        let [month, day] = [month, day].map(|part| part.parse::<u8>().ok().map(i64::from));
        let day = Day { year, month: month?, day: day? };
        (day.to_string() == text).then_some(day)
    }

    /// Whether its month has it: a day that no month has would share its count with one of another month.
    fn exists(&self) -> bool {
        Day::of_count(self.count()) == *self
    }

    /// The day that lies so many days behind 2000-01-01.
    pub fn of_count(count: i64) -> Day {
        let since = count + FROM_MARCH_0;
        let (cycle, rest) = (since.div_euclid(CYCLE), since.rem_euclid(CYCLE));
        // The leap days up to here are taken off, so that years of 365 days are left.
        let year = (rest - rest / 1460 + rest / 36_524 - rest / (CYCLE - 1)) / 365;
        let rest = rest - days_before(year);
        // From March on, five months have 153 days.
        let month = (5 * rest + 2) / 153;
        let (ended, day) = (month / 10, rest - (153 * month + 2) / 5 + 1);
        Day { year: 400 * cycle + year + ended, month: month + 3 - 12 * ended, day }
    }

    /// Days from 2000-01-01 to it.
    pub fn count(&self) -> i64 {
        let begun = i64::from(self.month <= 2);
        let (year, month) = (self.year - begun, self.month - 3 + 12 * begun);
        let (cycle, year) = (year.div_euclid(400), year.rem_euclid(400));
        CYCLE * cycle + days_before(year) + (153 * month + 2) / 5 + self.day - 1 - FROM_MARCH_0
    }

    pub fn year(&self) -> i64 {
        self.year
    }

    /// The first day of the next month.
    pub fn next_month(&self) -> Day {
        Day { year: self.year + self.month / 12, month: self.month % 12 + 1, day: 1 }
    }
}

/// Days of a cycle before a year of it, 0 to 399.
fn days_before(year: i64) -> i64 {
    365 * year + year / 4 - year / 100
}

impl fmt::Display for Day {
    /// `YYYY-MM-DD`; a year has four digits or as many as it needs, behind a sign if it is before the year 0.
    fn fmt(&self, f: &mut fmt::Formatter<'_>) -> fmt::Result {
        let sign = if self.year < 0 { "-" } else { "" };
        write!(f, "{sign}{:04}-{:02}-{:02}", self.year.abs(), self.month, self.day)
    }
}

#[cfg(test)]
mod tests {
    use super::*;

    /// Counts of days, each with its text: around 2000, leap days and years without one, the year 0, both ends of 32 bits.
    const KNOWN: [(i64, &str); 20] = [
        (0, "2000-01-01"),
        (1, "2000-01-02"),
        (-1, "1999-12-31"),
        (59, "2000-02-29"),
        (60, "2000-03-01"),
        (8840, "2024-03-15"),
        (8824, "2024-02-28"),
        (8825, "2024-02-29"),
        (-36_466, "1900-02-28"),
        (-36_465, "1900-03-01"),
        (36_583, "2100-02-28"),
        (36_584, "2100-03-01"),
        (-146_038, "1600-02-29"),
        (-146_037, "1600-03-01"),
        (2_921_940, "10000-01-01"),
        (-730_426, "0000-02-29"),
        (-730_425, "0000-03-01"),
        (-730_486, "-0001-12-31"),
        (i32::MIN as i64, "-5877611-06-22"),
        (i32::MAX as i64, "5881610-07-11"),
    ];

    #[test]
    fn days_that_are_known() {
        for (count, text) in KNOWN {
            assert_eq!(Day::of_count(count).to_string(), text);
            assert_eq!(Day::parse(text).unwrap().count(), count);
        }
    }

    /// Days of a month by the rule of the calendar.
    fn month_length(year: i64, month: i64) -> i64 {
        let leap = year % 4 == 0 && (year % 100 != 0 || year % 400 == 0);
        [31, 28 + i64::from(leap), 31, 30, 31, 30, 31, 31, 30, 31, 30, 31][month as usize - 1]
    }

    /// The next day by the lengths of months.
    fn next(today: Day) -> Day {
        match today {
            Day { year, month, day } if day < month_length(year, month) => Day { day: day + 1, ..today },
            Day { month: 12, year, .. } => Day { year: year + 1, month: 1, day: 1 },
            _ => Day { month: today.month + 1, day: 1, ..today },
        }
    }

    fn there_and_back(count: i64) {
        let day = Day::of_count(count);
        assert_eq!((day.count(), Day::parse(&day.to_string())), (count, Some(day)));
        assert_eq!(Day::of_count(count + 1), next(day));
    }

    #[test]
    fn each_day_of_a_cycle_follows_the_one_before() {
        (-1..=CYCLE).for_each(there_and_back);
    }

    #[test]
    fn days_of_all_32_bits_come_back() {
        // The stride has no factor in common with a cycle, so that days of every place in it are met.
        (i64::from(i32::MIN)..=i32::MAX.into()).step_by(21_001).for_each(there_and_back);
        for end in [i32::MIN, i32::MAX] {
            (i64::from(end) - 800..=i64::from(end) + 800).for_each(there_and_back);
        }
    }

    #[test]
    fn what_no_month_has_is_no_day() {
        let absent = "2023-02-29 1900-02-29 2100-02-29 2024-02-30 2024-04-31 2024-00-10 2024-13-01 2024-01-00 2024-01-32 2024-03-300";
        let written = "2024 2024-03 2024-3-15 2024-03-5 24-03-15 02024-03-15 +2024-03-15 -0000-03-15 -1-01-01 2024-03--1 2024/03/15";
        let strange = ["", "-", "--", "2024-03-15 ", " 2024-03-15", "2024-03-15-01", "99999999999-01-01"];
        for wrong in absent.split(' ').chain(written.split(' ')).chain(strange) {
            assert_eq!(Day::parse(wrong), None, "{wrong}");
        }
    }

    #[test]
    fn a_day_that_is_well_written_is_told_what_it_lacks() {
        for (text, expected) in [
            ("2023-02-29", ": 2023-02 has no day 29"),
            ("-0001-02-29", ": -0001-02 has no day 29"),
            ("2024-04-31", ": 2024-04 has no day 31"),
            ("2024-01-00", ": 2024-01 has no day 00"),
            ("2024-13-01", ": a year has no month 13"),
            ("2024-00-31", ": a year has no month 00"),
            ("2024-3-15", "; expected a day"),
            ("2024-03", "; expected a day"),
            ("soon", "; expected a day"),
        ] {
            assert_eq!(Day::fault(text, "a day"), expected);
        }
    }

    #[test]
    fn months_follow_each_other() {
        let next = |text| Day::parse(text).unwrap().next_month().to_string();
        assert_eq!((next("2024-02-29"), next("1999-12-31")), ("2024-03-01".into(), "2000-01-01".into()));
        assert_eq!(Day::new_year(2001).count(), 366);
    }
}
