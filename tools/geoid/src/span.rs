//! Stretches of time that monthly fields and coefficients are means over.

use crate::date::Date;

/// The days of a solution: the first, and the one behind the last.
#[derive(Clone, Copy, Debug, PartialEq)]
pub struct Span {
    from: Date,
    to: Date,
}

impl Span {
    /// The days from one moment to a later one.
    pub fn new(from: Date, to: Date) -> Result<Span, String> {
        if from < to {
            Ok(Span { from, to })
        } else {
            Err(format!("the time from {from} to {to} is empty; expected a start before the end"))
        }
    }

    /// The moment half way from its first day to its end.
    pub fn middle(&self) -> Date {
        self.from.half_way_to(self.to)
    }

    /// Whether a moment lies in it.
    pub fn holds(&self, moment: Date) -> bool {
        (self.from..self.to).contains(&moment)
    }

    /// The days from the earlier start of two to the later end.
    pub fn joined(self, other: Span) -> Span {
        let from = if other.from < self.from { other.from } else { self.from };
        let to = if other.to > self.to { other.to } else { self.to };
        Span { from, to }
    }

    /// Its days in words.
    pub fn line(&self) -> String {
        format!("{} to {}", self.from, self.to)
    }
}

#[cfg(test)]
mod tests {
    use super::*;

    #[test]
    fn a_span_has_a_start_before_its_end() {
        let [may, june, july] = ["2018-05-01", "2018-06-01", "2018-07-01"].map(|text| Date::parse(text).unwrap());
        let empty = "the time from 2018-07-01 to 2018-05-01 is empty; expected a start before the end";
        assert_eq!(Span::new(july, may), Err(empty.into()));
        assert!(Span::new(may, may).is_err());
        let [first, second] = [(may, june), (june, july)].map(|(from, to)| Span::new(from, to).unwrap());
        assert_eq!((first.middle().to_string(), first.line()), ("2018-05-16T12:00".into(), "2018-05-01 to 2018-06-01".into()));
        assert!(first.holds(may) && !first.holds(june) && second.holds(june));
        assert_eq!((first.joined(second), second.joined(first)), (Span::new(may, july).unwrap(), Span::new(may, july).unwrap()));
    }
}
