//! Pairs that change with time, as they are at an epoch t:
//!
//! `gfct + trnd·(t − t0) + Σ asin·sin(2π(t − t0)/period) + Σ acos·cos(2π(t − t0)/period)`,
//!
//! times in years of 365.25 days. In version 1.0 t0 is that of the pair's `gfct` line; in version 2.0 each
//! line has its own interval, counts where t0 <= t < t1, and has its own t0.

use std::collections::{BTreeMap, HashMap};
use std::f64::consts::TAU;

use super::data::{Kind, Record};
use super::number::number;
use crate::date::Date;
use crate::pair_table::PairTable;
use crate::text::Fault;

type Pair = (usize, usize);

/// A line that is added to its pair's base.
struct Term {
    line: usize,
    kind: Kind,
    pair: Pair,
    values: (f64, f64),
    /// Its own t0, in version 2.0.
    from: Option<Date>,
    period: f64,
}

/// A pair's value as far as it is added up, its line and its t0.
struct Base {
    line: usize,
    values: (f64, f64),
    from: Date,
}

/// The lines of a file that change with time.
pub struct Moving {
    intervals: bool,
    epoch: Option<Date>,
    bases: BTreeMap<Pair, Base>,
    terms: Vec<Term>,
    /// The line of each pair's first base, whether or not it counts at the epoch.
    pairs: BTreeMap<Pair, usize>,
    /// The line of each term by its kind, pair and period.
    seen: HashMap<(Kind, Pair, u64), usize>,
    /// How many lines the last two pairs of the file have that follow each other.
    groups: [(Option<Pair>, usize); 2],
}

impl Moving {
    pub fn new(intervals: bool, epoch: Option<Date>) -> Self {
        Moving {
            intervals,
            epoch,
            bases: BTreeMap::new(),
            terms: Vec::new(),
            pairs: BTreeMap::new(),
            seen: HashMap::new(),
            groups: [(None, 0); 2],
        }
    }

    /// Keep a line, if it counts at the epoch.
    pub fn keep(&mut self, record: &Record) -> Result<(), String> {
        let epoch =
            self.epoch.ok_or_else(|| format!("a '{}' line, of a field that changes with time; expected --epoch DATE", record.keyword))?;
        self.count(record.pair);
        let period = match record.kind {
            Kind::Cosine | Kind::Sine => period(record.times[record.times.len() - 1])?,
            _ => 0.0,
        };
        let from = match (record.kind, self.intervals) {
            (Kind::Base, _) | (_, true) => Some(Date::compact(record.times[0])?),
            _ => None,
        };
        if record.kind == Kind::Base {
            self.pairs.entry(record.pair).or_insert(record.line);
        }
        if let (true, Some(from)) = (self.intervals, from) {
            let until = Date::compact(record.times[1])?;
            if until <= from {
                return Err(format!("the interval from {from} to {until} is empty; expected t0 before t1"));
            }
            if !(from..until).contains(&epoch) {
                return Ok(());
            }
        }
        self.once(record, period)?;
        match from {
            Some(from) if record.kind == Kind::Base => {
                self.bases.insert(record.pair, Base { line: record.line, values: record.values, from });
            }
            _ => self.terms.push(Term { line: record.line, kind: record.kind, pair: record.pair, values: record.values, from, period }),
        }
        Ok(())
    }

    fn count(&mut self, pair: Pair) {
        if self.groups[1].0 != Some(pair) {
            self.groups = [self.groups[1], (Some(pair), 0)];
        }
        self.groups[1].1 += 1;
    }

    /// A file that is cut between two lines of its last pair has all its pairs: what is to be said where
    /// that pair has fewer lines than the one before it.
    pub fn doubt(&self) -> Option<String> {
        let [(_, before), (last, lines)] = self.groups;
        let (n, m) = last.filter(|_| lines < before)?;
        Some(format!(
            "its last pair that changes with time, ({n}, {m}), has {lines} lines and the one before it {before}; is the file whole?"
        ))
    }

    fn once(&mut self, record: &Record, period: f64) -> Result<(), String> {
        match self.seen.insert((record.kind, record.pair, period.to_bits()), record.line) {
            None => Ok(()),
            Some(first) => {
                let (n, m) = record.pair;
                Err(format!("'{}' of the pair ({n}, {m}) is given a second time (first in line {first}) for the epoch", record.keyword))
            }
        }
    }

    /// Put the pairs as they are at the epoch into the table, and tell how many there are.
    pub fn put_into(mut self, table: &mut PairTable) -> Result<usize, Fault> {
        let Some(epoch) = self.epoch else { return Ok(0) };
        if let Some((&(n, m), &line)) = self.pairs.iter().find(|(pair, _)| !self.bases.contains_key(pair)) {
            let what = format!("no 'gfct' line of the pair ({n}, {m}) has an interval with {epoch}; expected one with t0 <= t < t1");
            return Err(Fault::at(line, what));
        }
        for term in &self.terms {
            let Some(base) = self.bases.get_mut(&term.pair) else {
                let (n, m) = term.pair;
                return Err(Fault::at(term.line, format!("the pair ({n}, {m}) has no 'gfct' line; expected one for its changes")));
            };
            let factor = term.factor(epoch.years_since(term.from.unwrap_or(base.from)));
            base.values = (base.values.0 + factor * term.values.0, base.values.1 + factor * term.values.1);
        }
        for (&pair, base) in &self.bases {
            let (c, s) = base.values;
            if !(c.is_finite() && s.is_finite()) {
                return Err(Fault::at(base.line, format!("at {epoch} its pair is too large for a double; expected finite numbers")));
            }
            table.put(pair, base.values, base.line)?;
        }
        Ok(self.bases.len())
    }
}

impl Term {
    /// What its numbers are multiplied by, some years after t0.
    fn factor(&self, years: f64) -> f64 {
        match self.kind {
            Kind::Cosine => (TAU * years / self.period).cos(),
            Kind::Sine => (TAU * years / self.period).sin(),
            _ => years,
        }
    }
}

/// A period in years.
fn period(text: &str) -> Result<f64, String> {
    match number(text)? {
        period if period > 0.0 => Ok(period),
        period => Err(format!("the period is {period}; expected years above 0")),
    }
}
