//! The pairs of a field while a text is read: each once, and none left out without a word.

use geopotential::Coefficients;

use crate::body::is_earth;
use crate::text::Fault;

/// The Earth's first even zonal, and how far a model of the Earth may be from it.
const EARTH_C20: f64 = -4.84165e-4;
const EARTH_SHARE: f64 = 0.01;
/// In the place of a line's number: the pair is given by convention.
const BY_CONVENTION: usize = usize::MAX;

/// A field with the number of the line that gave each pair, 0 where none did yet.
pub struct PairTable {
    field: Coefficients,
    lines: Vec<usize>,
}

/// The place of a pair in the table.
fn place(n: usize, m: usize) -> usize {
    n * (n + 1) / 2 + m
}

impl PairTable {
    /// A table for the pairs of a field of this size.
    pub fn new(field: Coefficients) -> Self {
        let count = place(field.max_degree() + 1, 0);
        PairTable { field, lines: vec![0; count] }
    }

    /// How many pairs there are to give.
    pub fn pairs(&self) -> usize {
        self.lines.len()
    }

    /// Keep a pair that a line gives.
    pub fn put(&mut self, (n, m): (usize, usize), (c, s): (f64, f64), line: usize) -> Result<(), Fault> {
        let seen = &mut self.lines[place(n, m)];
        if *seen != 0 {
            let what = format!("the pair ({n}, {m}) is given a second time (first in line {seen}); expected each pair once");
            return Err(Fault::at(line, what));
        }
        *seen = line;
        self.field.try_set(n, m, c, s).map_err(|refusal| Fault::at(line, refusal.to_string()))
    }

    /// The field, and what is to be said of the pairs that no line gave. A whole model of the Earth may
    /// leave out degrees 0 and 1; other pairs may be absent only where `absent_as_zero` says so.
    pub fn finish(mut self, absent_as_zero: bool) -> Result<(Coefficients, Vec<String>), Fault> {
        let mut notes = if self.is_the_earth() { self.take_convention()? } else { Vec::new() };
        let mut absent = (0..self.lines.len()).filter(|&place| self.lines[place] == 0);
        let Some(first) = absent.next() else { return Ok((self.field, notes)) };
        let count = 1 + absent.count();
        if !absent_as_zero {
            let (n, m) = pair_at(first);
            let others = if count == 1 { String::new() } else { format!(" (and {} more)", count - 1) };
            let degree = self.field.max_degree();
            let rule = if n == 0 { " (only a whole model of the Earth may leave out C(0,0))" } else { "" };
            let what = format!("the pair ({n}, {m}) is absent{others}; expected every pair to degree {degree}{rule}, or --absent-as-zero");
            return Err(Fault::whole(what));
        }
        notes.push(format!("{count} of {} pairs are absent and taken as 0", self.lines.len()));
        Ok((self.field, notes))
    }

    /// Whether the field is a model of the whole Earth: no difference of two, no kernel, no other body.
    fn is_the_earth(&self) -> bool {
        let zonal = self.field.try_c(2, 0).is_ok_and(|c20| (c20 / EARTH_C20 - 1.0).abs() <= EARTH_SHARE);
        zonal && is_earth(&self.field)
    }

    /// Degree 0 is GM's own and degree 1 is nothing about the centre of mass; where a model leaves them
    /// out they are 1 and 0.
    fn take_convention(&mut self) -> Result<Vec<String>, Fault> {
        let mut notes = Vec::new();
        if self.lines[0] == 0 {
            self.put((0, 0), (1.0, 0.0), BY_CONVENTION)?;
            notes.push("C(0,0) is absent and taken as 1, as in a model of the Earth whose GM stands for it".to_string());
        }
        if self.lines[1..3] == [0, 0] {
            self.put((1, 0), (0.0, 0.0), BY_CONVENTION)?;
            self.put((1, 1), (0.0, 0.0), BY_CONVENTION)?;
            notes.push("degree 1 is absent and taken as 0, as in a model of the Earth about its centre of mass".to_string());
        }
        Ok(notes)
    }
}

/// The degree and order at a place.
fn pair_at(place: usize) -> (usize, usize) {
    let n = (0..).find(|n| (n + 1) * (n + 2) / 2 > place).unwrap_or(0);
    (n, place - n * (n + 1) / 2)
}
