//! Lists lent to a call, between guards, so that they show what the call wrote and what it left alone.

use crate::tally::pattern;

/// How many cells guard either end of a list.
const GUARD: usize = 4;

/// What a list is made of.
pub trait Cell: Copy {
    /// What stands where nothing was written, different from place to place.
    fn marker(place: usize) -> Self;
    fn bits(self) -> u64;
    /// Whether this is the answer due, in every bit; for doubles NaN counts as NaN.
    fn answers(self, due: Self) -> bool {
        self.bits() == due.bits()
    }
}

/// A word whose bytes have no pattern that an answer would have, as a double finite and large.
fn marker(place: usize) -> u64 {
    0x5ba5_5aa5_0000_0000 | (place as u64).wrapping_mul(0x9e37_79b9) & 0xffff_ffff
}

impl Cell for f64 {
    fn marker(place: usize) -> f64 {
        f64::from_bits(marker(place))
    }
    fn bits(self) -> u64 {
        self.to_bits()
    }
    fn answers(self, due: f64) -> bool {
        pattern(self) == pattern(due)
    }
}

impl Cell for u64 {
    fn marker(place: usize) -> u64 {
        marker(place)
    }
    fn bits(self) -> u64 {
        self
    }
}

impl Cell for usize {
    fn marker(place: usize) -> usize {
        marker(place) as usize
    }
    fn bits(self) -> u64 {
        self as u64
    }
}

impl Cell for u8 {
    fn marker(place: usize) -> u8 {
        (place as u8).wrapping_mul(29) ^ 0xa5
    }
    fn bits(self) -> u64 {
        self as u64
    }
}

/// A list between its guards, and what it held before the call.
pub struct Guarded<T> {
    cells: Vec<T>,
    before: Vec<T>,
}

impl<T: Cell> Guarded<T> {
    fn new(length: usize, content: impl Iterator<Item = T>) -> Self {
        let mut cells = Vec::with_capacity(length + 2 * GUARD);
        cells.extend((0..GUARD).map(T::marker));
        cells.extend(content.take(length));
        cells.extend((GUARD + length..length + 2 * GUARD).map(T::marker));
        Guarded { before: cells.clone(), cells }
    }

    /// An input list: the content, cut or carried on by markers to the length.
    pub fn of(content: &[T], length: usize) -> Self {
        Self::new(length, content.iter().copied().chain((content.len()..length).map(T::marker)))
    }

    /// An output list, full of markers.
    pub fn marked(length: usize) -> Self {
        Self::of(&[], length)
    }

    pub fn pointer(&mut self) -> *mut T {
        self.cells[GUARD..].as_mut_ptr()
    }

    pub fn len(&self) -> usize {
        self.cells.len() - 2 * GUARD
    }

    /// What the list holds now.
    pub fn now(&self) -> &[T] {
        &self.cells[GUARD..GUARD + self.len()]
    }

    /// Change what the list holds before a call.
    pub fn prepare(&mut self, place: usize, x: T) {
        self.cells[GUARD + place] = x;
        self.before[GUARD + place] = x;
    }

    /// The first cell that is wrong, where the answer stands from the place `from` on and all else keeps its bits.
    pub fn fault_from(&self, name: &str, from: usize, answer: &[T]) -> Option<String> {
        let written = GUARD + from..GUARD + from + answer.len();
        let wrong = |&place: &usize| {
            let now = self.cells[place];
            if written.contains(&place) { !now.answers(answer[place - written.start]) } else { now.bits() != self.before[place].bits() }
        };
        let place = (0..self.cells.len()).find(wrong)?;
        let (due, what) = match written.contains(&place) {
            true => (answer[place - written.start], ""),
            false => (self.before[place], ", not to be written"),
        };
        let at = place as isize - GUARD as isize;
        Some(format!("{name}[{at}]{what}: ours {:016x}, due {:016x}", self.cells[place].bits(), due.bits()))
    }

    /// The same for an answer at the front; for an empty answer nothing may have been written.
    pub fn fault(&self, name: &str, answer: &[T]) -> Option<String> {
        self.fault_from(name, 0, answer)
    }
}
