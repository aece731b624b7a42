//! The tables of recursion coefficients: `new` and `grow` against the oracle's `Legendre::new`, tables that grow by steps, and that the tables of one
//! degree are the front of those of a larger one.

use core::iter::successors;
use std::collections::BTreeMap;

use oracle::Legendre;

use super::LARGE;
use crate::cases::Cases;
use crate::entries::*;
use crate::guarded::Guarded;
use crate::refusal::{BEYOND, Checks, MAX_DEGREE, answered, fault, pairs};
use crate::sizes::{around, beside, table};
use crate::tally::{Tally, shown};

/// The random calls of `grow`, the random rows of steps.
const COUNT: u64 = 100_000;
const STEPS: u64 = 5_000;

/// The degrees about the one from which the library takes a longer table of guesses.
const SWITCH: [usize; 3] = [127, 128, 129];

/// The table a, then the table b.
type Both<T> = [T; 2];
const NAMES: Both<&str> = ["a", "b"];

/// The oracle's tables, made once for each degree.
#[derive(Default)]
struct Published(BTreeMap<usize, Both<Vec<f64>>>);

impl Published {
    fn make(nmax: usize) -> Both<Vec<f64>> {
        let Legendre { a, b, .. } = Legendre::new(nmax);
        [a, b]
    }

    /// The cells of both between two places.
    fn cells(&mut self, nmax: usize, start: usize, end: usize) -> Both<&[f64]> {
        let tables = self.0.entry(nmax).or_insert_with(|| Self::make(nmax));
        tables.each_ref().map(|table| &table[start..end])
    }

    fn tables(&mut self, nmax: usize) -> Both<&[f64]> {
        self.cells(nmax, 0, table(nmax))
    }
}

/// So many numbers of any shape.
pub fn any_numbers(cases: &mut Cases, count: usize) -> Vec<f64> {
    (0..count).map(|_| cases.number()).collect()
}

/// Lists before a call. Each holds the given front or not, and else markers or numbers of any shape.
fn lists(cases: &mut Cases, fronts: Both<&[f64]>, lengths: &[usize]) -> Both<Guarded<f64>> {
    core::array::from_fn(|i| {
        let kept = if cases.below(2) == 0 { fronts[i].len().min(lengths[i]) } else { 0 };
        let behind = if cases.below(2) == 0 { lengths[i] - kept } else { 0 };
        Guarded::of(&[&fronts[i][..kept], &any_numbers(cases, behind)].concat(), lengths[i])
    })
}

/// A length that is enough: the stated one, or one with room for further rows.
fn enough(cases: &mut Cases, nmax: usize) -> usize {
    table(nmax) + if cases.below(2) == 0 { 0 } else { cases.below(3 * (nmax as u64 + 2)) as usize }
}

/// A length that is enough or, now and then, is not.
fn length_about(cases: &mut Cases, nmax: usize) -> usize {
    match cases.below(16) {
        0 => cases.below(table(nmax) as u64) as usize,
        1 => table(nmax) - 1,
        _ => enough(cases, nmax),
    }
}

/// A degree that no table has.
fn beyond(cases: &mut Cases) -> usize {
    BEYOND[cases.below(BEYOND.len() as u64) as usize]
}

/// A degree to grow from: mostly one below the degree to grow to, else one about it or any.
fn from_about(cases: &mut Cases, nmax: usize) -> usize {
    match cases.below(8) {
        0 => beyond(cases),
        1 => nmax + cases.below(4) as usize,
        2 => cases.below(2701) as usize,
        _ => cases.below(nmax as u64 + 1) as usize,
    }
}

/// Degrees to grow from and to: from every one and beyond in small tables, from some in large ones.
fn pairs_of_degrees() -> Vec<(usize, usize)> {
    let every = |nmax: usize| (0..=nmax + 2).chain([2699, 2700]).chain(BEYOND).map(move |from| (from, nmax));
    let mut list: Vec<(usize, usize)> = (0..=60).chain([96]).chain(SWITCH).flat_map(every).collect();
    list.extend([0, 1, 126, 127, 128, 180, 358, 359, 360, 2700].map(|from| (from, 360)));
    list.extend([0, 1, 127, 1350, 2697, 2698, 2699, 2700, 2701, usize::MAX].map(|from| (from, 2700)));
    list
}

/// The first cell that is wrong, where the answers stand from the place `start` on and all else keeps its bits.
fn first_fault(lists: &Both<Guarded<f64>>, start: usize, answers: Both<&[f64]>) -> Option<String> {
    (0..2).find_map(|i| lists[i].fault_from(NAMES[i], start, answers[i]))
}

/// The first of so many cells whose bits differ.
fn first_apart(count: usize, some: Both<&[f64]>, others: Both<&[f64]>) -> Option<String> {
    (0..2).find_map(|i| {
        let place = (0..count).find(|&place| some[i][place].to_bits() != others[i][place].to_bits())?;
        Some(format!("{}[{place}]: {} and {}", NAMES[i], shown(some[i][place]), shown(others[i][place])))
    })
}

/// A call that fills both tables: all their rows, or those above a degree.
#[derive(Clone, Copy, Debug)]
enum Call {
    New,
    Grow { from: usize },
}

impl Call {
    /// Our call: its refusal.
    fn enter(self, nmax: usize, [a, b]: &mut Both<Guarded<f64>>) -> u32 {
        let (a, b) = ((a.pointer(), a.len()), (b.pointer(), b.len()));
        match self {
            Call::New => unsafe { geopotential_legendre_new(nmax, a.0, a.1, b.0, b.1) },
            Call::Grow { from } => unsafe { geopotential_legendre_grow(from, nmax, a.0, a.1, b.0, b.1) },
        }
    }

    /// Where its rows start; the table's end where it has none.
    fn start(self, nmax: usize) -> usize {
        match self {
            Call::New => 0,
            Call::Grow { from } => table(from.min(nmax)),
        }
    }

    /// The call by both sides. Where it keeps a front, half of the lists hold there what belongs there.
    fn compare(self, tally: &mut Tally, cases: &mut Cases, published: &mut Published, nmax: usize, lengths: &[usize]) {
        let (start, end) = if nmax <= MAX_DEGREE { (self.start(nmax), table(nmax)) } else { (0, 0) };
        let front = if start > 0 { published.cells(nmax, 0, start) } else { Both::default() };
        let mut lists = lists(cases, front, lengths);
        let due = Checks { degree: nmax, outputs: &beside(lengths, pairs(nmax)), ..Checks::default() }.due();
        let ours = self.enter(nmax, &mut lists);
        let answers = answered(due, || published.cells(nmax, start, end)).unwrap_or_default();
        let fault = fault(ours, due).or_else(|| first_fault(&lists, start, answers));
        tally.call(fault, || format!("{self:?}, N {nmax}, lengths {lengths:?}"));
    }
}

pub fn new(tally: &mut Tally, cases: &mut Cases) {
    let mut published = Published::default();
    let mut one = |nmax: usize, lengths: &[usize]| Call::New.compare(tally, cases, &mut published, nmax, lengths);
    for nmax in [0, 1, 2, 5] {
        around(nmax, &[table(nmax); 2], &mut one);
    }
    for nmax in (0..=60).chain(SWITCH).chain(LARGE) {
        one(nmax, &[table(nmax), table(nmax) + 3]);
    }
}

pub fn grow(tally: &mut Tally, cases: &mut Cases) {
    let mut published = Published::default();
    let mut one = |cases: &mut Cases, from: usize, nmax: usize, lengths: &[usize]| {
        Call::Grow { from }.compare(tally, cases, &mut published, nmax, lengths);
    };
    // No degree to grow from is too large, and none makes do with lists that are too short.
    for nmax in [0, 1, 2, 5] {
        for from in [0, 1, 2, 4, 5, 6, 2699, 2700].into_iter().chain(BEYOND) {
            around(nmax, &[table(nmax); 2], |degree, lengths| one(cases, from, degree, lengths));
        }
    }
    for (from, nmax) in pairs_of_degrees() {
        let lengths = [enough(cases, nmax), enough(cases, nmax)];
        one(cases, from, nmax, &lengths);
    }
    for nmax in [360, 2700] {
        let size = table(nmax);
        [[size - 1, size], [size, size - 1]].iter().for_each(|lengths| one(cases, nmax - 1, nmax, lengths));
    }
    for _ in cases.times(COUNT) {
        let nmax = cases.below(41) as usize;
        let from = from_about(cases, nmax);
        let lengths = [length_about(cases, nmax), length_about(cases, nmax)];
        let told = if cases.below(16) == 0 { beyond(cases) } else { nmax };
        one(cases, from, told, &lengths);
    }
}

pub fn steps(tally: &mut Tally, cases: &mut Cases) {
    let mut published = Published::default();
    let every: Vec<usize> = (0..=130).collect();
    for degrees in [&every[..], &[0, 96, 127, 128, 129, 360], &[0, 127, 128, 1350, 2698, 2699, 2700], &[2699, 2700]] {
        by_steps(tally, cases, &mut published, degrees);
    }
    for _ in cases.times(STEPS) {
        let first = if cases.below(2) == 0 { 0 } else { cases.below(41) };
        let widest = cases.below(41);
        // A step may be none at all; then the tables stay as they are.
        let next = |&degree: &u64| Some(degree + cases.below(widest + 2)).filter(|&degree| degree <= 40);
        let degrees: Vec<usize> = successors(Some(first), next).map(|degree| degree as usize).collect();
        by_steps(tally, cases, &mut published, &degrees);
    }
}

/// `new` up to the first degree, `grow` from each degree to the next: after each step the lists hold the tables up to there and else what they held at
/// first. In the end their fronts are what `new` leaves at once in lists of other contents.
fn by_steps(tally: &mut Tally, cases: &mut Cases, published: &mut Published, degrees: &[usize]) {
    let (first, last) = (degrees[0], degrees[degrees.len() - 1]);
    let lengths = [enough(cases, last), enough(cases, last)];
    let mut grown = lists(cases, Both::default(), &lengths);
    let mut call = Call::New;
    for &nmax in degrees {
        let ours = call.enter(nmax, &mut grown);
        let fault = fault(ours, 0).or_else(|| first_fault(&grown, 0, published.tables(nmax)));
        tally.call(fault, || format!("{call:?}, N {nmax}, lengths {lengths:?}, of the steps from {first} to {last}"));
        call = Call::Grow { from: nmax };
    }
    let at_once = made(cases, last);
    let fault = first_apart(table(last), grown.each_ref().map(Guarded::now), at_once.each_ref().map(Guarded::now));
    tally.call(fault, || format!("{} steps from {first} to {last} and new at once", degrees.len() - 1));
}

/// What `new` leaves in lists of numbers of any shape, which no two calls share.
fn made(cases: &mut Cases, nmax: usize) -> Both<Guarded<f64>> {
    let mut lists = [table(nmax); 2].map(|length| Guarded::of(&any_numbers(cases, length), length));
    Call::New.enter(nmax, &mut lists);
    lists
}

/// The tables of one degree are the front of those of a larger one: ours, and by themselves the oracle's.
pub fn fronts(tally: &mut Tally, cases: &mut Cases) {
    let mut one = |nmax: usize, larger: usize| {
        let [small, large] = [nmax, larger].map(|degree| made(cases, degree));
        let fault = first_apart(table(nmax), small.each_ref().map(Guarded::now), large.each_ref().map(Guarded::now));
        tally.call(fault, || format!("ours, N {nmax} in {larger}"));
        let [small, large] = [nmax, larger].map(Published::make);
        let fault = first_apart(table(nmax), small.each_ref().map(Vec::as_slice), large.each_ref().map(Vec::as_slice));
        tally.call(fault, || format!("the oracle's, N {nmax} in {larger}"));
    };
    for larger in 0..=60 {
        (0..=larger).for_each(|nmax| one(nmax, larger));
    }
    for nmax in [96, 180, 360, 2699] {
        one(nmax, 2700);
    }
}
