//! Cases for the programs that replay refusals: sizes and lengths about the stated ones, and what is due by the statement of document 01's table
//! (`refusal.rs`). A case is a row of numbers; due are the number of the refusal, and which places of the lists that are lent to be written change.

pub mod basins;
pub mod entries;
pub mod fields;
pub mod files;
mod grow;
pub mod mirror;
pub mod models;
pub mod points;
pub mod regions;
pub mod solvers;
mod tensors;
pub mod values;

use crate::constants::{array, hexadecimal};
use crate::functional::WATER_HEIGHT;
use crate::refusal::{Checks, LENGTH, LOVE, NO_FUNCTIONAL, SPACE};

/// What a list is lent for.
#[derive(Clone, Copy, PartialEq)]
enum Kind {
    Input,
    /// The Love numbers: as many as stated, or more, and only for WaterHeight.
    Love,
    Output,
    Work,
    /// No list: a single number that is answered, which counts as an output of one place.
    Value,
}
use Kind::{Input, Love, Output, Value, Work};

impl Kind {
    /// The refusal of a list that is too short.
    fn refusal(self) -> Option<u32> {
        match self {
            Input => Some(LENGTH),
            Love => Some(LOVE),
            Output | Work => Some(SPACE),
            Value => None,
        }
    }
}

/// A size that has no limit.
const ANY: usize = usize::MAX;

/// A call as the table sees it.
struct Call {
    name: &'static str,
    /// The largest of each size that passes.
    limits: &'static [usize],
    /// Small sizes that are lent lists as stated; the cases go about the last of them.
    small: &'static [&'static [usize]],
    /// Numbers of functionals to try beside WaterHeight, none where the call takes no functional.
    functionals: &'static [u32],
    /// The lists in the order of the call's parameters, with their stated lengths.
    lists: fn(&[usize]) -> Vec<(Kind, u128)>,
}

#[derive(Clone, PartialEq)]
struct Case {
    sizes: Vec<usize>,
    functional: Option<u32>,
    lengths: Vec<usize>,
}

impl Call {
    /// Lists as stated for some sizes.
    fn stated(&self, sizes: &[usize]) -> Case {
        let lengths = (self.lists)(sizes).into_iter().map(|(_, length)| length as usize).collect();
        Case { sizes: sizes.to_vec(), functional: (!self.functionals.is_empty()).then_some(WATER_HEIGHT), lengths }
    }

    /// What the cases go about.
    fn base(&self) -> Case {
        self.stated(self.small[self.small.len() - 1])
    }

    fn kinds(&self) -> Vec<Kind> {
        (self.lists)(&self.base().sizes).into_iter().map(|(kind, _)| kind).collect()
    }

    /// The base with the lists at some places one number shorter, and without Love numbers where they are among them.
    fn shorter(&self, which: &dyn Fn(usize) -> bool) -> Case {
        let mut case = self.base();
        for (place, kind) in self.kinds().into_iter().enumerate().filter(|(place, _)| which(*place)) {
            case.lengths[place] -= if kind == Love { case.lengths[place] } else { 1 };
        }
        case
    }

    fn cases(&self) -> Vec<Case> {
        let mut cases: Vec<Case> = self.small.iter().map(|sizes| self.stated(sizes)).collect();
        let base = || self.base();
        let kinds = self.kinds();
        let shorter = |which: &dyn Fn(Kind) -> bool| self.shorter(&|place| which(kinds[place]));
        // One list shorter or longer.
        for place in 0..kinds.len() {
            for length in [base().lengths[place] - 1, base().lengths[place] + 1] {
                let mut case = base();
                case.lengths[place] = length;
                cases.push(case);
            }
        }
        // All lists at once, and two of the three kinds; then two lists alone.
        cases.extend([shorter(&|_| true), shorter(&|kind| kind != Input), shorter(&|kind| kind != Love)]);
        cases.extend(self.two_lists());
        // The other functionals, without Love numbers.
        for &functional in self.functionals {
            let mut case = shorter(&|kind| kind == Love);
            case.functional = Some(functional);
            cases.push(case);
        }
        // Each size at its limit and beyond, with the base's lists and with shorter ones.
        for (place, &limit) in self.limits.iter().enumerate().filter(|(_, limit)| **limit < ANY) {
            for size in [limit, limit + 1, ANY] {
                for mut case in [base(), shorter(&|_| true)] {
                    case.sizes[place] = size;
                    cases.push(case);
                }
            }
        }
        distinct(cases)
    }

    /// Every two lists that are refused by different numbers, wrong by themselves, so that no mistake in front hides which of the two is checked first.
    fn two_lists(&self) -> Vec<Case> {
        let kinds = self.kinds();
        let differ = |a: Kind, b: Kind| a.refusal().zip(b.refusal()).is_some_and(|(first, second)| first != second);
        let places = (0..kinds.len()).flat_map(|a| (a + 1..kinds.len()).map(move |b| (a, b)));
        places.filter(|&(a, b)| differ(kinds[a], kinds[b])).map(|(a, b)| self.shorter(&|place| place == a || place == b)).collect()
    }

    fn due(&self, case: &Case) -> u32 {
        if case.functional.is_some_and(|number| number > WATER_HEIGHT) {
            return NO_FUNCTIONAL;
        }
        let sizes: Vec<(usize, usize)> = case.sizes.iter().copied().zip(self.limits.iter().copied()).collect();
        let lists: Vec<(Kind, u128)> = (self.lists)(&case.sizes);
        let of = |kinds: &[Kind]| -> Vec<(usize, u128)> {
            let pairs = case.lengths.iter().zip(&lists).filter(|(_, (kind, _))| kinds.contains(kind));
            pairs.map(|(&length, &(_, stated))| (length, stated)).collect()
        };
        let love = of(&[Love]).first().copied().filter(|_| case.functional == Some(WATER_HEIGHT));
        // The degree that the Love numbers are for; what of it is too large is among the sizes.
        let degree = love.map_or(0, |(_, stated)| stated.saturating_sub(1).min(2700) as usize);
        let (inputs, outputs) = (of(&[Input]), of(&[Output, Work]));
        Checks { degree, sizes: &sizes, inputs: &inputs, love: love.map(|(length, _)| length), outputs: &outputs, ..Checks::default() }
            .due()
    }

    /// Every number of a functional, and numbers that are none's: alone, with lists that are too short, and with a size that is too large.
    fn functionals(&self) -> Vec<Case> {
        let base = || self.base();
        let with = |functional, mut case: Case| {
            case.functional = Some(functional);
            case
        };
        let mut cases: Vec<Case> = (0..=6).chain([7, 255, 256, u32::MAX]).map(|functional| with(functional, base())).collect();
        for functional in [6, u32::MAX] {
            let mut short = base();
            short.lengths.iter_mut().for_each(|length| *length -= 1);
            let mut large = base();
            large.sizes[0] = self.limits[0] + 1;
            cases.extend([with(functional, short), with(functional, large)]);
        }
        distinct(cases)
    }

    /// The rows of cases, and what is due of each, as two constants.
    fn constants(&self, width: usize) -> String {
        self.constants_of(&self.cases(), width)
    }

    fn constants_of(&self, cases: &[Case], width: usize) -> String {
        let (mut rows, mut dues) = (Vec::new(), Vec::new());
        for case in cases {
            let due = self.due(case);
            let lists = (self.lists)(&case.sizes);
            let answers = |kinds: &'static [Kind]| {
                lists.iter().filter(move |(kind, _)| due == 0 && kinds.contains(kind)).map(|(_, length)| *length as u64)
            };
            let mut row: Vec<u64> = case.sizes.iter().map(|&size| size as u64).collect();
            row.extend(case.functional.map(u64::from));
            row.extend(case.lengths.iter().map(|&length| length as u64));
            // In the last column the part of the working list that is left free.
            if lists.iter().any(|(kind, _)| *kind == Work) {
                row.resize(width - 1, 0);
                row.extend(answers(&[Work]).chain([0]).take(1));
            }
            rows.push(row);
            dues.push([due as u64, answers(&[Output, Value]).enumerate().map(|(place, length)| front(place, length)).sum()]);
        }
        constants(self.name, width, &rows, &dues)
    }
}

/// The list without what stands in it before.
fn distinct<T: PartialEq>(list: Vec<T>) -> Vec<T> {
    let mut kept = Vec::new();
    for item in list {
        if !kept.contains(&item) {
            kept.push(item);
        }
    }
    kept
}

/// A list whose places from one to another are changed, as the programs tell it: how many are, times 100, and the place behind the last; each further
/// list stands four decimal digits higher.
fn changed(place: usize, from: u64, end: u64) -> u64 {
    (100 * (end - from) + end) * 10_000_u64.pow(place as u32)
}

/// A list whose first places are changed.
fn front(place: usize, length: u64) -> u64 {
    changed(place, 0, length)
}

/// Cases and what is due of them, as constants.
fn constants(name: &str, width: usize, rows: &[Vec<u64>], dues: &[[u64; 2]]) -> String {
    let decimal = |numbers: &mut dyn Iterator<Item = u64>| numbers.map(|x| x.to_string()).collect::<Vec<_>>();
    let cases = decimal(&mut rows.iter().flat_map(|row| row.iter().copied().chain(std::iter::repeat(0)).take(width)));
    let due = decimal(&mut dues.iter().flatten().copied());
    let title = name.to_uppercase();
    array(&format!("{name}: {} cases of {width} columns", rows.len()), &title, &cases)
        + &array("due of each: the refusal, and what changes", &format!("{title}_DUE"), &due)
}

/// The counts of days that the programs know: 2000-01-01, its neighbours, 2024-03-15, both ends of 32 bits, and two with four different bytes.
pub const DAYS: [i32; 8] = [0, 1, -1, 8840, i32::MAX, i32::MIN, 0x0102_0304, 0x89ab_cdef_u32 as i32];

/// A date as the programs tell it: 0 for none, else the place of its count among those that they know, from 1 on.
pub fn date_number(date: Option<i32>) -> u64 {
    date.map_or(0, |days| 1 + DAYS.iter().position(|&known| known == days).expect("a count that the programs know") as u64)
}

/// Heads of made models, five words each.
fn heads(comment: &str, heads: &[[u64; 5]]) -> String {
    array(comment, "HEADS", &heads.iter().flatten().map(|&word| hexadecimal(word)).collect::<Vec<_>>())
}

fn title(what: &str, subject: &str) -> String {
    format!("// {what}: cases, and what is due by document 01's table of refusals.\n")
        + &format!("// Written by `compare/run replay {subject} FILE` (see compare/README.md), never by hand.\n")
}
