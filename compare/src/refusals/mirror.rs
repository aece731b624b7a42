//! `mirror` and `mirror_derivative`, which turn signs in a table that is read: cases, what their C entries hand on, and what is told of their list.

use super::values::{numbers, told};
use super::{ANY, Call, Case, Input, constants, distinct};
use crate::constants::array;
use crate::legendre::Mirror;
use crate::refusal::{BEYOND, LENGTH, MAX_DEGREE, SIZE, SPACE, pairs};

const MIRROR: Call = Call {
    name: "legendre_mirror",
    limits: &[2700],
    small: &[&[0], &[1], &[2], &[4], &[9], &[3]],
    functionals: &[],
    lists: |n| vec![(Input, pairs(n[0]))],
};

/// The cases of both calls, empty lists, and degrees about N with the lists of N. A degree that is refused comes before a list that is.
fn cases() -> Vec<Case> {
    let with = |nmax: usize, length: usize| Case { sizes: vec![nmax], functional: None, lengths: vec![length] };
    let mut cases = MIRROR.cases();
    cases.extend([0, 1, 3, MAX_DEGREE, MAX_DEGREE + 1, ANY].map(|nmax| with(nmax, 0)));
    cases.extend([with(0, 2), with(2, 10), with(4, 10)]);
    cases.extend(BEYOND.map(|nmax| with(nmax, 10)));
    // N of 33 and of 64 bits, of which the low ones are the base's.
    cases.extend([with((1 << 32) + 3, 10), with((1 << 63) + 3, 10)]);
    distinct(cases)
}

/// What changes in a list of marks, as the programs tell it: how many of its places do, times 100, and the place behind the last of them.
fn turned(mirror: Mirror, nmax: usize) -> u64 {
    let after = mirror.read(nmax, &vec![1.0; pairs(nmax) as usize]);
    let places: Vec<usize> = (0..after.len()).filter(|&place| after[place] < 0.0).collect();
    100 * places.len() as u64 + places.last().map_or(0, |&last| last as u64 + 1)
}

/// The cases, two columns each, and what is due of each by both calls.
fn refusals() -> String {
    let cases = cases();
    let row = |case: &Case| case.sizes.iter().chain(&case.lengths).map(|&number| number as u64).collect();
    let due = |mirror, case: &Case| match MIRROR.due(case) {
        0 => [0, turned(mirror, case.sizes[0])],
        refusal => [refusal as u64, 0],
    };
    let dues = |mirror| cases.iter().map(|case| due(mirror, case)).collect::<Vec<_>>();
    let derivatives: Vec<String> = dues(Mirror::Derivatives).iter().flatten().map(u64::to_string).collect();
    constants(MIRROR.name, 2, &cases.iter().map(row).collect::<Vec<_>>(), &dues(Mirror::Values))
        + &array("due of each by `mirror_derivative`", "LEGENDRE_MIRROR_DERIVATIVE_DUE", &derivatives)
}

/// The numbers of a table of degree 2, zeros of either sign, an infinity and a NaN among them, and one behind it.
const BEFORE: [f64; 7] = [f64::NEG_INFINITY, 2.5, f64::NAN, -4.0, 0.0, -0.0, 7.5];

/// A list of so many of them after a call of degree 2, or of one that is refused.
fn values(name: &str, mirror: Mirror, nmax: usize, length: usize) -> String {
    let refusal = if nmax > MAX_DEGREE { SIZE } else { [0, LENGTH][(length as u128 != pairs(nmax)) as usize] };
    let before = &BEFORE[..length];
    let after = if refusal == 0 { mirror.read(nmax, before) } else { before.to_vec() };
    let call = if matches!(mirror, Mirror::Values) { "mirror" } else { "mirror_derivative" };
    let comment = format!("a list of {length} after `{call}` of degree {nmax}");
    array(&comment, &format!("{}{name}", call.to_uppercase()), &[vec![refusal.to_string()], numbers(&after)].concat())
}

/// What is told of the table of a degree, in a list of so many places.
fn lengths(name: &str, nmax: usize, places: usize) -> String {
    let refusal = if nmax > MAX_DEGREE { SIZE } else { [0, SPACE][(places < 1) as usize] };
    let due = told(refusal, &[pairs(nmax) as usize], places);
    array(&format!("what is told of a table of degree {nmax}, in a list of {places}"), &format!("MIRROR_LENGTHS{name}"), &due)
}

/// Degrees at and beyond the limit, of 33 and of 64 bits with a small one's low bits, and lists with a place behind the length, with none behind it, and with
/// no place for it.
const TOLD: [(&str, usize, usize); 8] = [
    ("", 3, 2),
    ("_ONE", 3, 1),
    ("_LARGE", 2700, 2),
    ("_BEYOND", 2701, 2),
    ("_WIDE", (1 << 32) + 3, 2),
    ("_WIDEST", (1 << 63) + 3, 2),
    ("_SHORT", 3, 0),
    ("_BEYOND_SHORT", 2701, 0),
];

/// The last two rows of a table of ones up to degree 22, which has more than 255 numbers, after a call.
fn last_rows(mirror: Mirror) -> String {
    let after = mirror.read(22, &vec![1.0; pairs(22) as usize]);
    let call = if matches!(mirror, Mirror::Values) { "mirror" } else { "mirror_derivative" };
    let comment = format!("the last two rows of ones up to degree 22 after `{call}`");
    array(&comment, &format!("{}_ROWS", call.to_uppercase()), &numbers(&after[pairs(20) as usize..]))
}

pub fn text() -> String {
    let mut text = array("a list before `mirror` and `mirror_derivative`", "MIRROR_BEFORE", &numbers(&BEFORE));
    for mirror in [Mirror::Values, Mirror::Derivatives] {
        text += &values("", mirror, 2, 6);
        text += &values("_SHORT", mirror, 2, 5);
        text += &values("_LONG", mirror, 2, 7);
        text += &values("_BEYOND", mirror, 2701, 6);
    }
    for (name, nmax, places) in TOLD {
        text += &lengths(name, nmax, places);
    }
    text + &last_rows(Mirror::Values) + &last_rows(Mirror::Derivatives) + &refusals()
}
