//! `grow`, which writes the rows of two tables behind those up to a degree: cases, what its C entry hands on, and what is told of its lists.

use oracle::Legendre;

use super::values::{MARK, numbers, told};
use super::{ANY, Call, Case, Output, changed, constants, distinct};
use crate::constants::array;
use crate::refusal::{MAX_DEGREE, SIZE, SPACE, pairs};

/// The degree up to which the rows stand, which may be any, and N.
const GROW: Call = Call {
    name: "legendre_grow",
    limits: &[ANY, 2700],
    small: &[&[0, 0], &[1, 0], &[0, 1], &[1, 1], &[ANY, 1], &[0, 3], &[2, 3], &[3, 3], &[4, 3], &[2700, 3], &[2701, 3], &[ANY, 3], &[1, 3]],
    functionals: &[],
    lists: |n| vec![(Output, pairs(n[1])); 2],
};

/// The cases of the call, lists with room for a row more, and degrees with no row to write beside a list or an N that is refused.
fn cases() -> Vec<Case> {
    let mut cases = GROW.cases();
    cases.push(Case { lengths: vec![15, 15], ..GROW.base() });
    for from in [3, MAX_DEGREE + 1, ANY] {
        cases.extend([0, 1].map(|short| Case { sizes: vec![from, 3], ..GROW.shorter(&|place| place == short) }));
    }
    for nmax in [MAX_DEGREE, MAX_DEGREE + 1, ANY] {
        cases.extend([nmax, MAX_DEGREE + 1, ANY].map(|from| Case { sizes: vec![from, nmax], ..GROW.base() }));
    }
    // N of 33 bits, of which the low ones are the base's.
    cases.push(Case { sizes: vec![1, (1 << 32) + 3], ..GROW.base() });
    distinct(cases)
}

/// The cases, so many columns each, and what is due of each: of both lists the rows above the first degree change.
pub(super) fn refusals(width: usize) -> String {
    let (mut rows, mut dues) = (Vec::new(), Vec::new());
    for case in cases() {
        let due = GROW.due(&case);
        let (from, nmax) = (case.sizes[0], case.sizes[1]);
        let written = |place| changed(place, pairs(from) as u64, pairs(nmax) as u64);
        rows.push([case.sizes, case.lengths].concat().into_iter().map(|x| x as u64).collect());
        dues.push([due as u64, if due == 0 && from < nmax { written(0) + written(1) } else { 0 }]);
    }
    constants(GROW.name, width, &rows, &dues)
}

/// Two lists of marks after `grow` from a degree to degree 2, or to one that is refused, with a place behind them.
fn values(name: &str, from: usize, nmax: usize) -> String {
    let size = |degree| pairs(degree) as usize;
    let list = |table: Vec<f64>| {
        let mut list = vec![MARK; size(2) + 1];
        if from < nmax && nmax <= MAX_DEGREE {
            list[size(from)..size(nmax)].copy_from_slice(&table[size(from)..]);
        }
        numbers(&list)
    };
    let tables = Legendre::new(2);
    let refusal = if nmax > MAX_DEGREE { SIZE } else { 0 };
    let lists = [vec![refusal.to_string()], list(tables.a), list(tables.b)].concat();
    array(&format!("marks in a and b after `grow` from {from} to {nmax}"), &format!("GROW{name}"), &lists)
}

/// What is told of a and b at a degree, in a list of so many places.
fn lengths(name: &str, nmax: usize, places: usize) -> String {
    let refusal = if nmax > MAX_DEGREE { SIZE } else { [0, SPACE][(places < 2) as usize] };
    let due = told(refusal, &[pairs(nmax) as usize; 2], places);
    array(&format!("what is told of a and b of degree {nmax}, in a list of {places}"), &format!("GROW_LENGTHS{name}"), &due)
}

pub(super) fn text() -> String {
    let written = values("", 1, 2) + &values("_NONE", 2, 2) + &values("_BEYOND", 1, 2701);
    let limits = lengths("_LARGE", 2700, 3) + &lengths("_BEYOND", 2701, 3);
    written + &lengths("", 3, 3) + &limits + &lengths("_SHORT", 3, 1)
}
