//! The calls on regions: cases, and what is told of their lists.

use super::values::told;
use super::{ANY, Call, Case, Input, Kind, Output, Value, Work, distinct, title};
use crate::constants::array;
use crate::refusal::{SIZE, SPACE, pairs};

/// The columns of a case.
const WIDTH: usize = 12;

const LIMITS: [usize; 2] = [21, 65_535];

/// The five lists of the nodes. Sizes that are refused need no lengths of their own.
pub(super) fn nodes(n: &[usize]) -> (u128, Vec<(Kind, u128)>) {
    let (k, nodes) = (n[0].min(1 << 20) as u128 + 1, n[1] as u128);
    let integrals = (2 * k - 1) * nodes;
    (k, vec![(Input, nodes), (Input, 2 * nodes), (Input, nodes), (Input, integrals), (Input, integrals)])
}

fn matrix(n: &[usize]) -> Vec<(Kind, u128)> {
    let (k, lists) = nodes(n);
    [lists, vec![(Work, 3 * pairs(n[0].min(1 << 20))), (Output, k.pow(4))]].concat()
}

/// The two numbers that tell how the solver ended are no list: their length stands in no column.
fn region(n: &[usize]) -> Vec<(Kind, u128)> {
    let (t, (k, lists)) = (pairs(n[0].min(1 << 20)), nodes(n));
    let numbers = k * k * t;
    [lists, vec![(Work, 3 * t + 4 * k.pow(4) + 5 * k * k), (Output, k * k), (Output, numbers), (Output, numbers)], vec![(Value, 2)]]
        .concat()
}

const CONCENTRATION_MATRIX: Call = Call {
    name: "concentration_matrix",
    limits: &LIMITS,
    small: &[&[0, 0], &[0, 1], &[1, 0], &[1, 1], &[1, 2]],
    functionals: &[],
    lists: matrix,
};

/// Of degree 0 alone: the lists of the cases have no room for more.
const REGION: Call =
    Call { name: "region", limits: &LIMITS, small: &[&[0, 0], &[0, 1], &[0, 3], &[0, 2]], functionals: &[], lists: region };

/// The cases of a call, and sizes of 33 and of 64 bits whose low ones are the base's.
pub(super) fn cases(call: &Call) -> Vec<Case> {
    let mut cases = call.cases();
    for high in [1 << 32, 1 << 63] {
        for place in 0..call.limits.len() {
            let mut case = call.base();
            case.sizes[place] += high;
            cases.push(case);
        }
    }
    let numbers: Vec<usize> = (0..call.kinds().len()).filter(|&place| call.kinds()[place] == Value).collect();
    for case in &mut cases {
        numbers.iter().for_each(|&place| case.lengths[place] = call.base().lengths[place]);
    }
    distinct(cases)
}

/// What is told of the lists of a call for some sizes, in a list of so many places.
fn lengths(name: &str, call: &Call, sizes: [usize; 2], places: usize) -> String {
    let lists = (call.lists)(&sizes).into_iter().filter(|(kind, _)| *kind != Value);
    let lengths: Vec<usize> = lists.map(|(_, length)| length.min(ANY as u128) as usize).collect();
    let large = sizes.iter().zip(LIMITS).any(|(size, limit)| *size > limit);
    let refusal = if large { SIZE } else { [0, SPACE][(places < lengths.len()) as usize] };
    let comment =
        format!("what is told of the lists of {} for degree {} and {} nodes, in a list of {places}", call.name, sizes[0], sizes[1]);
    array(&comment, &format!("{}_LENGTHS{name}", call.name.to_uppercase()), &told(refusal, &lengths, places))
}

/// The constants of the lengths.
fn told_lengths() -> String {
    let mut text = String::new();
    for (call, lists) in [(&CONCENTRATION_MATRIX, 7), (&REGION, 9)] {
        text += &lengths("", call, [2, 5], lists + 1);
        text += &lengths("_LARGE", call, LIMITS, lists + 1);
        text += &lengths("_DEGREE", call, [22, 5], lists + 1);
        text += &lengths("_NODES", call, [2, 65_536], lists + 1);
        text += &lengths("_SHORT", call, [2, 5], lists - 1);
    }
    text
}

pub fn replay() -> String {
    let mut text = title("The C entries of regions", "refusals_regions");
    [CONCENTRATION_MATRIX, REGION].iter().for_each(|call| text += &call.constants_of(&cases(call), WIDTH));
    text + &told_lengths()
}
