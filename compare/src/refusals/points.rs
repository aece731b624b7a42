//! The calls on points: the first derivatives of a field, and the second.

use super::{Call, Input, Kind, Output, Work, title};
use crate::refusal::pairs;

/// The columns of a case.
const WIDTH: usize = 12;

/// The lists of a call for one point at N that may use so many tables of its working list.
fn point(tables: u128, nmax: usize) -> Vec<(Kind, u128)> {
    let size = pairs(nmax);
    vec![(Input, size), (Input, size), (Input, 2 * (nmax as u128 + 1)), (Work, tables * size.min(1 << 100))]
}

/// The same where the point's numbers go to a list, as in C.
pub(super) fn point_to_list(tables: u128, numbers: u128, nmax: usize) -> Vec<(Kind, u128)> {
    [point(tables, nmax), vec![(Output, numbers)]].concat()
}

/// The lists of a call for many points.
fn along(tables: u128, numbers: u128, nmax: usize, points: usize) -> Vec<(Kind, u128)> {
    let (size, points) = (pairs(nmax), points as u128);
    let trig = (2 * (nmax as u128 + 1)).min(1 << 60) * points;
    let room = tables * size.min(1 << 100);
    vec![(Input, size), (Input, size), (Input, points), (Input, 2 * points), (Input, trig), (Work, room), (Output, numbers * points)]
}

pub(super) const PARTIALS: Call =
    Call { name: "partials", limits: &[2700], small: &[&[0], &[1]], functionals: &[], lists: |n| point(4, n[0]) };

const PARTIALS_ALONG: Call = Call {
    name: "partials_along",
    limits: &[2700, 65_535],
    small: &[&[0, 0], &[0, 1], &[1, 2]],
    functionals: &[],
    lists: |n| along(4, 4, n[0], n[1]),
};

/// About degree 3, where no two stated lengths but those of c and s are equal.
pub(super) const SECOND_PARTIALS: Call =
    Call { name: "second_partials", small: &[&[0], &[1], &[2], &[3]], lists: |n| point(5, n[0]), ..PARTIALS };

pub(super) const SECOND_PARTIALS_ALONG: Call = Call {
    name: "second_partials_along",
    small: &[&[0, 0], &[0, 1], &[1, 2], &[3, 4]],
    lists: |n| along(5, 10, n[0], n[1]),
    ..PARTIALS_ALONG
};

pub fn replay() -> String {
    let calls = [PARTIALS, PARTIALS_ALONG, SECOND_PARTIALS, SECOND_PARTIALS_ALONG];
    title("Calls on points", "refusals_points") + &calls.iter().map(|call| call.constants(WIDTH)).collect::<String>()
}
