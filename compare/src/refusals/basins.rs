//! The calls on outlines and the kernel of a basin: cases, and what is told of their lists.

use core::f64::consts::FRAC_PI_2;

use super::regions::{cases, nodes};
use super::values::told;
use super::{ANY, Call, Input, Kind, Output, Value, Work, title};
use crate::constants::{array, number};
use crate::lent::flat;
use crate::polygon::Asked::{self, Breaks, Intervals};
use crate::polygon::{MAX_VERTICES, answer};
use crate::refusal::{MAX_DEGREE, SIZE, SPACE, pairs};

/// The columns of a case.
const WIDTH: usize = 12;

const NODES: usize = 65_535;

/// The vertices of the cases. Of the first five the equator crosses three edges, for the fifth lies on it, and the fourth has the latitude of
/// the second; the others lie north of it, each at a latitude of its own.
fn outline() -> Vec<(f64, f64)> {
    let latitude = |k: usize| [0.5, -0.5, 0.25, -0.5, 0.0].get(k).copied().unwrap_or(k as f64 / 32.0 + 0.5);
    (0..32).map(|k| (k as f64 / 8.0, latitude(k))).collect()
}

/// The outline, the working list, as many numbers as the answer has, and how many they are, which is no list. Vertices that are refused need no answer.
fn lists(asked: Asked, vertices: usize) -> Vec<(Kind, u128)> {
    let outline = outline();
    let numbers = answer(asked, &outline[..vertices.min(outline.len())]).0.len();
    vec![(Input, 2 * vertices as u128), (Work, vertices as u128), (Output, numbers as u128), (Value, 1)]
}

const INTERVALS: Call = Call {
    name: "polygon_intervals",
    limits: &[MAX_VERTICES],
    small: &[&[0], &[1], &[2], &[3], &[4], &[8], &[32], &[5]],
    functionals: &[],
    lists: |n| lists(Intervals(FRAC_PI_2), n[0]),
};

const BREAKS: Call = Call { name: "polygon_breaks", lists: |n| lists(Breaks, n[0]), ..INTERVALS };

const KERNEL: Call = Call {
    name: "basin_kernel",
    limits: &[MAX_DEGREE, NODES],
    small: &[&[0, 0], &[0, 1], &[1, 0], &[2, 3], &[1, 2]],
    functionals: &[],
    lists: |n| {
        let t = pairs(n[0].min(1 << 20));
        [nodes(n).1, vec![(Work, 3 * t), (Output, t), (Output, t)]].concat()
    },
};

/// What is told of the lists of a call for some sizes, in a list of so many places.
fn lengths(call: &Call, name: &str, sizes: &[usize], due: &[u128], places: usize) -> String {
    let large = sizes.iter().zip(call.limits).any(|(size, limit)| size > limit);
    let refusal = if large { SIZE } else { [0, SPACE][(places < due.len()) as usize] };
    let due: Vec<usize> = due.iter().map(|&length| length.min(ANY as u128) as usize).collect();
    let comment = format!("what is told of the lists of {} for {sizes:?}, in a list of {places}", call.name);
    array(&comment, &format!("{}_LENGTHS{name}", call.name.to_uppercase()), &told(refusal, &due, places))
}

/// Of an outline: room for the intervals at every colatitude, and for as many breaks as vertices.
fn outline_lengths(call: &Call, room: fn(u128) -> u128) -> String {
    let of = |name: &str, vertices: usize, places: usize| {
        let v = vertices as u128;
        lengths(call, name, &[vertices], &[2 * v, v, room(v)], places)
    };
    of("", 7, 4)
        + &of("_EVEN", 8, 4)
        + &of("_LARGE", MAX_VERTICES, 4)
        + &of("_BEYOND", MAX_VERTICES + 1, 4)
        + &of("_FAR", ANY, 4)
        + &of("_SHORT", 7, 2)
}

fn kernel_lengths() -> String {
    let of = |name: &str, sizes: [usize; 2], places: usize| {
        let due: Vec<u128> = (KERNEL.lists)(&sizes).into_iter().map(|(_, length)| length).collect();
        lengths(&KERNEL, name, &sizes, &due, places)
    };
    of("", [2, 5], 9)
        + &of("_LARGE", [MAX_DEGREE, NODES], 9)
        + &of("_DEGREE", [MAX_DEGREE + 1, 5], 9)
        + &of("_NODES", [2, NODES + 1], 9)
        + &of("_SHORT", [2, 5], 7)
}

pub fn replay() -> String {
    let mut text = title("The C entries of outlines and kernels", "refusals_basins");
    let outline: Vec<String> = flat(&outline()).into_iter().map(number).collect();
    text += &array(
        "the outline that the cases of polygon_intervals and polygon_breaks cut, which is longer than they need",
        "OUTLINE",
        &outline,
    );
    text += &array("the colatitude where they cut it", "COLATITUDE", &[number(FRAC_PI_2)]);
    [INTERVALS, BREAKS, KERNEL].iter().for_each(|call| text += &call.constants_of(&cases(call), WIDTH));
    text + &outline_lengths(&INTERVALS, |v| v - v % 2) + &outline_lengths(&BREAKS, |v| v) + &kernel_lengths()
}
