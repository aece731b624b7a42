//! The calls on models, tables and quadrature.

use super::{ANY, Call, Input, Love, Output, constants, distinct, heads, title};
use crate::refusal::{Checks, MAX_DEGREE, pairs};

/// The columns of a case.
const WIDTH: usize = 6;

const CALLS: [Call; 9] = [
    Call { name: "factor", limits: &[2700], small: &[&[0], &[1]], functionals: &[0, 4], lists: |n| vec![(Love, n[0] as u128 + 1)] },
    Call { name: "zeros", limits: &[2700], small: &[&[0], &[1]], functionals: &[], lists: |n| vec![(Output, pairs(n[0])); 2] },
    Call {
        name: "truncated",
        limits: &[2700, ANY],
        // Cuts of 33 and of 64 bits, of which the low ones are the base's.
        small: &[&[0, 0], &[0, ANY], &[1, 0], &[1, 2], &[1, 2701], &[2, (1 << 32) + 1], &[2, (1 << 63) + 1], &[2, 1]],
        functionals: &[],
        lists: |n| [vec![(Input, pairs(n[0])); 2], vec![(Output, pairs(n[0].min(n[1]))); 2]].concat(),
    },
    Call {
        name: "rescaled",
        limits: &[2700],
        small: &[&[0], &[1]],
        functionals: &[],
        lists: |n| [vec![(Input, pairs(n[0])); 2], vec![(Output, pairs(n[0])); 2]].concat(),
    },
    Call {
        name: "degree_variances",
        limits: &[2700],
        small: &[&[0], &[1]],
        functionals: &[],
        lists: |n| vec![(Input, pairs(n[0])), (Input, pairs(n[0])), (Output, n[0] as u128 + 1)],
    },
    Call {
        name: "degree_amplitudes",
        limits: &[2700],
        small: &[&[0], &[1]],
        functionals: &[1, 3],
        lists: |n| vec![(Input, pairs(n[0])), (Input, pairs(n[0])), (Love, n[0] as u128 + 1), (Output, n[0] as u128 + 1)],
    },
    Call { name: "legendre_new", limits: &[2700], small: &[&[0], &[1]], functionals: &[], lists: |n| vec![(Output, pairs(n[0])); 2] },
    Call {
        name: "legendre_compute",
        limits: &[2700],
        small: &[&[0], &[1]],
        functionals: &[],
        lists: |n| vec![(Input, pairs(n[0])), (Input, pairs(n[0])), (Output, pairs(n[0]))],
    },
    Call {
        name: "compute_with_derivative",
        limits: &[2700],
        small: &[&[0], &[1]],
        functionals: &[],
        lists: |n| [vec![(Input, pairs(n[0])); 2], vec![(Output, pairs(n[0])); 2]].concat(),
    },
];

const GAUSS: Call = Call {
    name: "gauss_legendre",
    limits: &[2701],
    small: &[&[0], &[1], &[2], &[3]],
    functionals: &[],
    lists: |n| vec![(Input, (n[0] as u128).div_ceil(2)), (Output, n[0] as u128), (Output, n[0] as u128)],
};

/// Calls for one entry of N, with so many tables: N, the tables' lengths, n, m.
fn entries(name: &str, tables: usize, changed: impl Fn(u64) -> u64) -> String {
    let places = [(0, 0), (0, 1), (1, 0), (1, 1), (1, 2), (2, 0), (2, 2), (2, 3), (ANY, 0), (0, ANY), (ANY, ANY)];
    let mut cases: Vec<(usize, Vec<usize>, (usize, usize))> = places.map(|place| (1, vec![3; tables], place)).to_vec();
    cases.extend([(0, 0), (0, 1), (1, 0)].map(|place| (0, vec![1; tables], place)));
    for table in 0..tables {
        for (length, place) in [(2, (1, 1)), (4, (1, 1)), (2, (2, 0)), (4, (0, 1))] {
            let mut lengths = vec![3; tables];
            lengths[table] = length;
            cases.push((1, lengths, place));
        }
    }
    for nmax in [MAX_DEGREE, MAX_DEGREE + 1, ANY] {
        cases.extend([(0, 0), (1, 2), (ANY, 0)].map(|place| (nmax, vec![3; tables], place)));
    }
    let (mut rows, mut dues) = (Vec::new(), Vec::new());
    for (nmax, lengths, (n, m)) in distinct(cases) {
        let inputs: Vec<(usize, u128)> = lengths.iter().map(|&length| (length, pairs(nmax))).collect();
        let due = Checks { degree: nmax, inputs: &inputs, place: Some((n, m)), ..Checks::default() }.due();
        rows.push([&[nmax], &lengths[..], &[n, m]].concat().into_iter().map(|x| x as u64).collect::<Vec<u64>>());
        dues.push([due as u64, if due == 0 { changed((n * (n + 1) / 2 + m) as u64) } else { 0 }]);
    }
    constants(name, WIDTH, &rows, &dues)
}

/// The head of zeros, of a field that is cut, of one that is rescaled: gm, radius, tide, N, date.
fn models() -> String {
    let (gm, radius) = (3.5f64.to_bits(), 7.25f64.to_bits());
    let (new_gm, new_radius) = (2.5f64.to_bits(), 1.75f64.to_bits());
    let mut list = vec![[gm, radius, 3, 0, 0], [gm, radius, 3, 1, 0]];
    for (tide, cut, date) in [(0, 0, 0), (1, 0, 1), (2, 0, 3), (3, 0, 6), (0, 1, 4), (1, 2, 5), (2, 2701, 0)] {
        list.push([gm, radius, tide, cut.min(1), date]);
    }
    list.extend([(0, 0), (1, 1), (2, 8), (3, 6)].map(|(tide, date)| [new_gm, new_radius, tide, 1, date]));
    heads("heads of made models: gm, radius, tide, N and date of zeros, of fields that are cut, of fields that are rescaled", &list)
}

pub fn replay() -> String {
    let mut text = title("Calls on models and tables", "refusals");
    CALLS.iter().chain([&GAUSS]).for_each(|call| text += &call.constants(WIDTH));
    text += &super::grow::refusals(WIDTH);
    // An entry's value tells its place: the tables hold 1, 2, 3, ..
    text += &entries("entry", 1, |k| 100 + k + 1);
    // One place of each table.
    text += &entries("set", 2, |k| (100 + k + 1) * 10_001);
    text + &models()
}
