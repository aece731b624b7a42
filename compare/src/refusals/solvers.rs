//! The C entries of the solvers and of caps: all that they hand on, how the solver ended among it; on a refusal everything is left alone.

use oracle::standins::noted;

use super::values::{MARK, MARK_LENGTH, numbers, told as told_lengths};
use crate::constants::{array, hexadecimal};
use crate::linalg::{SOLVERS, tiny};
use crate::refusal::{LENGTH, SIZE, SPACE};
use crate::slepian::caps::{Cap, stated, told};

/// Matrices: one whose squares overflow, one that the rotations don't settle, an ordinary one, and one that the iteration does not settle.
fn matrices() -> [(&'static str, usize, Vec<f64>); 4] {
    [
        ("LARGE", 2, vec![1.0, 1e200, 1e200, 1.0]),
        ("UPPER", 2, vec![0.0, 1.0, 0.0, 0.0]),
        ("ORDINARY", 2, vec![2.0, 1.0, 1.0, 2.0]),
        ("TINY", 3, tiny(&[4, -7, 6, -7, 3, 4, 6, 4, -7])),
    ]
}

/// The words of the numbers, then the lists, with marks behind their answers up to so many places.
fn handed_on(first: &[u64], lists: &[(&[f64], usize)]) -> Vec<String> {
    let list = |&(list, places): &(&[f64], usize)| numbers(&[list, &vec![MARK; places - list.len()]].concat());
    first.iter().map(|&word| hexadecimal(word)).chain(lists.iter().flat_map(list)).collect()
}

fn solver_text() -> String {
    let mut text = array("numbers of the tiny matrix", "TINY", &numbers(&matrices()[3].2));
    for solver in SOLVERS {
        let title = solver.name.to_uppercase();
        for (name, n, matrix) in matrices() {
            let ((values, vectors), notes) = noted(|| (solver.oracle)(&matrix, n));
            let first = [0, notes[0].0 as u64, notes[0].1 as u64];
            let comment = format!("{} of {matrix:?}: settled, count, values and vectors", solver.name);
            text += &array(&comment, &format!("{title}_{name}"), &handed_on(&first, &[(&values, 4), (&vectors, 10)]));
        }
        let marks = [LENGTH as u64, MARK_LENGTH as u64, MARK_LENGTH as u64];
        text += &array("of a number too few", &format!("{title}_REFUSED"), &handed_on(&marks, &[(&[], 4), (&[], 10)]));
    }
    text
}

/// A cap of degree 1 with weights and pairs that are no cap's: orders, concentrations, vectors, and how the solver ended.
fn cap_lists(cosine: f64) -> [Vec<f64>; 4] {
    let cap = Cap { lmax: 1, cosine, weights: vec![1.0, 0.5], latitudes: vec![(0.5, 0.875), (-0.25, 0.96875)] };
    let (functions, notes) = noted(|| cap.oracle());
    [
        functions.iter().map(|f| f.m as f64).collect(),
        functions.iter().map(|f| f.concentration).collect(),
        functions.iter().flat_map(|f| f.coefficients.iter().copied()).collect(),
        told(&notes),
    ]
}

fn cap_text() -> String {
    let cap = |refusal: u32, [orders, concentrations, vectors, settled]: [Vec<f64>; 4], places| {
        handed_on(&[refusal as u64], &[(&orders, 4), (&concentrations, 4), (&vectors, 6), (&settled, places)])
    };
    let lengths = stated(2).map(|length| length as usize);
    array("a cap of degree 1: orders, concentrations, vectors, settled and counts", "CAP", &cap(0, cap_lists(0.25), 5))
        + &array("with an infinite cosine: order 0 does not settle", "CAP_INFINITE", &cap(0, cap_lists(f64::INFINITY), 5))
        + &array("with a place too few for how the solver ended", "CAP_REFUSED", &cap(SPACE, Default::default(), 3))
        + &array("settled and counts of a cap of degree 16, its cosine infinite", "CAP_16_INFINITE", &long_cap(16, f64::INFINITY))
        + &array("of degree 32: order 0 is the iteration's", "CAP_32", &long_cap(32, 0.5))
        + &array("what is told of the lists of a cap of degree 2", "CAP_LENGTHS", &told_lengths(0, &lengths, 8))
        + &array("of degree 181", "CAP_LENGTHS_BEYOND", &told_lengths(SIZE, &[], 8))
        + &array("in a list of 6", "CAP_LENGTHS_SHORT", &told_lengths(SPACE, &[], 6))
}

/// How the solver ended for each order of a cap whose weights and pairs are 0.5, with marks behind it up to 66 places.
fn long_cap(lmax: usize, cosine: f64) -> Vec<String> {
    let cap = Cap { lmax, cosine, weights: vec![0.5; lmax + 1], latitudes: vec![(0.5, 0.5); lmax + 1] };
    handed_on(&[], &[(&told(&noted(|| cap.oracle()).1), 66)])
}

pub fn replay() -> String {
    let mut text = String::from(
        "// What the C entries of the solvers and of caps hand on, numbers as bit patterns, the refusal first; the mark where nothing is.\n",
    );
    text += "// Written by `compare/run replay solvers_c FILE` (see compare/README.md), never by hand.\n";
    text + &solver_text() + &cap_text()
}
