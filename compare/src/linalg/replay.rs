//! The oracle's answers for edge matrices and for dense ones, of all ones about n = 32 without the vectors: eigenvalues, eigenvectors, and then
//! how the solver ended, 1 where it settled or 0, and its count.

use oracle::standins::noted;

use super::{Oracle, SOLVERS, edges, made};
use crate::constants::{array, hexadecimal, number};

/// A dense symmetric matrix of whole numbers, which the replaying program makes by the same formula.
fn dense(n: usize) -> Vec<f64> {
    let side = |i: usize| ((5 * (i % 17)) % 17) as f64 - 8.0;
    made(n, |i, j| side(i) * side(j) + ((29 * (i % 71 + j % 71)) % 71) as f64)
}

/// What a solver answers: its values, its vectors where they are asked for, and how it ended.
fn answer(oracle: Oracle, a: &[f64], n: usize, vectors: bool) -> Vec<String> {
    let ((values, columns), notes) = noted(|| oracle(a, n));
    let numbers = values.iter().chain(columns.iter().filter(|_| vectors)).map(|&x| number(x));
    let ended = notes.iter().flat_map(|&(settled, count)| [settled as u64, count as u64]).map(hexadecimal);
    numbers.chain(ended).collect()
}

/// The edge matrices of up to 5 rows.
fn edge_matrices() -> String {
    let mut text = String::new();
    for size in 0..=5 {
        let all: Vec<Vec<f64>> = edges().into_iter().filter(|(n, _)| *n == size).map(|(_, a)| a).collect();
        if size > 0 {
            let comment = format!("{} matrices of {size} rows, one after the other", all.len());
            let numbers: Vec<String> = all.iter().flatten().map(|&x| number(x)).collect();
            text += &array(&comment, &format!("MATRICES_{size}"), &numbers);
        }
        for solver in SOLVERS {
            let answers: Vec<String> = all.iter().flat_map(|a| answer(solver.oracle, a, size, true)).collect();
            let comment = format!("{}: values, vectors, and how it ended, of each", solver.name);
            text += &array(&comment, &format!("{}_{size}", solver.name.to_uppercase()), &answers);
        }
    }
    text
}

/// All ones, where the two methods meet: up to 32 rows by rotations, 33 by reflections; and no numbers at all.
fn alike() -> String {
    let mut text = String::new();
    for (name, words, cell, sizes) in [("ONES", "ones", 1.0, 27..=33), ("NANS", "NaN", f64::NAN, 33..=33)] {
        for n in sizes {
            let answers = answer(SOLVERS[0].oracle, &vec![cell; n * n], n, false);
            text +=
                &array(&format!("symmetric_eigen of {n} rows of {words}: its values, and how it ended"), &format!("{name}_{n}"), &answers);
        }
    }
    text
}

fn dense_matrices() -> String {
    let mut text = String::new();
    for n in [5, 34] {
        let answers = SOLVERS.map(|solver| answer(solver.oracle, &dense(n), n, true));
        let comment = |name: &str| format!("{name} of a dense matrix of {n} rows: values, vectors, and how it ended");
        if n > 32 {
            // Both calls go by reflections.
            assert_eq!(answers[0], answers[1]);
            text += &array(&comment("both"), &format!("DENSE_{n}"), &answers[0]);
        } else {
            for (solver, answer) in SOLVERS.iter().zip(&answers) {
                text += &array(&comment(solver.name), &format!("{}_DENSE_{n}", solver.name.to_uppercase()), answer);
            }
        }
    }
    text
}

pub fn replay() -> String {
    let mut text = String::from("// The oracle's answers for the crate linalg, numbers as bit patterns.\n");
    text += "// Written by `compare/run replay linalg FILE` (see compare/README.md), never by hand.\n";
    text + &edge_matrices() + &alike() + &dense_matrices()
}
