//! The crate `linalg` against the oracle's `symmetric_eigen` and `householder_ql`.

pub mod bench;
pub mod replay;

use oracle::linalg::{householder_ql, symmetric_eigen};
use oracle::standins::noted;

use crate::cases::Cases;
use crate::ended::{Ended, most};
use crate::entries::*;
use crate::guarded::Guarded;
use crate::refusal::{LENGTH, SIZE, SPACE, answered, fault};
use crate::tally::{Report, Tally};

/// The random small matrices of a call.
const COUNT: u64 = 60_000;

/// One of the two calls, ours and the oracle's.
type Ours = unsafe extern "C" fn(usize, *const f64, usize, *mut f64, usize, *mut f64, usize, *mut f64, usize, *mut u32, *mut usize) -> u32;
type Oracle = fn(&[f64], usize) -> (Vec<f64>, Vec<f64>);

/// The two, each with the most steps that it may take on n rows.
pub const SOLVERS: [Solver; 2] = [
    Solver { name: "symmetric_eigen", ours: geopotential_symmetric_eigen, oracle: symmetric_eigen, most },
    Solver { name: "householder_ql", ours: geopotential_householder_ql, oracle: householder_ql, most: |n| 100 * n },
];

#[derive(Clone, Copy)]
pub struct Solver {
    pub name: &'static str,
    pub ours: Ours,
    pub oracle: Oracle,
    pub most: fn(usize) -> usize,
}

pub fn compare(report: &mut Report) {
    for solver in SOLVERS {
        report.call(&format!("linalg.{}", solver.name), |tally, cases| matrices(tally, cases, solver));
        report.call(&format!("linalg.{}, refusals", solver.name), |tally, cases| refusals(tally, cases, solver));
    }
}

/// The numbers that a call works with: n² + 4n.
pub fn work_size(n: usize) -> u128 {
    let n = n as u128;
    n * n + 4 * n
}

/// The refusal due, by n and the lengths of a, working list, values and vectors.
fn due(n: usize, lengths: &[usize; 4]) -> u32 {
    let [a, work, values, vectors] = lengths.map(|length| length as u128);
    let square = n as u128 * n as u128;
    if n > 512 {
        SIZE
    } else if a != square {
        LENGTH
    } else if work < work_size(n) || values < n as u128 || vectors < square {
        SPACE
    } else {
        0
    }
}

fn call(tally: &mut Tally, solver: Solver, n: usize, matrix: &[f64], lengths: [usize; 4]) {
    let mut a = Guarded::of(matrix, lengths[0]);
    let (mut work, mut values, mut vectors) = (Guarded::marked(lengths[1]), Guarded::marked(lengths[2]), Guarded::marked(lengths[3]));
    let due = due(n, &lengths);
    let mut ended = Ended::lent();
    let number = unsafe {
        let (a, w) = ((a.pointer(), a.len()), (work.pointer(), work.len()));
        let (d, v) = ((values.pointer(), values.len()), (vectors.pointer(), vectors.len()));
        (solver.ours)(n, a.0, a.1, w.0, w.1, d.0, d.1, v.0, v.1, &mut ended.settled, &mut ended.count)
    };
    let (answer, notes) = answered(due, || noted(|| (solver.oracle)(matrix, n))).unwrap_or_default();
    // The used part of the working list is free after an accepted call.
    let kept = work.now()[..if due == 0 { work_size(n) as usize } else { 0 }].to_vec();
    let fault = fault(number, due)
        .or_else(|| values.fault("values", &answer.0))
        .or_else(|| vectors.fault("vectors", &answer.1))
        .or_else(|| ended.fault(notes.last().copied(), (solver.most)(n)))
        .or_else(|| work.fault("work", &kept))
        .or_else(|| a.fault("a", &[]));
    tally.call(fault, || format!("n {n}, lengths {lengths:?}, a {:x?}", matrix.iter().take(9).map(|x| x.to_bits()).collect::<Vec<_>>()));
}

fn stated(n: usize) -> [usize; 4] {
    [n * n, work_size(n) as usize, n, n * n]
}

/// The matrix with f(i, j) at row i and column j.
fn made(n: usize, mut f: impl FnMut(usize, usize) -> f64) -> Vec<f64> {
    (0..n * n).map(|k| f(k / n, k % n)).collect()
}

/// The lower triangle on both sides.
fn symmetric(n: usize, mut a: Vec<f64>) -> Vec<f64> {
    (0..n * n).for_each(|k| a[k] = a[(k / n).max(k % n) * n + (k / n).min(k % n)]);
    a
}

/// A matrix of one of many shapes: symmetric or not, tridiagonal, graded, of low rank, sparse, with repeated values, with numbers of any shape.
pub fn shaped(cases: &mut Cases, n: usize) -> Vec<f64> {
    let shape = cases.below(12);
    let mut any = |strange: u64| match strange {
        0 => cases.number(),
        1 => cases.subnormal(),
        _ => cases.fraction() - 0.5,
    };
    match shape {
        0 => made(n, |_, _| any(0)),
        1 => symmetric(n, made(n, |_, _| any(1))),
        2 => made(n, |_, _| any(2)),
        3 => symmetric(n, made(n, |i, j| if i.abs_diff(j) <= 1 { any(2) } else { 0.0 })),
        4 => symmetric(n, made(n, |i, j| if i.abs_diff(j) <= 1 { any(1) } else { 0.0 })),
        5 => symmetric(n, made(n, |i, j| any(2) * 10f64.powi(-((i + j) as i32)))),
        6 => {
            let v: Vec<f64> = (0..n).map(|_| any(2)).collect();
            made(n, |i, j| v[i] * v[j])
        }
        7 => symmetric(n, made(n, |i, j| if (i * 7 + j * 3) % 5 == 0 { any(2) } else { 0.0 })),
        8 => made(n, |i, j| if i == j { any(2) } else { 0.0 }),
        9 => made(n, |_, _| 1.0),
        10 => symmetric(n, made(n, |i, j| any(2) * if (i + j) % 3 == 0 { 1e160 } else { 1e-160 })),
        _ => symmetric(n, made(n, |_, _| any(2))),
    }
}

fn matrices(tally: &mut Tally, cases: &mut Cases, solver: Solver) {
    for (n, matrix) in edges() {
        call(tally, solver, n, &matrix, stated(n));
    }
    for _ in cases.times(COUNT) {
        let n = cases.below(9) as usize;
        let matrix = shaped(cases, n);
        let longer = stated(n).map(|length| length + if length == n * n { 0 } else { cases.below(4) as usize });
        call(tally, solver, n, &matrix, longer);
    }
    for n in 0..=64 {
        for _ in cases.times(24) {
            let matrix = shaped(cases, n);
            call(tally, solver, n, &matrix, stated(n));
        }
    }
    for n in [100, 181, 181, 181] {
        let matrix = shaped(cases, n);
        call(tally, solver, n, &matrix, stated(n));
    }
    let largest = symmetric(512, made(512, |_, _| cases.fraction() - 0.5));
    call(tally, solver, 512, &largest, stated(512));
}

/// So many times the smallest number above zero, each.
pub fn tiny(cells: &[i16]) -> Vec<f64> {
    cells.iter().map(|&cell| cell as f64 * 5e-324).collect()
}

/// Matrices that are easily got wrong.
pub fn edges() -> Vec<(usize, Vec<f64>)> {
    let (nan, inf) = (f64::NAN, f64::INFINITY);
    let mut list = vec![
        (0, vec![]),
        (1, vec![7.0]),
        (1, vec![-0.0]),
        (1, vec![nan]),
        (2, vec![0.0, 1.0, 0.0, 0.0]),
        (2, vec![0.0, 0.0, 1.0, 0.0]),
        (2, vec![1.0, 1e200, 1e200, 1.0]),
        (2, vec![2.0, 1.0, 1.0, 2.0]),
        // The test passes before the hundredth sweep; it would after it; just, and just not, before the first.
        (2, vec![60541859004416.0, 30.0, 0.0, 60541859004416.0]),
        (2, vec![14551349198848.0, 16.0, 0.0, 14551349198848.0]),
        (2, vec![1.0, f64::from_bits(0x3c70_4e05_8e66_7b90), f64::from_bits(0x3c70_4e05_8e66_7b90), 1.0]),
        (2, vec![1.0, f64::from_bits(0x3c70_4e05_8e66_7b91), f64::from_bits(0x3c70_4e05_8e66_7b91), 1.0]),
        (2, vec![1.0, nan, nan, 1.0]),
        (2, vec![inf, 1.0, 1.0, -inf]),
        (2, vec![0.0, 5e-324, 5e-324, 0.0]),
        (3, vec![0.0; 9]),
        (3, vec![-0.0; 9]),
        // A round that breaks off on a zero; the first number does not settle; two do not; the second alone does not; one that
        // would meet its test after the hundredth round.
        (3, tiny(&[6, -2, -4, -2, 5, -3, -4, -3, 6])),
        (3, tiny(&[4, -7, 6, -7, 3, 4, 6, 4, -7])),
        (4, tiny(&[-3, 5, -3, -1, 5, -4, 7, 6, -3, 7, -5, -1, -1, 6, -1, -2])),
        (4, tiny(&[1, 6, 1, -7, 6, 5, 4, 3, 1, 4, 6, 2, -7, 3, 2, -6])),
        (4, tiny(&[15, -265, 162, 475, -265, -576, 83, -741, 162, 83, -759, 43, 475, -741, 43, 1011])),
        (4, made(4, |i, j| if i.abs_diff(j) == 1 { 5e-324 } else { 0.0 })),
        (5, made(5, |i, j| if i.abs_diff(j) == 1 { 1e-300 } else { -0.0 })),
    ];
    list.push((33, vec![nan; 33 * 33]));
    list.extend((27..=34).map(|n| (n, vec![1.0; n * n])));
    list
}

fn refusals(tally: &mut Tally, cases: &mut Cases, solver: Solver) {
    for n in [0, 1, 2, 3, 33] {
        let matrix: Vec<f64> = made(n, |_, _| cases.fraction());
        for choice in 0..81usize {
            let mut lengths = stated(n);
            // Each list one too short, right, or one too long.
            for (place, length) in lengths.iter_mut().enumerate() {
                *length = (*length + choice / 3usize.pow(place as u32) % 3).saturating_sub(1);
            }
            call(tally, solver, n, &matrix, lengths);
        }
        for large in [513, 514, 65_536, 1 << 32, (1 << 32) + 1, 1 << 63, usize::MAX] {
            call(tally, solver, large, &matrix, stated(n));
        }
        call(tally, solver, n + 1, &matrix, stated(n));
        call(tally, solver, 512, &matrix, stated(n));
    }
}
