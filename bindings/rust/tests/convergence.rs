//! How a solver ended: of a matrix, of each order of a cap, of a region.

use geopotential::linalg::{
    Convergence, householder_ql, symmetric_eigen, try_householder_ql, try_householder_ql_with, try_symmetric_eigen,
    try_symmetric_eigen_with,
};
use geopotential::slepian::{
    RegionSlepian, cap, concentration_matrix, polar_cap, region, try_polar_cap, try_polar_cap_with, try_region, try_region_with,
};

const fn settled(count: usize) -> Convergence {
    Convergence { settled: true, count }
}

const fn unsettled(count: usize) -> Convergence {
    Convergence { settled: false, count }
}

/// How `symmetric_eigen` and `householder_ql` end for one matrix.
fn ends(a: &[f64], n: usize) -> [Convergence; 2] {
    [try_symmetric_eigen_with(a, n).unwrap().2, try_householder_ql_with(a, n).unwrap().2]
}

#[test]
fn settled_is_not_right() {
    // The squares overflow, and infinity is not above infinity: the rotations stop before the first sweep.
    let large = [1.0, 1e200, 1e200, 1.0];
    let (values, vectors, end) = try_symmetric_eigen_with(&large, 2).unwrap();
    assert_eq!((values, vectors, end), (vec![1.0, 1.0], vec![1.0, 0.0, 0.0, 1.0], settled(0)));
    let (values, _, end) = try_householder_ql_with(&large, 2).unwrap();
    assert!((values[0] + 1e200).abs() < 1e185 && (values[1] - 1e200).abs() < 1e185);
    assert_eq!(end, settled(1));
    // Above 32 rows both are the iteration, whose test a NaN passes.
    assert_eq!(ends(&[f64::NAN; 33 * 33], 33), [settled(0); 2]);
}

#[test]
fn a_matrix_may_settle_by_one_solver_alone() {
    assert_eq!(ends(&[f64::NAN], 1), [unsettled(100), settled(0)]);
    assert_eq!(ends(&[f64::NAN; 32 * 32], 32), [unsettled(100), settled(0)]);
    // Not symmetric: no rotation makes the entry above the diagonal 0.
    assert_eq!(ends(&[0.0, 1.0, 0.0, 0.0], 2), [unsettled(100), settled(0)]);
}

#[test]
fn what_is_diagonal_settles_at_once() {
    assert_eq!(ends(&[], 0), [settled(0); 2]);
    assert_eq!(ends(&[7.0], 1), [settled(0); 2]);
    assert_eq!(ends(&[7.0, 0.0, 0.0, 5.0], 2), [settled(0); 2]);
    for n in [5, 32, 33, 40] {
        let diagonal: Vec<f64> = (0..n * n).map(|k| if k / n == k % n { k as f64 } else { 0.0 }).collect();
        assert_eq!(ends(&diagonal, n), [settled(0); 2], "{n}");
    }
}

#[test]
fn the_plain_calls_answer_the_same_numbers() {
    for n in [1, 2, 7, 32, 33, 50] {
        let a: Vec<f64> = (0..n * n).map(|k| ((k / n + k % n) as f64).sin() + (k / n * (k % n)) as f64 / 64.0).collect();
        let (values, vectors, end) = try_symmetric_eigen_with(&a, n).unwrap();
        assert!(end.settled && end.count <= if n > 32 { 100 * n } else { 99 });
        assert_eq!(try_symmetric_eigen(&a, n).unwrap(), symmetric_eigen(&a, n));
        assert_eq!((values, vectors), symmetric_eigen(&a, n));
        let (values, vectors, end) = try_householder_ql_with(&a, n).unwrap();
        assert!(end.settled && end.count <= 100 * n);
        assert_eq!(try_householder_ql(&a, n).unwrap(), householder_ql(&a, n));
        assert_eq!((values, vectors), householder_ql(&a, n));
    }
}

/// Grünbaum's matrix of one order of a cap, by the published expressions.
fn grunbaum(lmax: usize, m: usize, cos: f64) -> Vec<f64> {
    let (rows, [lf, mf]) = (lmax - m + 1, [lmax, m].map(|x| x as f64));
    let mut g = vec![0.0; rows * rows];
    for i in 0..rows {
        let l = (m + i) as f64;
        g[i * rows + i] = -l * (l + 1.0) * cos;
        if i + 1 < rows {
            let off = (l * (l + 2.0) - lf * (lf + 2.0)) * (((l + 1.0).powi(2) - mf * mf) / ((2.0 * l + 1.0) * (2.0 * l + 3.0))).sqrt();
            (g[i * rows + i + 1], g[(i + 1) * rows + i]) = (off, off);
        }
    }
    g
}

#[test]
fn caps_tell_of_each_order_by_rising_order() {
    for (lmax, theta) in [(0, 1.0), (1, 3.0), (18, 40f64.to_radians()), (40, 0.5), (6, 3.2)] {
        let (functions, orders) = try_polar_cap_with(lmax, theta).unwrap();
        assert_eq!(functions, polar_cap(lmax, theta));
        assert_eq!(functions, try_polar_cap(lmax, theta).unwrap());
        let due: Vec<Convergence> = (0..=lmax).map(|m| ends(&grunbaum(lmax, m, theta.cos()), lmax - m + 1)[0]).collect();
        assert_eq!(orders, due, "L {lmax}");
    }
    let (_, orders) = try_polar_cap_with(18, 40f64.to_radians()).unwrap();
    assert_eq!((orders[0], orders[18]), (settled(7), settled(0)));
}

#[test]
fn a_caps_largest_matrices_go_by_the_iteration() {
    // 34 and 33 rows at m = 0 and 1: a NaN settles there, and nowhere below. A larger cap before it leaves nothing behind.
    try_polar_cap_with(60, 0.5).unwrap();
    let (functions, orders) = try_polar_cap_with(33, f64::NAN).unwrap();
    assert_eq!((functions.len(), orders.len()), (34 * 35 / 2, 34));
    assert_eq!(orders[..2], [settled(0); 2]);
    assert!(orders[2..].iter().all(|&order| order == unsettled(100)));
}

#[test]
fn a_small_region_settles() {
    let (intervals, breaks) = cap(1.2, 0.3, 0.5);
    let (functions, end) = try_region_with(4, &intervals, &breaks, 30).unwrap();
    assert_eq!(functions, region(4, &intervals, &breaks, 30));
    assert_eq!(functions, try_region(4, &intervals, &breaks, 30).unwrap());
    assert!(end.settled && (1..100).contains(&end.count));
    assert_eq!(end, ends(&concentration_matrix(4, &intervals, &breaks, 30), 25)[0]);
}

/// The largest entry of `Dx − λx` over a region's functions.
fn residual(lmax: usize, matrix: &[f64], functions: &[RegionSlepian]) -> f64 {
    let size = (lmax + 1) * (lmax + 1);
    let of = |RegionSlepian { concentration, coefficients }: &RegionSlepian| {
        let orders = |l: usize| (1..=l).flat_map(move |m| [coefficients.c(l, m), coefficients.s(l, m)]);
        let x: Vec<f64> = (0..=lmax).flat_map(|l| [coefficients.c(l, 0)].into_iter().chain(orders(l))).collect();
        let entry = |row: usize| matrix[row * size..][..size].iter().zip(&x).map(|(d, x)| d * x).sum::<f64>() - concentration * x[row];
        (0..size).map(|row| entry(row).abs()).fold(0.0, f64::max)
    };
    functions.iter().map(of).fold(0.0, f64::max)
}

#[test]
fn unsettled_is_not_wrong() {
    // Which of these settle is a matter of the last bits of sines and cosines; most of them do not.
    let mut open = 0;
    for k in 0..8 {
        let (intervals, breaks) = cap(1.0 + 0.01 * k as f64, 0.3, 0.03);
        let (functions, end) = try_region_with(10, &intervals, &breaks, 40).unwrap();
        let matrix = concentration_matrix(10, &intervals, &breaks, 40);
        assert_eq!(end, ends(&matrix, 121)[0]);
        assert!((100..=100 * 121).contains(&end.count));
        assert!(residual(10, &matrix, &functions) < 1e-13);
        open += usize::from(!end.settled);
    }
    assert!(open > 0);
}
