//! That the oracle itself works: document 01's marked values, and laws that the edited files must still meet.

use core::f64::consts::FRAC_PI_2;

use oracle::linalg::{householder_ql, symmetric_eigen};
use oracle::slepian::{basin_average, basin_kernel, cap, concentration_matrix, polar_cap, polygon};
use oracle::standins::{Node, Number, Total, falling, tricomi};
use oracle::{Coefficients, Functional, Legendre, gauss_grid, gauss_legendre, legendre};

use crate::cases::{Cases, strange};
use crate::lent::{analysis_orders, cap_pairs, nodes_of, orders, pair};
use crate::second_partials::trace_share;
use crate::tally::{Report, Tally, pattern};

/// Equal to within 1e-12 of the larger size.
fn close(x: f64, y: f64) -> bool {
    (x - y).abs() <= 1e-12 * x.abs().max(y.abs())
}

fn same(x: f64, y: f64) -> bool {
    pattern(x) == pattern(y)
}

/// The number, with the canonical NaN for any NaN.
fn quiet(x: f64) -> f64 {
    f64::from_bits(pattern(x))
}

pub fn check(report: &mut Report) {
    report.call("oracle", |tally, cases| {
        marked_values(tally);
        standins(tally);
        tables(tally);
        fields(tally, cases);
        solvers(tally, cases);
        slepian(tally);
        outlines(tally);
    });
}

fn marked_values(tally: &mut Tally) {
    tally.holds(same(4f64.sqrt(), 2.0) && 2f64.sqrt().to_bits() == 0x3ff6_a09e_667f_3bcd, "roots of 4 and 2");
    tally.holds(same((-0f64).sqrt(), -0.0) && same(f64::from_bits(1).sqrt(), 2f64.powi(-537)), "roots of -0 and 2^-1074");
    tally.holds(same(3.0.hypotenuse(4.0), 5.0), "hypot of 3 and 4");
    tally.holds(legendre::idx(2, 1) == 4, "pair (2, 1) stands at 4");
    tally.holds(same(Functional::Potential.factor(3, 8.0, 1.0, 2.0), 0.5), "Potential at n 3");
    let anomaly = [0, 1, 2].map(|n| Functional::GravityAnomaly.factor(n, 8.0, 2.0, 2.0));
    tally.holds(anomaly == [-2.0, 0.0, 2.0], "GravityAnomaly at n 0, 1, 2");
    tally.holds(same(Functional::RadialGradient.factor(0, 8.0, 2.0, 2.0), 2.0), "RadialGradient at n 0");
    let (x, w) = gauss_legendre(1, &[2f64.powi(-54)]);
    tally.holds(same(x[0], 0.0) && same(w[0], 2.0), "Gauss with n 1");
    tally.holds(symmetric_eigen(&[7.0], 1) == (vec![7.0], vec![1.0]), "the one-cell matrix 7");
}

/// Stand-ins against the standard library, where the two agree.
fn standins(tally: &mut Tally) {
    tally.holds(same([0.0f64; 0].into_iter().total(), 0.0) && same([-0.0].into_iter().total(), 0.0), "a sum starts at +0.0");
    for x in strange() {
        tally.holds(same(x.sign(), x.signum()), "signum");
        tally.holds((0..=40).chain([2700, 4000]).all(|n| same(x.power(n), x.powi(n as i32))), "powi");
        for y in strange() {
            // With an infinity and a signalling NaN the C library answers NaN; hence the quiet ones here.
            let (ours, std) = (x.hypotenuse(y), quiet(x).hypot(quiet(y)));
            let near = ours.is_nan() == std.is_nan() && (ours.is_nan() || ours.to_bits().abs_diff(std.to_bits()) <= 2);
            tally.holds(near, "hypot within two units in the last place of the standard library's");
            let std = if x.is_nan() || y.is_nan() { y.is_nan().cmp(&x.is_nan()) } else { y.total_cmp(&x) };
            tally.holds(falling(x, y) == std, "the falling order");
        }
    }
}

fn tables(tally: &mut Tally) {
    let (t, u) = pair(0.3);
    let mut leg = Legendre::new(60);
    leg.compute_with_derivative((t, u));
    tally.holds(close(leg.p(2, 0), 5f64.sqrt() / 2.0 * (3.0 * t * t - 1.0)), "P(2,0)");
    tally.holds(close(leg.dp(1, 0), 3f64.sqrt() * u) && close(leg.dp(1, 1), -3f64.sqrt() * t), "derivatives at n 1");
    let row = (0..=60).map(|m| leg.p(60, m) * leg.p(60, m)).total();
    tally.holds(close(row, 121.0), "the squares of row n add up to 2n+1");
    let (x, w) = gauss_legendre(9, &tricomi(9));
    tally.holds(close(w.iter().copied().total(), 2.0) && same(x[4], 0.0) && x.is_sorted(), "Gauss with n 9");
    let sixteenth = x.iter().zip(&w).map(|(x, w)| w * x.power(16)).total();
    tally.holds(close(sixteenth, 2.0 / 17.0), "Gauss with n 9 is exact for degree 16");
}

/// A field of degree 4: synthesis and analysis, partial derivatives, cutting and rescaling.
fn fields(tally: &mut Tally, cases: &mut Cases) {
    let (nmax, r) = (4, 7.5e6);
    let mut field = Coefficients::zeros(3.986004415e14, 6378136.3, nmax);
    for n in 0..=nmax {
        for m in 0..=n {
            field.set(n, m, cases.fraction() - 0.5, if m == 0 { 0.0 } else { cases.fraction() - 0.5 });
        }
    }
    let (lats, lons) = gauss_grid(nmax);
    let pairs: Vec<_> = lats.iter().map(|&lat| pair(lat)).collect();
    let lent: Vec<_> = lons.iter().map(|&lon| orders(lon, nmax)).collect();
    let lent: Vec<&[(f64, f64)]> = lent.iter().map(Vec::as_slice).collect();
    let values = field.grid(&Functional::Potential, r, &pairs, &lent);
    tally.holds(values.len() == (nmax + 1) * (2 * nmax + 2), "a grid has rows times longitudes");
    let weights = gauss_legendre(nmax + 1, &tricomi(nmax + 1)).1;
    let back =
        Coefficients::analysis(&Functional::Potential, r, &values, nmax, field.gm, field.radius, &weights, &pairs, &analysis_orders(nmax));
    let error = field.c.iter().chain(&field.s).zip(back.c.iter().chain(&back.s)).map(|(x, y)| (x - y).abs()).fold(0.0, f64::max);
    tally.holds(error < 1e-13, "analysis is the inverse of a grid");

    let (row, column) = (3, 7);
    let point = field.partials(r, pairs[row], lent[column]);
    tally.holds(close(point.v, values[row * lons.len() + column]), "partials and grid agree on the potential");
    let disturbance = field.grid(&Functional::GravityDisturbance, r, &pairs[row..=row], &lent[column..=column]);
    tally.holds(close(-point.dr, disturbance[0]), "partials and grid agree on the radial derivative");
    let second = field.second_partials(r, pairs[row], lent[column]);
    tally.holds(close(second.first.v, point.v) && close(second.first.dlat, point.dlat), "second_partials has the first ones");
    tally.holds(trace_share(second.tensor_neu(r, pairs[row]).as_flattened()) < 1e-12, "the tensor has no trace");
    let (acceleration, gravity) = (point.acceleration_neu(r, pairs[row]), point.gravity_neu(r, pairs[row], 7.292115e-5));
    tally.holds(acceleration[2] == point.dr && gravity[1] == acceleration[1] && gravity[2] > acceleration[2], "acceleration and gravity");

    let rescaled = field.rescaled(4e14, 6.4e6).partials(r, pairs[row], lent[column]);
    tally.holds(close(rescaled.v, point.v), "rescaling keeps the potential");
    tally.holds(field.truncated(2).c == field.c[..6] && field.truncated(9) == field, "truncated");
    let variance = field.degree_variances().into_iter().total();
    tally.holds(close(variance, field.c.iter().chain(&field.s).map(|x| x * x).total()), "degree variances");
    tally.holds(field.degree_amplitudes(&Functional::GeoidHeight).len() == nmax + 1, "degree amplitudes");
    let mut sphere = Coefficients::zeros(1.0, 1.0, 2);
    sphere.set(0, 0, 1.0, 0.0);
    let mean = basin_average(&field, &sphere, &Functional::Potential, r);
    tally.holds(close(mean, field.gm / r * field.c(0, 0)), "the average over the sphere");
}

fn solvers(tally: &mut Tally, cases: &mut Cases) {
    let (mut values, _) = symmetric_eigen(&[2.0, 1.0, 1.0, 2.0], 2);
    values.sort_by(f64::total_cmp);
    tally.holds(close(values[0], 1.0) && close(values[1], 3.0), "eigenvalues of [[2, 1], [1, 2]]");
    for n in [5, 40] {
        let mut a = vec![0.0; n * n];
        for i in 0..n {
            for j in 0..=i {
                a[i * n + j] = cases.fraction();
                a[j * n + i] = a[i * n + j];
            }
        }
        for (values, vectors) in [symmetric_eigen(&a, n), householder_ql(&a, n)] {
            let residue = |i: usize, k: usize| (0..n).map(|j| a[i * n + j] * vectors[j * n + k]).total() - values[k] * vectors[i * n + k];
            tally.holds((0..n * n).all(|i| residue(i / n, i % n).abs() < 1e-12), "a matrix times an eigenvector");
        }
    }
}

fn slepian(tally: &mut Tally) {
    let (lmax, x0) = (2, 40f64.to_radians().cos());
    let (nodes, weights) = gauss_legendre(lmax + 1, &tricomi(lmax + 1));
    let functions = polar_cap(lmax, x0, &weights, &cap_pairs(x0, &nodes));
    tally.holds(functions.len() == 6, "(L+1)(L+2)/2 functions");
    tally.holds(functions.is_sorted_by(|a, b| a.concentration >= b.concentration), "best concentrated first");
    let shannon = 9.0 * (1.0 - x0) / 2.0;
    let sum = functions.iter().map(|f| if f.m == 0 { f.concentration } else { 2.0 * f.concentration }).total();
    tally.holds(close(sum, shannon), "the concentrations of a cap add up to the Shannon number");
    // About the pole, where no sine has an integral, and about a point.
    for (colat, lon) in [(0.0, 0.0), (0.8, 1.0)] {
        let (intervals, breaks) = cap(colat, lon, 40f64.to_radians());
        matrix_and_kernel(tally, lmax, &nodes_of(lmax, &intervals, &breaks, 40), shannon);
    }
}

/// A square, and outlines whose crossings or colatitudes are NaN, which rank last.
fn outlines(tally: &mut Tally) {
    let (square, of_square) = polygon(&[(0.0, -1.0), (2.0, -1.0), (2.0, 1.0), (0.0, 1.0)]);
    tally.holds(square(FRAC_PI_2) == [(0.0, 2.0)] && square(FRAC_PI_2 - 1.0).is_empty(), "the intervals of a square");
    tally.holds(of_square == [FRAC_PI_2 - 1.0, FRAC_PI_2 + 1.0], "the breaks of a square");
    let ends = polygon(&[(f64::NEG_INFINITY, 1.0), (-0.2131151305925587, -0.5)]).0(0.6391941977148541);
    tally.holds(ends.len() == 1 && ends[0].0 == f64::NEG_INFINITY && ends[0].1.is_nan(), "a crossing that is NaN comes last");
    let breaks = polygon(&[(0.0, f64::NAN), (0.0, -1.0), (0.0, f64::NAN)]).1;
    tally.holds(breaks.len() == 3 && breaks[0] == FRAC_PI_2 + 1.0 && breaks[2].is_nan(), "every break that is NaN stays and comes last");
}

fn matrix_and_kernel(tally: &mut Tally, lmax: usize, nodes: &[Node], shannon: f64) {
    let n = (lmax + 1).pow(2);
    let matrix = concentration_matrix(lmax, nodes);
    tally.holds((matrix.iter().step_by(n + 1).copied().total() - shannon).abs() < 1e-6, "the region of a cap has the same trace");
    let kernel = basin_kernel(lmax, nodes);
    let entry = |place: usize| matrix[place * n];
    let agrees = |l: usize, m: usize| match m {
        0 => same(kernel.c(l, 0), entry(l * l)),
        _ => same(kernel.c(l, m), entry(l * l + 2 * m - 1)) && same(kernel.s(l, m), entry(l * l + 2 * m)),
    };
    tally.holds((0..=lmax).all(|l| (0..=l).all(|m| agrees(l, m))), "a kernel is the first row of its matrix");
}
