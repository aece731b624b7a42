//! Symmetric matrices, polar caps and regions.

use oracle::standins::tricomi;

use crate::cases::Cases;
use crate::inputs::{angle, fault, field_fault};
use crate::lent::{cap_pairs, nodes_of};
use crate::tally::{Report, Tally, shown};

pub fn compare(report: &mut Report) {
    report.call("symmetric_eigen", |tally, cases| {
        solvers(tally, cases, geopotential::linalg::symmetric_eigen, oracle::linalg::symmetric_eigen)
    });
    report
        .call("householder_ql", |tally, cases| solvers(tally, cases, geopotential::linalg::householder_ql, oracle::linalg::householder_ql));
    report.call("polar_cap", caps);
    report.call("concentration_matrix, region", regions);
}

/// A solver, ours or the oracle's.
type Solver = fn(&[f64], usize) -> (Vec<f64>, Vec<f64>);

fn solvers(tally: &mut Tally, cases: &mut Cases, ours: Solver, oracle: Solver) {
    let mut sizes: Vec<usize> = cases.times(3_000).map(|_| cases.below(12) as usize).collect();
    sizes.extend((0..=64).chain([100, 181, 512]));
    for n in sizes {
        let a = matrix(cases, n);
        let (ours, oracle) = (ours(&a, n), oracle(&a, n));
        let fault = fault("values", &ours.0, &oracle.0).or_else(|| fault("vectors", &ours.1, &oracle.1));
        tally.call(fault, || format!("n {n}, {:?}", &a[..a.len().min(16)]));
    }
}

/// A symmetric matrix, ordinary, sparse or of numbers of any shape; or one that is not symmetric.
fn matrix(cases: &mut Cases, n: usize) -> Vec<f64> {
    let kind = cases.below(4);
    let mut a: Vec<f64> = (0..n * n)
        .map(|_| match kind {
            0 => cases.number(),
            1 if cases.below(3) > 0 => 0.0,
            _ => cases.fraction() - 0.5,
        })
        .collect();
    if kind < 3 {
        for i in 0..n {
            (0..i).for_each(|j| a[i * n + j] = a[j * n + i]);
        }
    }
    a
}

fn caps(tally: &mut Tally, cases: &mut Cases) {
    let mut degrees: Vec<usize> = cases.times(2_000).map(|_| cases.below(14) as usize).collect();
    degrees.extend([31, 32, 33, 60, 96, 180]);
    for lmax in degrees {
        let theta = if cases.below(3) == 0 { angle(cases) } else { 3.2 * cases.fraction() };
        let ours = geopotential::slepian::polar_cap(lmax, theta);
        let (x, w) = oracle::gauss_legendre(lmax + 1, &tricomi(lmax + 1));
        let oracle = oracle::slepian::polar_cap(lmax, theta.cos(), &w, &cap_pairs(theta.cos(), &x));
        let missing = (ours.len() != oracle.len()).then(|| format!("{} functions, due {}", ours.len(), oracle.len()));
        let fault = missing.or_else(|| ours.iter().zip(&oracle).find_map(|(ours, oracle)| function_fault(ours, oracle)));
        tally.call(fault, || format!("L {lmax}, angle {}", shown(theta)));
    }
}

/// What is wrong with one function of a cap.
fn function_fault(ours: &geopotential::slepian::Slepian, oracle: &oracle::slepian::Slepian) -> Option<String> {
    (ours.m != oracle.m)
        .then(|| format!("order {}, due {}", ours.m, oracle.m))
        .or_else(|| fault("concentration", &[ours.concentration], &[oracle.concentration]))
        .or_else(|| fault("coefficients", &ours.coefficients, &oracle.coefficients))
}

/// Caps about any point, drawn basins, and intervals of any numbers; matrix and functions by nodes that are kept, too.
fn regions(tally: &mut Tally, cases: &mut Cases) {
    let mut degrees: Vec<usize> = cases.times(2_000).map(|_| cases.below(6) as usize).collect();
    degrees.extend([8, 10, 21]);
    for lmax in degrees {
        let count = cases.below(7) as usize;
        let (cap, breaks) = geopotential::slepian::cap(angle(cases), angle(cases), 1.6 * cases.fraction());
        tally.call(region_fault(lmax, &cap, &breaks, count), || format!("L {lmax}, a cap, breaks {breaks:?}, {count} nodes"));
        let vertices: Vec<(f64, f64)> = (0..3 + cases.below(6)).map(|_| (6.0 * cases.fraction(), 3.0 * cases.fraction() - 1.5)).collect();
        let (basin, breaks) = oracle::slepian::polygon(&vertices);
        tally.call(region_fault(lmax, &basin, &breaks, count), || format!("L {lmax}, vertices {vertices:?}, {count} nodes"));
        let (ends, breaks): (Vec<f64>, Vec<f64>) = ((0..4).map(|_| cases.number()).collect(), (0..3).map(|_| angle(cases)).collect());
        let any = move |theta: f64| if theta > ends[3] { vec![] } else { vec![(ends[0], ends[1]), (ends[1], ends[2])] };
        tally.call(region_fault(lmax, &any, &breaks, count), || format!("L {lmax}, any numbers, breaks {breaks:?}, {count} nodes"));
    }
}

/// What is wrong with a region's matrix and its functions.
fn region_fault(lmax: usize, intervals: geopotential::slepian::Intervals, breaks: &[f64], count: usize) -> Option<String> {
    let nodes = nodes_of(lmax, intervals, breaks, count);
    let matrix = geopotential::slepian::concentration_matrix(lmax, intervals, breaks, count);
    let ours = geopotential::slepian::region(lmax, intervals, breaks, count);
    let oracle = oracle::slepian::region(lmax, &nodes);
    let kept = geopotential::slepian::Nodes::new(lmax, intervals, breaks, count);
    fault("matrix", &matrix, &oracle::slepian::concentration_matrix(lmax, &nodes))
        .or_else(|| fault("matrix of kept nodes", &kept.concentration_matrix(), &matrix))
        .or_else(|| functions_fault("region", &ours, &oracle))
        .or_else(|| functions_fault("region of kept nodes", &kept.region(), &oracle))
}

/// What is wrong with a region's functions.
fn functions_fault(name: &str, ours: &[geopotential::slepian::RegionSlepian], oracle: &[oracle::slepian::RegionSlepian]) -> Option<String> {
    let missing = (ours.len() != oracle.len()).then(|| format!("{} functions, due {}", ours.len(), oracle.len()));
    let fault = missing.or_else(|| {
        ours.iter().zip(oracle).find_map(|(ours, oracle)| {
            fault("concentration", &[ours.concentration], &[oracle.concentration])
                .or_else(|| field_fault(&ours.coefficients, &oracle.coefficients, None))
        })
    });
    fault.map(|fault| format!("{name}: {fault}"))
}
