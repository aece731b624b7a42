//! Basins: outlines that are drawn, kernels, and averages by them.

use core::f64::consts::{FRAC_PI_2, TAU};

use geopotential::Refusal;
use geopotential::slepian::{Intervals, Nodes, basin_average, basin_kernel, cap, concentration_matrix, polygon, try_polygon};

use crate::cases::Cases;
use crate::inputs::{Field, Functionals, angle, fault, field_fault, love, radius};
use crate::lent::{flat, nodes_of};
use crate::tally::{Report, Tally, shown};

pub fn compare(report: &mut Report) {
    report.call("polygon", outlines);
    report.call("polygon, large", large_outlines);
    report.call("basin_kernel", kernels);
    report.call("basin_kernel, first rows", first_rows);
    report.call("basin_average, drawn", averages);
}

/// Longitudes by which a cut is NaN or infinite.
const ENDLESS: [f64; 4] = [f64::NAN, -f64::NAN, f64::INFINITY, f64::NEG_INFINITY];

/// The vertices of an outline: a star about a point, any points of the sphere, points of a coarse grid (many on one parallel), numbers of any
/// shape, or a star with poles and numbers of any shape among its own.
fn outline(cases: &mut Cases, vertices: usize) -> Vec<(f64, f64)> {
    let (kind, (lon, lat)) = (cases.below(5), (angle(cases), 2.0 * cases.fraction() - 1.0));
    let vertex = |k: usize| {
        let (turn, size) = (k as f64 / vertices as f64 * TAU, 0.1 + 0.4 * cases.fraction());
        let star = (lon + size * turn.cos(), lat + size * turn.sin());
        match kind {
            0 => star,
            1 => (6.0 * cases.fraction(), 3.0 * cases.fraction() - 1.5),
            2 => (cases.below(9) as f64 / 4.0, cases.below(9) as f64 / 4.0 - 1.0),
            3 => (cases.number(), cases.number()),
            _ => [star, (cases.number(), star.1), (star.0, angle(cases)), (ENDLESS[cases.below(4) as usize], star.1), (star.0, FRAC_PI_2)]
                [cases.below(5) as usize],
        }
    };
    (0..vertices).map(vertex).collect()
}

/// Colatitudes: those of two vertices, between two and close to one, of the sphere, close to a pole, of any shape.
fn colatitudes(cases: &mut Cases, outline: &[(f64, f64)]) -> [f64; 7] {
    let mut vertex = || outline.get(cases.below(outline.len().max(1) as u64) as usize).map_or(0.5, |&(_, lat)| FRAC_PI_2 - lat);
    let [one, other] = [vertex(), vertex()];
    let close = f64::from_bits(one.to_bits().wrapping_add(cases.below(3)).wrapping_sub(1));
    [one, other, (one + other) / 2.0, close, 3.2 * cases.fraction(), cases.subnormal(), cases.number()]
}

fn outlines(tally: &mut Tally, cases: &mut Cases) {
    for _ in cases.times(40_000) {
        let vertices = cases.below(14) as usize;
        let outline = outline(cases, vertices);
        let thetas = colatitudes(cases, &outline);
        outline_cases(tally, &outline, &thetas, || format!("{outline:?}"));
    }
}

/// An outline's breaks, and its intervals at each colatitude.
fn outline_cases(tally: &mut Tally, outline: &[(f64, f64)], thetas: &[f64], input: impl Fn() -> String) {
    let ((ours, breaks), (oracle, due)) = (polygon(outline), oracle::slepian::polygon(outline));
    tally.call(fault("breaks", &breaks, &due), &input);
    for &theta in thetas {
        tally.call(fault("intervals", &flat(&ours(theta)), &flat(&oracle(theta))), || format!("colatitude {}, {}", shown(theta), input()));
    }
}

/// Outlines about the sizes where a working list changes, up to the largest, and those that are refused.
fn large_outlines(tally: &mut Tally, cases: &mut Cases) {
    let mut sizes: Vec<usize> = cases.times(400).map(|_| 14 + cases.below(300) as usize).collect();
    sizes.extend([63, 64, 65, 66, 127, 128, 129, 255, 256, 257, 1000, 2047, 2048, 2049, 4094, 4095, 4096, 4096, 4096]);
    for vertices in sizes {
        let outline = outline(cases, vertices);
        let thetas = colatitudes(cases, &outline);
        outline_cases(tally, &outline, &thetas, || format!("{vertices} vertices from {:?}", outline[0]));
    }
    for vertices in [4097, 4098, 8192, 65_536] {
        let outline = outline(cases, vertices);
        tally.holds(try_polygon(&outline).err() == Some(Refusal::Size), "more than 4,096 vertices are refused by SIZE");
    }
}

/// A drawn basin, a cap, or intervals of any numbers, handed on with its breaks.
fn with_region(cases: &mut Cases, call: impl FnOnce(&mut Cases, Intervals, &[f64], &str)) {
    match cases.below(3) {
        0 => {
            let vertices = 3 + cases.below(6) as usize;
            let outline = outline(cases, vertices);
            let (basin, breaks) = polygon(&outline);
            call(cases, &basin, &breaks, &format!("outline {outline:?}"));
        }
        1 => {
            let (cap, breaks) = cap(angle(cases), angle(cases), 1.6 * cases.fraction());
            call(cases, &cap, &breaks, &format!("a cap, breaks {breaks:?}"));
        }
        _ => {
            let (ends, breaks): (Vec<f64>, Vec<f64>) = ((0..4).map(|_| cases.number()).collect(), (0..3).map(|_| angle(cases)).collect());
            let input = format!("ends {ends:?}, breaks {breaks:?}");
            let any = move |theta: f64| if theta > ends[3] { vec![] } else { vec![(ends[0], ends[1]), (ends[1], ends[2])] };
            call(cases, &any, &breaks, &input);
        }
    }
}

/// The oracle's kernel of the same nodes; and by nodes that are kept.
fn kernels(tally: &mut Tally, cases: &mut Cases) {
    let mut sizes: Vec<(usize, usize)> = cases.times(6_000).map(|_| (cases.below(41) as usize, cases.below(7) as usize)).collect();
    sizes.extend([
        (63, 9),
        (64, 9),
        (65, 9),
        (96, 24),
        (127, 9),
        (128, 9),
        (180, 24),
        (255, 5),
        (256, 5),
        (257, 5),
        (360, 8),
        (513, 5),
        (2700, 1),
    ]);
    for (lmax, count) in sizes {
        with_region(cases, |_, intervals, breaks, input| {
            let oracle = oracle::slepian::basin_kernel(lmax, &nodes_of(lmax, intervals, breaks, count));
            let (ours, kept) = (basin_kernel(lmax, intervals, breaks, count), Nodes::new(lmax, intervals, breaks, count).basin_kernel());
            let fault =
                field_fault(&ours, &oracle, None).or_else(|| field_fault(&kept, &oracle, None).map(|fault| format!("kept nodes: {fault}")));
            tally.call(fault, || format!("L {lmax}, {count} nodes, {input}"));
        });
    }
}

/// A kernel beside the first row of our own matrix, and its first column.
fn first_rows(tally: &mut Tally, cases: &mut Cases) {
    let mut degrees: Vec<usize> = cases.times(3_000).map(|_| cases.below(9) as usize).collect();
    degrees.extend([12, 16, 20, 21, 21]);
    for lmax in degrees {
        with_region(cases, |cases, intervals, breaks, input| {
            let count = cases.below(7) as usize;
            let (kernel, matrix) = (basin_kernel(lmax, intervals, breaks, count), concentration_matrix(lmax, intervals, breaks, count));
            let (row, n) = (first_row(&kernel), (lmax + 1) * (lmax + 1));
            let column: Vec<f64> = matrix.iter().step_by(n).copied().collect();
            tally.call(fault("row", &row, &matrix[..n]).or_else(|| fault("column", &row, &column)), || {
                format!("L {lmax}, {count} nodes, {input}")
            });
        });
    }
}

/// A kernel's numbers along the basis of the matrix.
fn first_row(kernel: &geopotential::Coefficients) -> Vec<f64> {
    let both = |(l, m): (usize, usize)| [Some(kernel.c(l, m)), (m > 0).then(|| kernel.s(l, m))];
    (0..=kernel.max_degree()).flat_map(|l| (0..=l).map(move |m| (l, m))).flat_map(both).flatten().collect()
}

/// The whole way: outline, kernel, average of a field; the oracle goes it by itself.
fn averages(tally: &mut Tally, cases: &mut Cases) {
    for _ in cases.times(4_000) {
        let [nmax, lmax, count] = [31, 31, 12].map(|size| cases.below(size) as usize);
        let (vertices, field) = (3 + cases.below(20) as usize, Field::random(cases, nmax));
        let outline = outline(cases, vertices);
        let (love, r) = (love(cases, nmax.min(lmax)), radius(cases, &field));
        let functional = Functionals::random(cases, &love);
        let (intervals, breaks) = polygon(&outline);
        let ours = basin_average(&field.ours, &basin_kernel(lmax, &intervals, &breaks, count), &functional.ours, r);
        let (intervals, breaks) = oracle::slepian::polygon(&outline);
        let kernel = oracle::slepian::basin_kernel(lmax, &nodes_of(lmax, &intervals, &breaks, count));
        let oracle = oracle::slepian::basin_average(&field.oracle, &kernel, &functional.oracle, r);
        tally.numbers(ours, oracle, || format!("{:?}, degrees {nmax} and {lmax}, {count} nodes, {outline:?}", functional.ours));
    }
}
