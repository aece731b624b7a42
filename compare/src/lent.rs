//! Lists that a caller lends: pairs for latitudes, cosines and sines for longitudes.

use core::f64::consts::{FRAC_PI_2, TAU};

use oracle::slepian::{Intervals, colatitude_rule, longitude_integrals};
use oracle::standins::Node;

use crate::cases::Cases;

/// A latitude (radians) as its sine and cosine.
pub fn pair(lat: f64) -> (f64, f64) {
    lat.sin_cos()
}

/// Cosine and sine of m times a longitude (radians), m from 0 to nmax.
pub fn orders(lon: f64, nmax: usize) -> Vec<(f64, f64)> {
    (0..=nmax).map(|m| ((m as f64 * lon).cos(), (m as f64 * lon).sin())).collect()
}

/// What `analysis` reads: cosine and sine of m times the longitude j of 2·nmax + 2, order after order.
pub fn analysis_orders(nmax: usize) -> Vec<(f64, f64)> {
    let count = 2 * nmax + 2;
    let angle = |m: usize, j: usize| m as f64 * TAU * j as f64 / count as f64;
    (0..=nmax).flat_map(|m| (0..count).map(move |j| (angle(m, j).cos(), angle(m, j).sin()))).collect()
}

/// The pairs of the L+1 Gauss–Legendre `nodes` carried over to a cap with the cosine `x0`.
pub fn cap_pairs(x0: f64, nodes: &[f64]) -> Vec<(f64, f64)> {
    nodes.iter().map(|x| pair((x0 + (1.0 - x0) * (x + 1.0) / 2.0).asin())).collect()
}

/// A latitude, or any pair.
pub fn latitude(cases: &mut Cases) -> (f64, f64) {
    match cases.below(6) {
        0 => (cases.number(), cases.number()),
        1 => [(1.0, 0.0), (-1.0, 0.0), (0.0, 1.0), (1e300, 0.0)][cases.below(4) as usize],
        _ => pair(3.2 * cases.fraction() - 1.6),
    }
}

/// The cosines and sines of one longitude, or any numbers.
pub fn longitude(cases: &mut Cases, nmax: usize) -> Vec<(f64, f64)> {
    if cases.below(6) == 0 { (0..=nmax).map(|_| (cases.number(), cases.number())).collect() } else { orders(6.3 * cases.fraction(), nmax) }
}

/// Numbers that a replaying program makes by the same formula: exact, of either sign, at most 50/64 in size.
pub fn pattern(shift: usize, count: usize) -> Vec<f64> {
    (0..count).map(|k| ((37 * (k % 101) + shift) % 101) as f64 * 0.015625 - 0.78125).collect()
}

/// Pairs end to end, as a call is lent them.
pub fn flat(pairs: &[(f64, f64)]) -> Vec<f64> {
    pairs.iter().flat_map(|&(x, y)| [x, y]).collect()
}

/// The nodes of a region as the published file works them out: `count` of them on each panel between neighbouring breaks. A node where the
/// region is absent is marked 0.
pub fn nodes_of(lmax: usize, intervals: Intervals, breaks: &[f64], count: usize) -> Vec<Node> {
    let rule = breaks.windows(2).flat_map(|panel| colatitude_rule(panel[0], panel[1], count));
    rule.map(|(theta, weight)| {
        let at = intervals(theta);
        let (s, c) = longitude_integrals(lmax, &at);
        Node { weight, lat: pair(FRAC_PI_2 - theta), mark: u8::from(!at.is_empty()), s, c }
    })
    .collect()
}
