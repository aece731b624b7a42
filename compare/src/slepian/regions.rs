//! `concentration_matrix` and `region` against the oracle's, over lent nodes: of drawn basins, and with numbers of any shape.

use core::f64::consts::PI;

use oracle::slepian::{RegionSlepian, cap, concentration_matrix, polygon, region};
use oracle::standins::{Node, noted};

use crate::cases::Cases;
use crate::ended::{Ended, most};
use crate::entries::{geopotential_concentration_matrix, geopotential_region};
use crate::guarded::Guarded;
use crate::lent::{flat, latitude, nodes_of, pair};
use crate::refusal::{LENGTH, SIZE, SPACE, answered, fault};
use crate::tally::{Tally, pattern};

/// The random regions with numbers of any shape, for the matrix and for the functions.
const MATRICES: u64 = 60_000;
const FUNCTIONS: u64 = 50_000;
/// Drawn basins.
const BASINS: u64 = 400;

/// The largest degree, and the most nodes.
pub const MAX_REGION: usize = 21;
pub const MAX_NODES: usize = 65_535;
/// The nodes that count in the largest region: the first, a middle one and the last.
const COUNTED: [usize; 3] = [0, MAX_NODES / 2, MAX_NODES - 1];

/// Which of the two calls.
#[derive(Clone, Copy, PartialEq)]
pub enum Asked {
    Matrix,
    Functions,
}

/// The lists of a region, as a call is lent them.
pub struct Region {
    pub lmax: usize,
    pub nodes: Vec<Node>,
}

impl Region {
    pub fn weights(&self) -> Vec<f64> {
        self.nodes.iter().map(|node| node.weight).collect()
    }
    pub fn latitudes(&self) -> Vec<f64> {
        flat(&self.nodes.iter().map(|node| node.lat).collect::<Vec<_>>())
    }
    pub fn marks(&self) -> Vec<u8> {
        self.nodes.iter().map(|node| node.mark).collect()
    }
    pub fn s(&self) -> Vec<f64> {
        self.nodes.iter().flat_map(|node| node.s.iter().copied()).collect()
    }
    pub fn c(&self) -> Vec<f64> {
        self.nodes.iter().flat_map(|node| node.c.iter().copied()).collect()
    }

    /// A basin by its outline; `count` nodes on each panel.
    pub fn of_outline(lmax: usize, outline: &[(f64, f64)], count: usize) -> Self {
        let (intervals, breaks) = polygon(outline);
        Region { lmax, nodes: nodes_of(lmax, &intervals, &breaks, count) }
    }

    /// An outline of so many vertices about a point, as a river basin has it; `count` nodes on each panel.
    fn drawn(lmax: usize, vertices: usize, count: usize, shape: impl Fn(f64) -> f64) -> Self {
        let outline: Vec<(f64, f64)> = (0..vertices)
            .map(|k| {
                let angle = 2.0 * PI * k as f64 / vertices as f64;
                let r = shape(angle);
                (1.1 + r * angle.cos(), 0.35 + 0.8 * r * angle.sin())
            })
            .collect();
        Self::of_outline(lmax, &outline, count)
    }

    /// The basin of 60 vertices and 464 nodes (two of its vertices share a colatitude) that times are taken with.
    pub fn sixty(lmax: usize) -> Self {
        Self::drawn(lmax, 60, 8, |a| 0.3 + 0.05 * (3.0 * a).sin() + 0.03 * (7.0 * a).cos())
    }

    /// Nodes that are no region's.
    pub fn any(cases: &mut Cases, lmax: usize, count: usize) -> Self {
        let kind = cases.below(4);
        let number = |cases: &mut Cases| match kind {
            0 => cases.number(),
            1 if cases.below(40) == 0 => cases.number(),
            2 if cases.below(3) == 0 => [0.0, -0.0][cases.below(2) as usize],
            _ => cases.fraction() - 0.5,
        };
        let node = |cases: &mut Cases| Node {
            weight: number(cases),
            lat: latitude(cases),
            mark: [0, 1, 1, 2, 128, 255][cases.below(6) as usize],
            s: (0..=2 * lmax).map(|_| number(cases)).collect(),
            c: (0..=2 * lmax).map(|_| number(cases)).collect(),
        };
        Region { lmax, nodes: (0..count).map(|_| node(cases)).collect() }
    }

    /// The most nodes at the largest degree, all skipped but three.
    pub fn largest(cases: &mut Cases) -> Self {
        let node = |place: usize| ordinary(cases, MAX_REGION, u8::from(COUNTED.contains(&place)));
        Region { lmax: MAX_REGION, nodes: (0..MAX_NODES).map(node).collect() }
    }
}

/// A node with ordinary numbers.
fn ordinary(cases: &mut Cases, lmax: usize, mark: u8) -> Node {
    let mut integrals = || (0..=2 * lmax).map(|_| cases.fraction() - 0.5).collect();
    let (s, c) = (integrals(), integrals());
    Node { weight: cases.fraction(), lat: pair(3.2 * cases.fraction() - 1.6), mark, s, c }
}

/// The lengths of weights, latitudes, marks, s, c, of the working list, and of the outputs.
pub fn stated(asked: Asked, lmax: usize, nodes: usize) -> Vec<u128> {
    let (k, nodes) = (lmax as u128 + 1, nodes as u128);
    let (t, functions) = (k * (k + 1) / 2, k * k);
    let mut list = vec![nodes, 2 * nodes, nodes, (2 * k - 1) * nodes, (2 * k - 1) * nodes];
    match asked {
        Asked::Matrix => list.extend([3 * t, functions * functions]),
        Asked::Functions => list.extend([3 * t + 4 * functions * functions + 5 * functions, functions, functions * t, functions * t]),
    }
    list
}

fn due(asked: Asked, lmax: usize, nodes: usize, lengths: &[usize]) -> u32 {
    if lmax > MAX_REGION || nodes > MAX_NODES {
        return SIZE;
    }
    let lists: Vec<(u128, u128)> = lengths.iter().map(|&length| length as u128).zip(stated(asked, lmax, nodes)).collect();
    let (inputs, outputs) = lists.split_at(5);
    if inputs.iter().any(|(length, stated)| length != stated) {
        LENGTH
    } else if outputs.iter().any(|(length, stated)| length < stated) {
        SPACE
    } else {
        0
    }
}

/// What the call answers: the matrix alone, or concentrations, c and s.
fn answer(asked: Asked, region_of: &Region) -> Vec<Vec<f64>> {
    let Region { lmax, nodes } = region_of;
    match asked {
        Asked::Matrix => vec![concentration_matrix(*lmax, nodes)],
        Asked::Functions => {
            let functions = region(*lmax, nodes);
            let all = |numbers: fn(&RegionSlepian) -> &[f64]| functions.iter().flat_map(|f| numbers(f).iter().copied()).collect();
            vec![functions.iter().map(|f| f.concentration).collect(), all(|f| &f.coefficients.c), all(|f| &f.coefficients.s)]
        }
    }
}

fn call(tally: &mut Tally, asked: Asked, of: &Region, lmax: usize, nodes: usize, lengths: &[usize]) {
    let (mut weights, mut lats) = (Guarded::of(&of.weights(), lengths[0]), Guarded::of(&of.latitudes(), lengths[1]));
    let mut marks = Guarded::of(&of.marks(), lengths[2]);
    let (mut s, mut c) = (Guarded::of(&of.s(), lengths[3]), Guarded::of(&of.c(), lengths[4]));
    let mut work = Guarded::marked(lengths[5]);
    let mut outputs: Vec<Guarded<f64>> = lengths[6..].iter().map(|&length| Guarded::marked(length)).collect();
    let due = due(asked, lmax, nodes, lengths);
    let mut ended = Ended::lent();
    let ours = unsafe {
        let (w, l, m) = ((weights.pointer(), weights.len()), (lats.pointer(), lats.len()), (marks.pointer(), marks.len()));
        let (s, c, f) = ((s.pointer(), s.len()), (c.pointer(), c.len()), (work.pointer(), work.len()));
        let o: Vec<(*mut f64, usize)> = outputs.iter_mut().map(|list| (list.pointer(), list.len())).collect();
        match asked {
            Asked::Matrix => {
                geopotential_concentration_matrix(lmax, nodes, w.0, w.1, l.0, l.1, m.0, m.1, s.0, s.1, c.0, c.1, f.0, f.1, o[0].0, o[0].1)
            }
            Asked::Functions => {
                let (v, p, q, t, k) = (o[0], o[1], o[2], &mut ended.settled, &mut ended.count);
                geopotential_region(
                    lmax, nodes, w.0, w.1, l.0, l.1, m.0, m.1, s.0, s.1, c.0, c.1, f.0, f.1, v.0, v.1, p.0, p.1, q.0, q.1, t, k,
                )
            }
        }
    };
    let (answers, notes) = answered(due, || noted(|| answer(asked, of))).unwrap_or_else(|| (vec![vec![]; outputs.len()], vec![]));
    // The used part of the working list is free after an accepted call.
    let used = if due == 0 && asked == Asked::Functions { stated(asked, lmax, nodes)[5] as usize } else { 0 };
    let kept = work.now()[..used].to_vec();
    let fault = fault(ours, due)
        .or_else(|| outputs.iter().zip(&answers).enumerate().find_map(|(k, (list, answer))| list.fault(&format!("output {k}"), answer)))
        .or_else(|| if due == 0 && asked == Asked::Matrix { asymmetry(lmax, outputs[0].now()) } else { None })
        .or_else(|| ended.fault(notes.last().copied(), most((lmax.min(MAX_REGION) + 1).pow(2))))
        .or_else(|| work.fault("work", &kept))
        .or_else(|| marks.fault("marks", &[]))
        .or_else(|| {
            [("weights", &weights), ("latitudes", &lats), ("s", &s), ("c", &c)].iter().find_map(|(name, list)| list.fault(name, &[]))
        });
    tally.call(fault, || format!("L {lmax}, {nodes} nodes, lengths {lengths:?}, weights {:?}", &of.weights()[..of.nodes.len().min(4)]));
}

/// The first cell that has not the bits of the one across the diagonal.
fn asymmetry(lmax: usize, matrix: &[f64]) -> Option<String> {
    let n = (lmax + 1).pow(2);
    let place = (0..n * n).find(|k| pattern(matrix[*k]) != pattern(matrix[k % n * n + k / n]))?;
    Some(format!("row {}, column {} is not symmetric", place / n, place % n))
}

/// One accepted call of lists that may be longer than needed behind the inputs.
fn accepted(tally: &mut Tally, asked: Asked, of: &Region, longer: impl FnMut() -> usize) {
    let mut longer = longer;
    let mut lengths: Vec<usize> = stated(asked, of.lmax, of.nodes.len()).iter().map(|&length| length as usize).collect();
    lengths[5..].iter_mut().for_each(|length| *length += longer());
    call(tally, asked, of, of.lmax, of.nodes.len(), &lengths);
}

/// Small degrees are asked for more often, up to those whose matrix the iteration solves.
fn degree(cases: &mut Cases) -> usize {
    [0, 1, 1, 2, 2, 2, 3, 3, 4, 5, 6][cases.below(11) as usize]
}

fn any(tally: &mut Tally, cases: &mut Cases, asked: Asked, count: u64) {
    for _ in cases.times(count) {
        let (lmax, nodes) = (degree(cases), cases.below(5) as usize);
        let of = Region::any(cases, lmax, nodes);
        accepted(tally, asked, &of, || cases.below(3) as usize);
    }
    for lmax in [0, 3, 5, 9, 12, 21] {
        for nodes in [0, 1, 2, 7] {
            let of = Region::any(cases, lmax, nodes);
            accepted(tally, asked, &of, || 0);
        }
    }
}

pub fn matrices(tally: &mut Tally, cases: &mut Cases) {
    any(tally, cases, Asked::Matrix, MATRICES);
    let of = Region::any(cases, 0, MAX_NODES);
    accepted(tally, Asked::Matrix, &of, || 0);
    accepted(tally, Asked::Matrix, &Region::largest(cases), || 0);
}

pub fn functions(tally: &mut Tally, cases: &mut Cases) {
    any(tally, cases, Asked::Functions, FUNCTIONS);
    accepted(tally, Asked::Functions, &Region::largest(cases), || 0);
}

/// Basins and caps as the published file integrates them.
pub fn drawn(tally: &mut Tally, cases: &mut Cases) {
    for _ in cases.times(BASINS) {
        let (lmax, vertices, count) = (cases.below(8) as usize, 3 + cases.below(12) as usize, 1 + cases.below(6) as usize);
        let (size, wave, phase) = (0.1 + 0.4 * cases.fraction(), 0.2 * cases.fraction(), 6.0 * cases.fraction());
        let basin = Region::drawn(lmax, vertices, count, |a| size + wave * (3.0 * a + phase).sin());
        let (intervals, breaks) = cap(3.0 * cases.fraction(), 6.0 * cases.fraction(), 1.5 * cases.fraction());
        for of in [basin, Region { lmax, nodes: nodes_of(lmax, &intervals, &breaks, 4 * count) }] {
            accepted(tally, Asked::Matrix, &of, || 0);
            accepted(tally, Asked::Functions, &of, || 1);
        }
    }
    for lmax in [4, 5, 10, 21] {
        accepted(tally, Asked::Matrix, &Region::sixty(lmax), || 0);
        accepted(tally, Asked::Functions, &Region::sixty(lmax), || 0);
    }
}

pub fn refusals(tally: &mut Tally, cases: &mut Cases) {
    for asked in [Asked::Matrix, Asked::Functions] {
        for (lmax, nodes) in [(0, 0), (0, 1), (1, 2), (2, 3)] {
            let of = Region::any(cases, lmax, nodes);
            let right: Vec<usize> = stated(asked, lmax, nodes).iter().map(|&length| length as usize).collect();
            for choice in 0..3usize.pow(right.len() as u32) {
                // Each list one too short, right, or one too long.
                let change = |(place, &length): (usize, &usize)| (length + choice / 3usize.pow(place as u32) % 3).saturating_sub(1);
                let lengths: Vec<usize> = right.iter().enumerate().map(change).collect();
                call(tally, asked, &of, lmax, nodes, &lengths);
            }
            for large in [22, 23, 65_536, 1 << 32, (1 << 32) + lmax, 1 << 63, usize::MAX] {
                call(tally, asked, &of, large, nodes, &right);
            }
            for many in [65_536, 65_537, (1 << 32) + nodes, 1 << 63, (1 << 63) + nodes, usize::MAX] {
                call(tally, asked, &of, lmax, many, &right);
            }
            call(tally, asked, &of, lmax + 1, nodes, &right);
            call(tally, asked, &of, MAX_REGION, nodes, &right);
            call(tally, asked, &of, lmax, nodes + 1, &right);
            call(tally, asked, &of, lmax, MAX_NODES, &right);
        }
    }
}
