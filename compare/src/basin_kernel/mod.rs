//! The crate `basin_kernel` against the oracle's `basin_kernel`, over lent nodes: of drawn basins, and with numbers of any shape.

pub mod bench;
pub mod replay;

use oracle::slepian::{basin_kernel, cap};
use oracle::standins::Node;

use crate::cases::Cases;
use crate::entries::{geopotential_basin_kernel, geopotential_concentration_matrix};
use crate::guarded::Guarded;
use crate::lent::nodes_of;
use crate::polygon::outlines::{jagged, smooth};
use crate::refusal::{BEYOND, Checks, MAX_DEGREE, answered, fault, pairs};
use crate::sizes::table;
use crate::slepian::regions::{Asked, MAX_NODES, MAX_REGION, Region, stated as region_stated};
use crate::tally::{Report, Tally, pattern};

/// The random regions with numbers of any shape, up to degree 21 and above it; those whose matrix is compared too; drawn basins.
const REGIONS: u64 = 40_000;
const HIGHER: u64 = 400;
const MATRICES: u64 = 6_000;
const BASINS: u64 = 400;

pub fn compare(report: &mut Report) {
    report.call("basin_kernel", any);
    report.call("basin_kernel, drawn", drawn);
    report.call("basin_kernel, first rows", first_rows);
    report.call("basin_kernel, refusals", refusals);
}

/// The lengths of weights, latitudes, marks, s, c, of the working list, and of kc and ks.
pub fn stated(lmax: usize, nodes: usize) -> [u128; 8] {
    let (t, nodes) = (pairs(lmax), nodes as u128);
    let integrals = (2 * lmax as u128 + 1) * nodes;
    [nodes, 2 * nodes, nodes, integrals, integrals, 3 * t, t, t]
}

/// The same for sizes that pass.
fn lengths(lmax: usize, nodes: usize) -> [usize; 8] {
    stated(lmax, nodes).map(|length| length as usize)
}

fn due(lmax: usize, nodes: usize, lengths: &[usize; 8]) -> u32 {
    let lists: Vec<(usize, u128)> = lengths.iter().copied().zip(stated(lmax.min(1 << 20), nodes)).collect();
    let (inputs, outputs) = lists.split_at(5);
    Checks { degree: lmax, sizes: &[(nodes, MAX_NODES)], inputs, outputs, ..Checks::default() }.due()
}

/// The degree, the number of nodes and the lengths that a call is told, and the lists of the region cut or carried on to them.
fn call(tally: &mut Tally, of: &Region, lmax: usize, nodes: usize, lengths: [usize; 8]) {
    let (mut weights, mut lats) = (Guarded::of(&of.weights(), lengths[0]), Guarded::of(&of.latitudes(), lengths[1]));
    let mut marks = Guarded::of(&of.marks(), lengths[2]);
    let (mut s, mut c) = (Guarded::of(&of.s(), lengths[3]), Guarded::of(&of.c(), lengths[4]));
    let mut work = Guarded::<f64>::marked(lengths[5]);
    let (mut kc, mut ks) = (Guarded::<f64>::marked(lengths[6]), Guarded::<f64>::marked(lengths[7]));
    let due = due(lmax, nodes, &lengths);
    let ours = unsafe {
        let (w, l, m) = ((weights.pointer(), weights.len()), (lats.pointer(), lats.len()), (marks.pointer(), marks.len()));
        let (s, c, f) = ((s.pointer(), s.len()), (c.pointer(), c.len()), (work.pointer(), work.len()));
        let (p, q) = ((kc.pointer(), kc.len()), (ks.pointer(), ks.len()));
        geopotential_basin_kernel(lmax, nodes, w.0, w.1, l.0, l.1, m.0, m.1, s.0, s.1, c.0, c.1, f.0, f.1, p.0, p.1, q.0, q.1)
    };
    let (cosines, sines) = answered(due, || basin_kernel(lmax, &of.nodes)).map_or_else(Default::default, |kernel| (kernel.c, kernel.s));
    // The used part of the working list is free after an accepted call.
    let free = work.now()[..if due == 0 { 3 * table(lmax) } else { 0 }].to_vec();
    let inputs = [("weights", &weights), ("latitudes", &lats), ("s", &s), ("c", &c)];
    let fault = fault(ours, due)
        .or_else(|| kc.fault("kc", &cosines))
        .or_else(|| ks.fault("ks", &sines))
        .or_else(|| work.fault("work", &free))
        .or_else(|| marks.fault("marks", &[]))
        .or_else(|| inputs.iter().find_map(|(name, list)| list.fault(name, &[])));
    tally.call(fault, || format!("L {lmax}, {nodes} nodes, lengths {lengths:?}, weights {:?}", &of.weights()[..of.nodes.len().min(4)]));
}

/// One accepted call, with working list and tables as long as needed or longer.
fn accepted(tally: &mut Tally, of: &Region, mut longer: impl FnMut() -> usize) {
    let mut lengths = lengths(of.lmax, of.nodes.len());
    lengths[5..].iter_mut().for_each(|length| *length += longer());
    call(tally, of, of.lmax, of.nodes.len(), lengths);
}

/// Numbers of any shape.
fn any(tally: &mut Tally, cases: &mut Cases) {
    for _ in cases.times(REGIONS) {
        let (lmax, nodes) = (cases.below(MAX_REGION as u64 + 1) as usize, cases.below(6) as usize);
        let of = Region::any(cases, lmax, nodes);
        accepted(tally, &of, || cases.below(3) as usize);
    }
    for _ in cases.times(HIGHER) {
        let (lmax, nodes) = (22 + cases.below(75) as usize, cases.below(4) as usize);
        let of = Region::any(cases, lmax, nodes);
        accepted(tally, &of, || cases.below(3) as usize);
    }
    for (lmax, nodes) in
        [(96, 20), (359, 2), (360, 1), (360, 3), (361, 2), (MAX_DEGREE, 0), (MAX_DEGREE, 2), (0, MAX_NODES), (1, MAX_NODES)]
    {
        let of = Region::any(cases, lmax, nodes);
        accepted(tally, &of, || 0);
    }
    accepted(tally, &Region::largest(cases), || 0);
}

/// Basins and caps as the published file integrates them; the whole sphere among them, whose first number is above 1 by one node and by a hundred.
fn drawn(tally: &mut Tally, cases: &mut Cases) {
    for _ in cases.times(BASINS) {
        let (lmax, vertices, count) = (cases.below(97) as usize, 3 + cases.below(20) as usize, 1 + cases.below(6) as usize);
        let outline = if cases.below(2) == 0 { smooth(cases, vertices) } else { jagged(cases, vertices) };
        accepted(tally, &Region::of_outline(lmax, &outline, count), || 0);
        let (intervals, breaks) = cap(3.0 * cases.fraction(), 6.0 * cases.fraction(), 1.5 * cases.fraction());
        accepted(tally, &Region { lmax, nodes: nodes_of(lmax, &intervals, &breaks, 4 * count) }, || 1);
    }
    for (lmax, vertices, count) in [(21, 60, 8), (96, 60, 8), (180, 300, 2), (360, 60, 2), (MAX_DEGREE, 3, 2)] {
        accepted(tally, &Region::of_outline(lmax, &smooth(cases, vertices), count), || 0);
    }
    let (east, north) = (core::f64::consts::PI, core::f64::consts::FRAC_PI_2);
    for (count, low, high) in [(1, 2.46, 2.47), (2, 0.49, 0.5), (100, 1.0, 1.0 + 1e-14)] {
        let sphere = Region::of_outline(12, &[(-east, -north), (east, -north), (east, north), (-east, north)], count);
        accepted(tally, &sphere, || 0);
        let share = basin_kernel(12, &sphere.nodes).c(0, 0);
        tally.holds(low < share && share < high, "the share of the sphere drawn as a rectangle");
    }
}

/// The kernel is the first row of the region's concentration matrix, and its first column, by our own two calls.
fn first_rows(tally: &mut Tally, cases: &mut Cases) {
    for turn in cases.times(MATRICES) {
        // The matrix of degree L takes L^4 numbers, so few have the largest.
        let lmax = [cases.below(6), cases.below(6), cases.below(10), cases.below(22)][(turn % 4) as usize] as usize;
        let nodes = cases.below(4) as usize;
        let of = Region::any(cases, lmax, nodes);
        tally.call(first_row_fault(&of), || format!("L {lmax}, {nodes} nodes, weights {:?}", of.weights()));
    }
    let of = Region::of_outline(MAX_REGION, &smooth(cases, 60), 2);
    tally.call(first_row_fault(&of), || "a drawn basin".to_string());
}

/// The first number of the kernel that has not the bits of the matrix.
fn first_row_fault(of: &Region) -> Option<String> {
    let (lmax, nodes, n) = (of.lmax, of.nodes.len(), (of.lmax + 1).pow(2));
    let (weights, latitudes, marks, s, c) = (of.weights(), of.latitudes(), of.marks(), of.s(), of.c());
    let (w, l, m) = ((weights.as_ptr(), weights.len()), (latitudes.as_ptr(), latitudes.len()), (marks.as_ptr(), marks.len()));
    let (s, c, t) = ((s.as_ptr(), s.len()), (c.as_ptr(), c.len()), table(lmax));
    let (mut work, mut kc, mut ks) = (vec![0.0; 3 * t], vec![0.0; t], vec![0.0; t]);
    let mut matrix = vec![0.0; region_stated(Asked::Matrix, lmax, nodes)[6] as usize];
    let refused = unsafe {
        let (f, p, q, d) = ((work.as_mut_ptr(), work.len()), kc.as_mut_ptr(), ks.as_mut_ptr(), (matrix.as_mut_ptr(), matrix.len()));
        geopotential_basin_kernel(lmax, nodes, w.0, w.1, l.0, l.1, m.0, m.1, s.0, s.1, c.0, c.1, f.0, f.1, p, t, q, t)
            | geopotential_concentration_matrix(lmax, nodes, w.0, w.1, l.0, l.1, m.0, m.1, s.0, s.1, c.0, c.1, f.0, f.1, d.0, d.1)
    };
    let same = |x: f64, place: usize| pattern(x) == pattern(matrix[place]) && pattern(x) == pattern(matrix[place * n]);
    let agrees = |l: usize, m: usize| {
        let at = l * (l + 1) / 2 + m;
        if m == 0 { same(kc[at], l * l) } else { same(kc[at], l * l + 2 * m - 1) && same(ks[at], l * l + 2 * m) }
    };
    let place = (0..=lmax).flat_map(|l| (0..=l).map(move |m| (l, m))).find(|&(l, m)| !agrees(l, m));
    fault(refused, 0).or_else(|| place.map(|(l, m)| format!("the kernel at ({l}, {m}) is not the matrix's")))
}

fn refusals(tally: &mut Tally, cases: &mut Cases) {
    for (lmax, nodes) in [(0, 0), (0, 1), (1, 2), (3, 3)] {
        let of = Region::any(cases, lmax, nodes);
        let right = lengths(lmax, nodes);
        for choice in 0..3usize.pow(8) {
            // Each list one too short, right, or one too long.
            let change = |place: usize| (right[place] + choice / 3usize.pow(place as u32) % 3).saturating_sub(1);
            call(tally, &of, lmax, nodes, core::array::from_fn(change));
        }
        for lists in [right, right.map(|length| length.saturating_sub(1)), [0; 8]] {
            for large in BEYOND.into_iter().chain([(1 << 32) + lmax, (1 << 63) + lmax, MAX_DEGREE, lmax + 1]) {
                call(tally, &of, large, nodes, lists);
            }
            for many in [65_536, 65_537, (1 << 32) + nodes, 1 << 63, (1 << 63) + nodes, usize::MAX, MAX_NODES, nodes + 1] {
                call(tally, &of, lmax, many, lists);
                call(tally, &of, MAX_DEGREE + 1, many, lists);
            }
        }
    }
    largest(tally);
}

/// The largest degree with lists of its own, each of the outputs one too short, and the degree above it.
fn largest(tally: &mut Tally) {
    let integrals = || vec![0.5; 2 * MAX_DEGREE + 1];
    let of = Region { lmax: MAX_DEGREE, nodes: vec![Node { weight: 0.5, lat: (0.6, 0.8), mark: 1, s: integrals(), c: integrals() }] };
    for place in 5..8 {
        let mut short = lengths(MAX_DEGREE, 1);
        short[place] -= 1;
        call(tally, &of, MAX_DEGREE, 1, short);
    }
    call(tally, &of, MAX_DEGREE + 1, 1, lengths(MAX_DEGREE + 1, 1));
}
