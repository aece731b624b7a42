//! The crate `legendre` against the oracle's `Legendre` and `gauss_legendre`: own tables and any tables, every kind of latitude, any guesses.

pub mod bench;
pub mod mirror_replay;
mod mirrors;
pub mod replay;
mod tables;

pub use mirrors::Mirror;

use core::f64::consts::FRAC_PI_2;

use oracle::standins::tricomi;
use oracle::{Legendre, gauss_legendre};

use crate::cases::Cases;
use crate::entries::*;
use crate::guarded::Guarded;
use crate::lent::pair;
use crate::refusal::{Checks, answered, fault, pairs};
use crate::sizes::{around, beside, table};
use crate::table_entry::{entry, places};
use crate::tally::{Report, Tally, shown};

/// The random tables of a call, and the degrees whose own tables are large.
const COUNT: u64 = 20_000;
const LARGE: [usize; 3] = [96, 360, 2700];

pub fn compare(report: &mut Report) {
    report.call("legendre.new", tables::new);
    report.call("legendre.grow", tables::grow);
    report.call("legendre.steps", tables::steps);
    report.call("legendre.fronts", tables::fronts);
    report.call("legendre.compute", |tally, cases| latitudes(tally, cases, 3, compute));
    report.call("legendre.with_derivative", |tally, cases| latitudes(tally, cases, 4, compute_with_derivative));
    report.call("legendre.mirror", mirrors::lists);
    report.call("legendre.mirror, twice", mirrors::twice);
    report.call("legendre.mirror, -t", mirrors::laws);
    report.call("legendre.entry", entries);
    report.call("legendre.gauss_legendre", quadrature);
}

/// A call at one latitude: the tables, N, the pair, the lengths of a, b and the outputs.
type AtLatitude = fn(&mut Tally, &mut Legendre, usize, (f64, f64), &[usize]);

/// One call with `lists` lists at poles, equator, latitudes between, and pairs that are no latitude's.
fn latitudes(tally: &mut Tally, cases: &mut Cases, lists: usize, call: AtLatitude) {
    for nmax in [0, 1, 2, 5] {
        let mut legendre = Legendre::new(nmax);
        let (t, u) = pair(0.3);
        around(nmax, &vec![table(nmax); lists], |degree, lengths| call(tally, &mut legendre, degree, (t, u), lengths));
    }
    for nmax in 0..=60 {
        let mut legendre = Legendre::new(nmax);
        for latitude in strange_latitudes(cases) {
            call(tally, &mut legendre, nmax, latitude, &vec![table(nmax); lists]);
        }
    }
    for nmax in LARGE {
        let mut legendre = Legendre::new(nmax);
        let latitudes = strange_latitudes(cases);
        // At degree 2700 one of them takes a second.
        let kept = if nmax < 2700 { latitudes.len() } else { 8 };
        for latitude in &latitudes[..kept] {
            let longer: Vec<usize> = (0..lists).map(|i| table(nmax) + if i < 2 { 0 } else { i }).collect();
            call(tally, &mut legendre, nmax, *latitude, &longer);
        }
    }
    for _ in cases.times(COUNT) {
        let nmax = cases.below(41) as usize;
        let mut legendre = any_tables(cases, nmax);
        let latitude = if cases.below(2) == 0 { pair(3.2 * cases.fraction() - 1.6) } else { (cases.number(), cases.number()) };
        call(tally, &mut legendre, nmax, latitude, &vec![table(nmax); lists]);
    }
}

/// Poles, equator, latitudes near them and between, and pairs that are no latitude's.
fn strange_latitudes(cases: &mut Cases) -> Vec<(f64, f64)> {
    let mut list = vec![pair(0.3), pair(-1.5), (1.0, 0.0), (0.0, 1.0), pair(1.570_796), (f64::NAN, 0.5), (1.5, -0.5), (-1.0, 0.0)];
    list.extend([pair(FRAC_PI_2), pair(-FRAC_PI_2), (0.0, -1.0), (-0.0, 1.0), (1.0, -0.0), (0.5, f64::NAN), (1e300, 0.0)]);
    list.extend([(f64::INFINITY, 0.0), (1.0, f64::INFINITY), (2f64.powi(-1074), 1.0), (1e-170, 1e-170), (-7.0, 1e10)]);
    list.extend((0..10).map(|_| pair(3.2 * cases.fraction() - 1.6)));
    list.extend((0..10).map(|_| (cases.number(), cases.number())));
    list
}

/// Tables of which nothing is to be expected: numbers of any shape, or a few of them among the own coefficients.
fn any_tables(cases: &mut Cases, nmax: usize) -> Legendre {
    let mut legendre = Legendre::new(nmax);
    let kind = cases.below(4);
    let Legendre { a, b, .. } = &mut legendre;
    for cell in a.iter_mut().chain(b) {
        match kind {
            0 => *cell = cases.number(),
            1 => *cell = cases.near_one(),
            2 => *cell = cases.subnormal(),
            _ if cases.below(30) == 0 => *cell = cases.number(),
            _ => (),
        }
    }
    legendre
}

fn compute(tally: &mut Tally, legendre: &mut Legendre, nmax: usize, (t, u): (f64, f64), lengths: &[usize]) {
    let (mut a, mut b) = (Guarded::of(&legendre.a, lengths[0]), Guarded::of(&legendre.b, lengths[1]));
    let mut p = Guarded::marked(lengths[2]);
    let (given, asked) = (beside(&lengths[..2], pairs(nmax)), beside(&lengths[2..], pairs(nmax)));
    let due = Checks { degree: nmax, inputs: &given, outputs: &asked, ..Checks::default() }.due();
    let ours = unsafe { geopotential_legendre_compute(nmax, t, u, a.pointer(), a.len(), b.pointer(), b.len(), p.pointer(), p.len()) };
    let answer = answered(due, || {
        legendre.compute((t, u));
        legendre.p.as_slice()
    });
    let fault =
        fault(ours, due).or_else(|| p.fault("p", answer.unwrap_or_default())).or_else(|| a.fault("a", &[])).or_else(|| b.fault("b", &[]));
    tally.call(fault, || format!("compute, N {nmax}, t {}, u {}, lengths {lengths:?}", shown(t), shown(u)));
}

fn compute_with_derivative(tally: &mut Tally, legendre: &mut Legendre, nmax: usize, (t, u): (f64, f64), lengths: &[usize]) {
    let (mut a, mut b) = (Guarded::of(&legendre.a, lengths[0]), Guarded::of(&legendre.b, lengths[1]));
    let (mut p, mut dp) = (Guarded::marked(lengths[2]), Guarded::marked(lengths[3]));
    let (given, asked) = (beside(&lengths[..2], pairs(nmax)), beside(&lengths[2..], pairs(nmax)));
    let due = Checks { degree: nmax, inputs: &given, outputs: &asked, ..Checks::default() }.due();
    let ours = unsafe {
        let (a, b) = ((a.pointer(), a.len()), (b.pointer(), b.len()));
        let (p, dp) = ((p.pointer(), p.len()), (dp.pointer(), dp.len()));
        geopotential_legendre_compute_with_derivative(nmax, t, u, a.0, a.1, b.0, b.1, p.0, p.1, dp.0, dp.1)
    };
    let answer = answered(due, || {
        legendre.compute_with_derivative((t, u));
        (legendre.p.as_slice(), legendre.dp.as_slice())
    });
    let (due_p, due_dp) = answer.unwrap_or_default();
    let fault = fault(ours, due)
        .or_else(|| p.fault("p", due_p))
        .or_else(|| dp.fault("dp", due_dp))
        .or_else(|| a.fault("a", &[]))
        .or_else(|| b.fault("b", &[]));
    tally.call(fault, || format!("compute_with_derivative, N {nmax}, t {}, u {}, lengths {lengths:?}", shown(t), shown(u)));
}

/// Entries of P and of its derivatives, by the one call that both have.
fn entries(tally: &mut Tally, cases: &mut Cases) {
    for nmax in [0, 1, 2, 5, 8, 40, 96, 360] {
        let mut legendre = Legendre::new(nmax);
        legendre.compute_with_derivative(pair(0.3));
        around(nmax, &[table(nmax)], |degree, lengths| {
            for (n, m) in places(cases, degree, lengths[0]) {
                let inputs = beside(lengths, pairs(degree));
                let due = Checks { degree, inputs: &inputs, place: Some((n, m)), ..Checks::default() }.due();
                let (p, dp) = (answered(due, || legendre.p(n, m)), answered(due, || legendre.dp(n, m)));
                entry(tally, ("p", geopotential_legendre_entry), degree, Guarded::of(&legendre.p, lengths[0]), (n, m), due, p);
                entry(tally, ("dp", geopotential_legendre_entry), degree, Guarded::of(&legendre.dp, lengths[0]), (n, m), due, dp);
            }
        });
    }
}

fn quadrature(tally: &mut Tally, cases: &mut Cases) {
    for n in (0..=200).chain([512, 1000, 2701]) {
        nodes(tally, n, &tricomi(n), &[n.div_ceil(2), n, n + 2]);
    }
    for n in [0usize, 1, 2, 3, 8, 9] {
        let guesses = n.div_ceil(2);
        for change in [[0, 0, 0], [1, 0, 0], [0, 1, 0], [0, 0, 1], [1, 1, 0], [0, 1, 1]] {
            let shorter: Vec<usize> = [guesses, n, n].iter().zip(change).map(|(length, less)| length.saturating_sub(less)).collect();
            let longer: Vec<usize> = [guesses, n, n].iter().zip(change).map(|(length, more)| length + more).collect();
            for lengths in [shorter, longer] {
                nodes(tally, n, &tricomi(n), &lengths);
                [2702, 65_536, 1 << 32, usize::MAX].iter().for_each(|&n| nodes(tally, n, &[], &lengths));
            }
        }
    }
    for _ in cases.times(COUNT) {
        let n = cases.below(60) as usize;
        let kind = cases.below(3);
        let draw = |cases: &mut Cases, near: f64| match kind {
            0 => cases.number(),
            1 => 2.2 * cases.fraction() - 1.1,
            _ => near + 1e-3 * (cases.fraction() - 0.5),
        };
        let guesses: Vec<f64> = tricomi(n).into_iter().map(|near| draw(cases, near)).collect();
        nodes(tally, n, &guesses, &[guesses.len(), n, n]);
    }
}

/// Nodes and weights; `lengths` are those of the guesses, x and w.
fn nodes(tally: &mut Tally, n: usize, numbers: &[f64], lengths: &[usize]) {
    let mut guesses = Guarded::of(numbers, lengths[0]);
    let (mut x, mut w) = (Guarded::marked(lengths[1]), Guarded::marked(lengths[2]));
    let (given, asked) = ([(lengths[0], n.div_ceil(2) as u128)], beside(&lengths[1..], n as u128));
    // 2701 nodes pass, one more than the largest degree.
    let due = Checks { degree: n.saturating_sub(1), inputs: &given, outputs: &asked, ..Checks::default() }.due();
    let ours = unsafe { geopotential_gauss_legendre(n, guesses.pointer(), guesses.len(), x.pointer(), x.len(), w.pointer(), w.len()) };
    let answer = answered(due, || gauss_legendre(n, numbers)).unwrap_or_default();
    let fault =
        fault(ours, due).or_else(|| x.fault("x", &answer.0)).or_else(|| w.fault("w", &answer.1)).or_else(|| guesses.fault("guesses", &[]));
    tally.call(fault, || format!("gauss_legendre, n {n}, lengths {lengths:?}, guesses {:?}", &numbers[..numbers.len().min(8)]));
}
