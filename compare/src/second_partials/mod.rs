//! The crate `second_partials` and the tensor of the crate `local` against the oracle's `second_partials` and `tensor_neu`.

pub mod bench;
pub mod replay;

use core::f64::consts::TAU;

use oracle::{Coefficients, Partials, SecondPartials};

use crate::cases::Cases;
use crate::coefficients::fields::field;
use crate::entries::*;
use crate::guarded::Guarded;
use crate::lent::{latitude, longitude, orders, pair};
use crate::partials;
use crate::points::{Entries, Place, ordinary};
use crate::refusal::{SPACE, answered, fault};
use crate::tally::{Report, Tally, pattern, shown};

/// The random points, the random lists of points, the random tensors, the points whose tensor has a trace to be looked at.
const COUNT: u64 = 60_000;
const ORBITS: u64 = 8_000;
const TENSORS: u64 = 1_000_000;
const OUTSIDE: u64 = 4_000;

/// How much of a tensor's largest entry its trace may be. Its three terms cancel, and each is a sum in which terms of up to N² times the size of P
/// do: at degree 96 some 10⁴ times a few hundred roundings of 2⁻⁵³. The most that 800,000 points had was 5e-14.
const TRACE: f64 = 1e-9;

/// A working list of five tables, ten numbers a point.
pub const ENTRIES: Entries<10> = Entries {
    tables: 5,
    one: geopotential_second_partials,
    many: geopotential_second_partials_along,
    oracle: |field, place| ten(&field.second_partials(place.r, place.lat, &place.lon)),
    law: as_partials,
};

pub fn compare(report: &mut Report) {
    report.call("second_partials.point", |tally, cases| {
        ENTRIES.one_by_one(tally, cases, COUNT);
        edges(tally, cases);
    });
    report.call("second_partials.along", |tally, cases| ENTRIES.along(tally, cases, ORBITS));
    report.call("second_partials.refusals", |tally, cases| ENTRIES.along_refusals(tally, cases));
    report.call("second_partials.tensor", tensors);
    report.call("second_partials.trace", traces);
}

/// The ten numbers in the order of the lists.
pub fn ten(at: &SecondPartials) -> [f64; 10] {
    let [v, dr, dlat, dlon] = partials::four(&at.first);
    [v, dr, dlat, dlon, at.drr, at.dlatlat, at.dlonlon, at.drlat, at.drlon, at.dlatlon]
}

/// The oracle's point of ten numbers.
fn of_ten([v, dr, dlat, dlon, drr, dlatlat, dlonlon, drlat, drlon, dlatlon]: [f64; 10]) -> SecondPartials {
    SecondPartials { first: Partials { v, dr, dlat, dlon }, drr, dlatlat, dlonlon, drlat, drlon, dlatlon }
}

/// V and ∂V/∂φ are what `partials` answers. ∂V/∂r and ∂V/∂λ are sums in another order, which may round otherwise.
fn as_partials(field: &Coefficients, places: &[Place], points: Option<usize>, ours: &[f64]) -> Option<String> {
    let first = partials::ENTRIES.ours(field, places, points);
    let apart = |(ten, four): (&[f64], &[f64])| [0, 2].into_iter().find(|&i| pattern(ten[i]) != pattern(four[i]));
    let mut pairs = ours.chunks_exact(10).zip(first.chunks_exact(4)).map(apart).enumerate();
    pairs.find_map(|(point, number)| number.map(|number| format!("number {number} of point {point} is not that of partials")))
}

/// Where something vanishes or is no number: both poles with a cosine of either sign, a pair that is none, r of 0.
fn edges(tally: &mut Tally, cases: &mut Cases) {
    for nmax in (0..=8).chain([40]) {
        let field = field(cases, nmax);
        for r in [0.0, -0.0, 5e-324, 1.0, field.radius, f64::MAX, f64::INFINITY, f64::NAN] {
            for lat in [(1.0, 0.0), (-1.0, 0.0), (1.0, -0.0), (-1.0, -0.0), (0.0, 1.0), (0.0, 0.0), (f64::NAN, f64::NAN)] {
                let places = [Place { r, lat, lon: longitude(cases, nmax) }];
                ENTRIES.call(&field, &places, None).compare(tally);
            }
        }
    }
}

/// Our tensor, row by row: the refusal.
fn tensor_neu(at: [f64; 10], r: f64, (t, u): (f64, f64), out: &mut Guarded<f64>) -> u32 {
    let [v, dr, dlat, dlon, drr, dlatlat, dlonlon, drlat, drlon, dlatlon] = at;
    let (o, room) = (out.pointer(), out.len());
    unsafe { geopotential_tensor_neu(v, dr, dlat, dlon, drr, dlatlat, dlonlon, drlat, drlon, dlatlon, r, t, u, o, room) }
}

/// An entry that is not the one across the diagonal.
fn asymmetry(tensor: &[f64]) -> Option<String> {
    let apart = |&(i, j): &(usize, usize)| pattern(tensor[i]) != pattern(tensor[j]);
    [(1, 3), (2, 6), (5, 7)].into_iter().find(apart).map(|(i, j)| format!("out[{i}] is not out[{j}]"))
}

/// Tensors of any ten numbers, or of ten near 1, whose roundings all count; at poles and at r = 0 too.
fn tensors(tally: &mut Tally, cases: &mut Cases) {
    for _ in cases.times(TENSORS) {
        let strange = cases.below(2) == 0;
        let mut number = || if strange { cases.number() } else { cases.near_one() };
        let (at, r): ([f64; 10], f64) = (core::array::from_fn(|_| number()), number());
        let r = if cases.below(8) == 0 { 0.0 } else { r };
        let lat = latitude(cases);
        let room = if cases.below(16) == 0 { cases.below(9) as usize } else { 9 + cases.below(3) as usize };
        let due = if room < 9 { SPACE } else { 0 };
        let mut out = Guarded::marked(room);
        let ours = tensor_neu(at, r, lat, &mut out);
        let answer = answered(due, || of_ten(at).tensor_neu(r, lat).concat()).unwrap_or_default();
        let fault = fault(ours, due).or_else(|| out.fault("out", &answer)).or_else(|| answered(due, || asymmetry(out.now())).flatten());
        tally.call(fault, || format!("{:?}, r, t, u {:?}, room {room}", at.map(shown), [r, lat.0, lat.1].map(shown)));
    }
}

/// The trace of a tensor as a share of its largest entry.
pub fn trace_share(tensor: &[f64]) -> f64 {
    let largest = tensor.iter().fold(0.0, |size: f64, x| size.max(x.abs()));
    (tensor[0] + tensor[4] + tensor[8]).abs() / largest
}

/// Laplace's equation, for which no oracle is needed: outside the body the tensor has no trace. The points stay away from the poles, where parts of
/// the tensor grow without bound.
fn traces(tally: &mut Tally, cases: &mut Cases) {
    for _ in cases.times(OUTSIDE) {
        let nmax = 2 + cases.below(95) as usize;
        let field = ordinary(cases, nmax);
        let (r, lat) = (field.radius * (1.0 + 0.2 * cases.fraction()), pair(2.8 * cases.fraction() - 1.4));
        let places = [Place { r, lat, lon: orders(TAU * cases.fraction(), nmax) }];
        let at = ENTRIES.ours(&field, &places, None);
        let mut out = Guarded::marked(9);
        tensor_neu(core::array::from_fn(|i| at[i]), r, lat, &mut out);
        let share = trace_share(out.now());
        let fault = (share.is_nan() || share > TRACE).then(|| format!("the trace is {share:e} of the largest entry"));
        tally.call(fault, || format!("N {nmax}, r, t, u {:?}", [r, lat.0, lat.1].map(shown)));
    }
}
