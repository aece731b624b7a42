//! The crate `analysis` against the oracle's `Coefficients::analysis`.

pub mod bench;
pub mod replay;

use oracle::standins::tricomi;
use oracle::{Coefficients, gauss_legendre};

use crate::cases::Cases;
use crate::coefficients::fields::field;
use crate::entries::*;
use crate::functional::{NO_FUNCTIONALS, WATER_HEIGHT, functional};
use crate::guarded::Guarded;
use crate::lent::{analysis_orders, flat, latitude, orders, pair};
use crate::refusal::{BEYOND, Checks, MAX_DEGREE, NO_FUNCTIONAL, answered, fault, pairs};
use crate::sizes::table;
use crate::tally::{Report, Tally, shown};

/// The random calls with numbers of any shape.
const COUNT: u64 = 20_000;

pub fn compare(report: &mut Report) {
    report.call("analysis.of grids", of_grids);
    report.call("analysis.any numbers", any_numbers);
    report.call("analysis.refusals", refusals);
}

/// What is lent to a call for degree N.
pub struct Lent {
    pub values: Vec<f64>,
    pub weights: Vec<f64>,
    pub latitudes: Vec<(f64, f64)>,
    pub trig: Vec<(f64, f64)>,
}

/// One call: N and the lengths of values, weights, latitudes, cosines and sines, working list, c, s that it is given.
struct Call<'a> {
    number: u32,
    love: &'a [f64],
    r: f64,
    gm: f64,
    radius: f64,
    lent: &'a Lent,
    nmax: usize,
    lengths: [usize; 7],
}

/// The stated lengths, in the order of the lists.
fn stated(nmax: usize) -> [u128; 7] {
    let (order, size) = (nmax as u128 + 1, pairs(nmax));
    [2 * order * order, order, 2 * order, 4 * order * order, 3 * size, size, size]
}

impl<'a> Call<'a> {
    fn new(number: u32, love: &'a [f64], r: f64, gm: f64, radius: f64, nmax: usize, lent: &'a Lent) -> Self {
        Call { number, love, r, gm, radius, lent, nmax, lengths: stated(nmax).map(|length| length as usize) }
    }

    fn due(&self) -> u32 {
        if self.number > WATER_HEIGHT {
            return NO_FUNCTIONAL;
        }
        let lists: Vec<(usize, u128)> = self.lengths.into_iter().zip(stated(self.nmax)).collect();
        let love = (self.number == WATER_HEIGHT).then_some(self.love.len());
        Checks { degree: self.nmax, inputs: &lists[..4], love, outputs: &lists[4..], ..Checks::default() }.due()
    }

    fn compare(&self, tally: &mut Tally) {
        let Call { number, love, r, gm, radius, lent, nmax, lengths } = *self;
        let (mut values, mut weights) = (Guarded::of(&lent.values, lengths[0]), Guarded::of(&lent.weights, lengths[1]));
        let (mut lats, mut trig) = (Guarded::of(&flat(&lent.latitudes), lengths[2]), Guarded::of(&flat(&lent.trig), lengths[3]));
        let (mut work, mut c, mut s) = (Guarded::marked(lengths[4]), Guarded::marked(lengths[5]), Guarded::marked(lengths[6]));
        let mut numbers = Guarded::of(love, love.len());
        let due = self.due();
        let ours = unsafe {
            let (k, v) = ((numbers.pointer(), numbers.len()), (values.pointer(), values.len()));
            let (w, l, t) = ((weights.pointer(), weights.len()), (lats.pointer(), lats.len()), (trig.pointer(), trig.len()));
            let (f, c, s) = ((work.pointer(), work.len()), (c.pointer(), c.len()), (s.pointer(), s.len()));
            geopotential_analysis(
                number, k.0, k.1, r, nmax, gm, radius, v.0, v.1, w.0, w.1, l.0, l.1, t.0, t.1, f.0, f.1, c.0, c.1, s.0, s.1,
            )
        };
        let model = answered(due, || {
            Coefficients::analysis(&functional(number, love), r, &lent.values, nmax, gm, radius, &lent.weights, &lent.latitudes, &lent.trig)
        });
        let (due_c, due_s) = model.map_or((vec![], vec![]), |model| (model.c, model.s));
        // The used part of the working list is free after an accepted call.
        let kept = work.now()[..if due == 0 { 3 * table(nmax) } else { 0 }].to_vec();
        let inputs = [("values", &values), ("weights", &weights), ("latitudes", &lats), ("trig", &trig), ("love", &numbers)];
        let fault = fault(ours, due)
            .or_else(|| c.fault("c", &due_c))
            .or_else(|| s.fault("s", &due_s))
            .or_else(|| work.fault("work", &kept))
            .or_else(|| inputs.iter().find_map(|(name, list)| list.fault(name, &[])));
        tally.call(fault, || {
            let head = [gm, radius, r].map(shown);
            format!("functional {number}, gm, radius, r {head:?}, N {nmax}, lengths {lengths:?}, {} Love numbers", love.len())
        });
    }
}

/// The grid that `analysis` reads to degree N: the rule's weights and latitudes, and the values of a field on it.
pub fn gauss(field: &Coefficients, number: u32, love: &[f64], r: f64) -> Lent {
    let nmax = field.max_degree();
    let (nodes, weights) = gauss_legendre(nmax + 1, &tricomi(nmax + 1));
    let latitudes: Vec<(f64, f64)> = nodes.iter().map(|x| pair(x.asin())).collect();
    let count = 2 * nmax + 2;
    let longitudes: Vec<Vec<(f64, f64)>> = (0..count).map(|j| orders(core::f64::consts::TAU * j as f64 / count as f64, nmax)).collect();
    let lons: Vec<&[(f64, f64)]> = longitudes.iter().map(Vec::as_slice).collect();
    let values = field.grid(&functional(number, love), r, &latitudes, &lons);
    Lent { values, weights, latitudes, trig: analysis_orders(nmax) }
}

fn of_grids(tally: &mut Tally, cases: &mut Cases) {
    for nmax in (0..=60).chain([96, 127, 128]) {
        let field = field(cases, nmax);
        let love: Vec<f64> = (0..=nmax).map(|_| cases.fraction() - 0.5).collect();
        let r = field.radius * (1.0 + 0.1 * cases.fraction());
        for number in 0..=WATER_HEIGHT {
            let lent = gauss(&field, number, &love, r);
            Call::new(number, &love, r, field.gm, field.radius, nmax, &lent).compare(tally);
        }
    }
}

/// Values, weights, latitudes, cosines and sines that are no grid's.
fn any_numbers(tally: &mut Tally, cases: &mut Cases) {
    let mut one = |cases: &mut Cases, nmax: usize| {
        let kind = cases.below(4);
        let number = |cases: &mut Cases| match kind {
            0 => cases.number(),
            1 => cases.near_one(),
            _ if cases.below(40) == 0 => cases.number(),
            _ => cases.fraction() - 0.5,
        };
        let list = |cases: &mut Cases, count: usize| -> Vec<f64> { (0..count).map(|_| number(cases)).collect() };
        let order = nmax + 1;
        let lent = Lent {
            values: list(cases, 2 * order * order),
            weights: list(cases, order),
            latitudes: (0..order).map(|_| latitude(cases)).collect(),
            trig: (0..2 * order * order).map(|_| (number(cases), number(cases))).collect(),
        };
        // Factors that are zero at every degree, or at some.
        let (gm, radius) = if cases.below(4) == 0 { (0.0, -0.0) } else { (number(cases), number(cases)) };
        let (love, r) = (list(cases, order), number(cases));
        let mut call = Call::new(cases.below(6) as u32, &love, r, gm, radius, nmax, &lent);
        // A working list and outputs that may be longer.
        call.lengths[4..].iter_mut().for_each(|length| *length += cases.below(5) as usize);
        call.compare(tally);
    };
    for _ in cases.times(COUNT) {
        let nmax = cases.below(13) as usize;
        one(cases, nmax);
    }
    for nmax in (13..=40).chain([130]) {
        one(cases, nmax);
    }
}

fn refusals(tally: &mut Tally, cases: &mut Cases) {
    for nmax in [0, 1, 2] {
        let field = field(cases, nmax);
        let love: Vec<f64> = (0..8).map(|_| cases.number()).collect();
        let lent = gauss(&field, 0, &[], 1.5);
        for number in [0, WATER_HEIGHT, NO_FUNCTIONALS[cases.below(8) as usize]] {
            for numbers in [0, nmax, nmax + 1] {
                let call = || Call::new(number, &love[..numbers], 1.5, field.gm, field.radius, nmax, &lent);
                for choice in 0..2187usize {
                    let mut changed = call();
                    // Each list one too short, right, or one too long.
                    for (place, length) in changed.lengths.iter_mut().enumerate() {
                        *length = *length + choice / 3usize.pow(place as u32) % 3 - 1;
                    }
                    changed.compare(tally);
                }
                for degree in BEYOND.into_iter().chain([MAX_DEGREE, nmax + 1]) {
                    Call { nmax: degree, ..call() }.compare(tally);
                }
            }
        }
    }
}
