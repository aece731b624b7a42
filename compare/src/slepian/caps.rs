//! `polar_cap` against the oracle's.

use oracle::gauss_legendre;
use oracle::slepian::{Slepian, polar_cap};
use oracle::standins::{noted, tricomi};

use crate::cases::Cases;
use crate::entries::geopotential_polar_cap;
use crate::guarded::Guarded;
use crate::lent::{cap_pairs, flat, latitude};
use crate::refusal::{LENGTH, SIZE, SPACE, answered, fault};
use crate::tally::{Tally, shown};

/// The random caps with numbers of any shape.
const COUNT: u64 = 4_000;

/// How many functions a cap has, and how many numbers their vectors.
pub fn lengths(lmax: usize) -> (u128, u128) {
    let k = lmax as u128 + 1;
    (k * (k + 1) / 2, k * (k + 1) * (2 * k + 1) / 6)
}

/// The numbers that a call works with: 3T + 4k² + 5k and the three lengths of the answer.
pub fn work_size(lmax: usize) -> u128 {
    let (k, (functions, numbers)) = (lmax as u128 + 1, lengths(lmax));
    3 * functions + 4 * k * k + 5 * k + 2 * functions + numbers
}

/// What a cap is worked out from.
pub struct Cap {
    pub lmax: usize,
    pub cosine: f64,
    pub weights: Vec<f64>,
    pub latitudes: Vec<(f64, f64)>,
}

impl Cap {
    /// The cap within an angle (radians) of the pole.
    pub fn of(lmax: usize, angle: f64) -> Self {
        let (nodes, weights) = gauss_legendre(lmax + 1, &tricomi(lmax + 1));
        Cap { lmax, cosine: angle.cos(), weights, latitudes: cap_pairs(angle.cos(), &nodes) }
    }

    /// Weights, pairs and a cosine that are no cap's.
    fn any(cases: &mut Cases, lmax: usize) -> Self {
        let kind = cases.below(3);
        let number = |cases: &mut Cases| if kind == 0 { cases.number() } else { cases.fraction() };
        let weights = (0..=lmax).map(|_| number(cases)).collect();
        let latitudes = (0..=lmax).map(|_| latitude(cases)).collect();
        Cap { lmax, cosine: number(cases), weights, latitudes }
    }

    pub fn oracle(&self) -> Vec<Slepian> {
        polar_cap(self.lmax, self.cosine, &self.weights, &self.latitudes)
    }
}

/// The notes of the orders as numbers, the flag before the count.
pub fn told(notes: &[(bool, usize)]) -> Vec<f64> {
    notes.iter().flat_map(|&(settled, count)| [settled as u8 as f64, count as f64]).collect()
}

/// The lengths of weights, latitudes, working list, orders, concentrations, vectors, and of how the solver ended.
pub fn stated(lmax: usize) -> [u128; 7] {
    let (order, (functions, numbers)) = (lmax as u128 + 1, lengths(lmax));
    [order, 2 * order, work_size(lmax), functions, functions, numbers, 2 * order]
}

fn due(lmax: usize, lengths: &[usize; 7]) -> u32 {
    if lmax > 180 {
        return SIZE;
    }
    let lists: Vec<(u128, u128)> = lengths.iter().map(|&length| length as u128).zip(stated(lmax)).collect();
    match lists.as_slice() {
        [inputs @ .., _, _, _, _, _] if inputs.iter().any(|(length, stated)| length != stated) => LENGTH,
        [_, _, outputs @ ..] if outputs.iter().any(|(length, stated)| length < stated) => SPACE,
        _ => 0,
    }
}

fn call(tally: &mut Tally, cap: &Cap, lmax: usize, lengths: [usize; 7]) {
    let (mut weights, mut lats) = (Guarded::of(&cap.weights, lengths[0]), Guarded::of(&flat(&cap.latitudes), lengths[1]));
    let (mut work, mut orders) = (Guarded::marked(lengths[2]), Guarded::marked(lengths[3]));
    let (mut concentrations, mut vectors) = (Guarded::marked(lengths[4]), Guarded::marked(lengths[5]));
    let mut settled = Guarded::marked(lengths[6]);
    let due = due(lmax, &lengths);
    let ours = unsafe {
        let (w, l, f) = ((weights.pointer(), weights.len()), (lats.pointer(), lats.len()), (work.pointer(), work.len()));
        let (o, c) = ((orders.pointer(), orders.len()), (concentrations.pointer(), concentrations.len()));
        let (v, s) = ((vectors.pointer(), vectors.len()), (settled.pointer(), settled.len()));
        geopotential_polar_cap(lmax, cap.cosine, w.0, w.1, l.0, l.1, f.0, f.1, o.0, o.1, c.0, c.1, v.0, v.1, s.0, s.1)
    };
    let (functions, notes) = answered(due, || noted(|| cap.oracle())).unwrap_or_default();
    let due_orders: Vec<f64> = functions.iter().map(|f| f.m as f64).collect();
    let due_concentrations: Vec<f64> = functions.iter().map(|f| f.concentration).collect();
    let due_vectors: Vec<f64> = functions.iter().flat_map(|f| f.coefficients.iter().copied()).collect();
    let due_settled = told(&notes);
    // The used part of the working list is free after an accepted call.
    let kept = work.now()[..if due == 0 { work_size(lmax) as usize } else { 0 }].to_vec();
    let fault = fault(ours, due)
        .or_else(|| orders.fault("orders", &due_orders))
        .or_else(|| concentrations.fault("concentrations", &due_concentrations))
        .or_else(|| vectors.fault("vectors", &due_vectors))
        .or_else(|| settled.fault("settled", &due_settled))
        .or_else(|| work.fault("work", &kept))
        .or_else(|| [("weights", &weights), ("latitudes", &lats)].iter().find_map(|(name, list)| list.fault(name, &[])));
    tally.call(fault, || format!("L {lmax}, cosine {}, lengths {lengths:?}", shown(cap.cosine)));
}

pub fn caps(tally: &mut Tally, cases: &mut Cases) {
    for lmax in 0..=30 {
        for degrees in [0.0, 0.5, 10.0, 40.0, 90.0, 137.0, 180.0f64] {
            call(tally, &Cap::of(lmax, degrees.to_radians()), lmax, stated(lmax).map(|length| length as usize));
        }
    }
    for _ in cases.times(COUNT) {
        let lmax = cases.below(13) as usize;
        let cap = Cap::any(cases, lmax);
        let mut longer = stated(lmax).map(|length| length as usize);
        longer[2..].iter_mut().for_each(|length| *length += cases.below(4) as usize);
        call(tally, &cap, lmax, longer);
    }
    for (lmax, degrees) in [(31, 40.0), (32, 40.0), (33, 20.0), (60, 40.0), (60, 3.0), (180, 20.0f64)] {
        call(tally, &Cap::of(lmax, degrees.to_radians()), lmax, stated(lmax).map(|length| length as usize));
    }
}

pub fn refusals(tally: &mut Tally, cases: &mut Cases) {
    for lmax in [0, 1, 2] {
        let cap = Cap::any(cases, lmax);
        for choice in 0..2187usize {
            let mut lengths = stated(lmax).map(|length| length as usize);
            // Each list one too short, right, or one too long.
            for (place, length) in lengths.iter_mut().enumerate() {
                *length = *length + choice / 3usize.pow(place as u32) % 3 - 1;
            }
            call(tally, &cap, lmax, lengths);
        }
        for large in [181, 182, 65_536, 1 << 32, (1 << 32) + 1, 1 << 63, usize::MAX] {
            call(tally, &cap, large, stated(lmax).map(|length| length as usize));
        }
        call(tally, &cap, lmax + 1, stated(lmax).map(|length| length as usize));
        call(tally, &cap, 180, stated(lmax).map(|length| length as usize));
    }
}
