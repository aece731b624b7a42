//! The crates `slepian`, `polar_cap`, `regions` and `region` against the oracle's slepian.rs.

pub mod bench;
pub mod caps;
pub mod region_replay;
pub mod regions;
pub mod replay;

use oracle::Coefficients;
use oracle::slepian::basin_average;

use crate::cases::Cases;
use crate::coefficients::fields::field;
use crate::entries::*;
use crate::functional::{NO_FUNCTIONALS, WATER_HEIGHT, functional};
use crate::guarded::Guarded;
use crate::refusal::{BEYOND, Checks, MAX_DEGREE, NO_FUNCTIONAL, SIZE, answered, fault, pairs};
use crate::sizes::table;
use crate::tally::{Report, Tally, shown};

/// The random pairs of fields.
const COUNT: u64 = 40_000;

pub fn compare(report: &mut Report) {
    report.call("slepian.basin_average", averages);
    report.call("slepian.refusals", refusals);
    report.call("slepian.polar_cap", caps::caps);
    report.call("slepian.polar_cap, refusals", caps::refusals);
    report.call("slepian.concentration_matrix", regions::matrices);
    report.call("slepian.region", regions::functions);
    report.call("slepian.region, drawn", regions::drawn);
    report.call("slepian.region, refusals", regions::refusals);
}

/// One call: the functional's number, its Love numbers, r, and the degrees and lengths that the call is given.
struct Call<'a> {
    field: &'a Coefficients,
    kernel: &'a Coefficients,
    number: u32,
    love: &'a [f64],
    r: f64,
    nmax: usize,
    kmax: usize,
    lengths: [usize; 4],
}

impl<'a> Call<'a> {
    fn new(field: &'a Coefficients, kernel: &'a Coefficients, number: u32, love: &'a [f64], r: f64) -> Self {
        let (nmax, kmax) = (field.max_degree(), kernel.max_degree());
        Call { field, kernel, number, love, r, nmax, kmax, lengths: [table(nmax), table(nmax), table(kmax), table(kmax)] }
    }

    /// Document 01's refusal: both degrees for SIZE, the smaller one for LOVE.
    fn due(&self) -> u32 {
        if self.number > WATER_HEIGHT {
            return NO_FUNCTIONAL;
        }
        if self.kmax > MAX_DEGREE {
            return SIZE;
        }
        let stated = [pairs(self.nmax), pairs(self.nmax), pairs(self.kmax), pairs(self.kmax)];
        let inputs: Vec<(usize, u128)> = self.lengths.into_iter().zip(stated).collect();
        let before = Checks { degree: self.nmax, inputs: &inputs, ..Checks::default() }.due();
        let love = (self.number == WATER_HEIGHT).then_some(self.love.len());
        if before != 0 { before } else { Checks { degree: self.nmax.min(self.kmax), love, ..Checks::default() }.due() }
    }

    fn compare(&self, tally: &mut Tally) {
        let Call { field, kernel, number, love, r, nmax, kmax, lengths } = *self;
        let (mut c, mut s) = (Guarded::of(&field.c, lengths[0]), Guarded::of(&field.s, lengths[1]));
        let (mut kc, mut ks) = (Guarded::of(&kernel.c, lengths[2]), Guarded::of(&kernel.s, lengths[3]));
        let (mut lent, mut value) = (Guarded::of(love, love.len()), Guarded::marked(1));
        let due = self.due();
        let ours = unsafe {
            let (c, s) = ((c.pointer(), c.len()), (s.pointer(), s.len()));
            let (kc, ks) = ((kc.pointer(), kc.len()), (ks.pointer(), ks.len()));
            let (k, v) = ((lent.pointer(), lent.len()), value.pointer());
            let (gm, radius) = (field.gm, field.radius);
            geopotential_basin_average(gm, radius, nmax, c.0, c.1, s.0, s.1, kmax, kc.0, kc.1, ks.0, ks.1, number, k.0, k.1, r, v)
        };
        let answer = answered(due, || basin_average(field, kernel, &functional(number, love), r));
        let fault = fault(ours, due).or_else(|| value.fault("value", answer.as_slice())).or_else(|| {
            [("c", &c), ("s", &s), ("kc", &kc), ("ks", &ks), ("love", &lent)].iter().find_map(|(name, list)| list.fault(name, &[]))
        });
        tally.call(fault, || {
            let head = [field.gm, field.radius, r].map(shown);
            format!(
                "functional {number}, gm, radius, r {head:?}, degrees {nmax} and {kmax}, lengths {lengths:?}, {} Love numbers",
                love.len()
            )
        });
    }
}

fn averages(tally: &mut Tally, cases: &mut Cases) {
    for _ in cases.times(COUNT) {
        let (nmax, kmax) = (cases.below(41) as usize, cases.below(41) as usize);
        one(tally, cases, nmax, kmax);
    }
    for (nmax, kmax) in [(96, 96), (96, 40), (60, 360), (360, 360), (2700, 2700), (2700, 3), (12, 2700)] {
        one(tally, cases, nmax, kmax);
    }
}

/// A random field and kernel of these degrees, with one functional.
fn one(tally: &mut Tally, cases: &mut Cases, nmax: usize, kmax: usize) {
    let (field, kernel) = (field(cases, nmax), field(cases, kmax));
    let strange = cases.below(2) == 0;
    let love: Vec<f64> = (0..=nmax.min(kmax)).map(|_| if strange { cases.number() } else { cases.fraction() - 0.5 }).collect();
    let r = if cases.below(2) == 0 { cases.number() } else { field.radius * (1.0 + 0.1 * cases.fraction()) };
    Call::new(&field, &kernel, cases.below(6) as u32, &love, r).compare(tally);
}

fn refusals(tally: &mut Tally, cases: &mut Cases) {
    for (nmax, kmax) in [(0, 0), (1, 0), (0, 2), (2, 2), (3, 5)] {
        let (field, kernel) = (field(cases, nmax), field(cases, kmax));
        let love: Vec<f64> = (0..8).map(|_| cases.number()).collect();
        for number in (0..=WATER_HEIGHT).chain([NO_FUNCTIONALS[cases.below(8) as usize]]) {
            for numbers in [0, nmax.min(kmax), nmax.min(kmax) + 1, nmax.max(kmax) + 1] {
                let call = || Call::new(&field, &kernel, number, &love[..numbers], 1.5);
                for choice in 0..81 {
                    let mut changed = call();
                    // Each list one too short, right, or one too long.
                    let change = |place: u32| (choice / 3usize.pow(place)) % 3;
                    (0..4).for_each(|place| changed.lengths[place as usize] = changed.lengths[place as usize] + change(place) - 1);
                    changed.compare(tally);
                }
                for degree in BEYOND.into_iter().chain([MAX_DEGREE, nmax + 1]) {
                    Call { nmax: degree, ..call() }.compare(tally);
                    Call { kmax: degree, ..call() }.compare(tally);
                    Call { nmax: degree, kmax: degree, ..call() }.compare(tally);
                }
            }
        }
    }
}
