//! The crate `functional` against the oracle's `Functional::factor`, its refusals against document 01's table.

pub mod bench;
pub mod replay;

use oracle::Functional;

use crate::cases::{Cases, strange};
use crate::entries::*;
use crate::guarded::Guarded;
use crate::refusal::{BEYOND, Checks, MAX_DEGREE, NO_FUNCTIONAL, fault};
use crate::tally::{Report, Tally, shown};

/// The functionals in the order of their numbers.
pub const NAMES: [&str; 6] = ["Potential", "GeoidHeight", "GravityDisturbance", "GravityAnomaly", "RadialGradient", "WaterHeight"];
pub const WATER_HEIGHT: u32 = 5;
/// Numbers that are no functional's; the low bits of some are.
pub const NO_FUNCTIONALS: [u32; 8] = [6, 7, 255, 256, 261, 65_541, 1 << 31, u32::MAX];

/// The oracle's functional of a number.
pub fn functional(number: u32, love: &[f64]) -> Functional<'_> {
    match number {
        0 => Functional::Potential,
        1 => Functional::GeoidHeight,
        2 => Functional::GravityDisturbance,
        3 => Functional::GravityAnomaly,
        4 => Functional::RadialGradient,
        _ => Functional::WaterHeight { love },
    }
}

/// Values as they are for the Earth: gm, radius, r.
pub const EARTH: (f64, f64, f64) = (3.986004415e14, 6378136.3, 6878136.3);

pub fn compare(report: &mut Report) {
    report.call("functional.factor", factors);
    report.call("functional.refusals", refusals);
}

/// Factors by both sides, with one list of Love numbers.
struct Factors<'a> {
    tally: &'a mut Tally,
    love: Guarded<f64>,
    value: Guarded<f64>,
}

impl<'a> Factors<'a> {
    fn new(tally: &'a mut Tally, cases: &mut Cases) -> Self {
        let love: Vec<f64> = (0..MAX_DEGREE + 10).map(|_| cases.fraction() - 0.5).collect();
        Factors { tally, love: Guarded::of(&love, love.len()), value: Guarded::marked(1) }
    }

    /// One factor, with the first `length` Love numbers lent.
    fn one(&mut self, number: u32, length: usize, n: usize, gm: f64, radius: f64, r: f64) {
        let length = length.min(self.love.len());
        self.value = Guarded::marked(1);
        let ours = unsafe { geopotential_factor(number, self.love.pointer(), length, n, gm, radius, r, self.value.pointer()) };
        let due = match number {
            0..=5 => Checks { degree: n, love: (number == WATER_HEIGHT).then_some(length), ..Checks::default() }.due(),
            _ => NO_FUNCTIONAL,
        };
        let answer = (due == 0).then(|| functional(number, &self.love.now()[..length]).factor(n, gm, radius, r));
        let fault = fault(ours, due).or_else(|| self.value.fault("value", answer.as_slice()));
        self.tally.call(fault, || {
            let love = self.love.now()[..length].get(n).map_or("no Love number".to_string(), |k| format!("Love number {}", shown(*k)));
            format!("functional {number}, n {n}, gm {}, radius {}, r {}, {love} of {length}", shown(gm), shown(radius), shown(r))
        });
    }

    /// All six at one degree, with a Love number of this degree and no more Love numbers than needed.
    fn six(&mut self, love: f64, n: usize, gm: f64, radius: f64, r: f64) {
        self.love.prepare(n, love);
        (0..WATER_HEIGHT).for_each(|number| self.one(number, 0, n, gm, radius, r));
        self.one(WATER_HEIGHT, n + 1, n, gm, radius, r);
    }

    /// The Love numbers must be as they were.
    fn finish(self) {
        self.tally.call(self.love.fault("love", &[]), || "after all calls".to_string());
    }
}

fn factors(tally: &mut Tally, cases: &mut Cases) {
    let mut both = Factors::new(tally, cases);
    let (gm, radius, r) = EARTH;
    for n in 0..=MAX_DEGREE {
        both.six(-0.3, n, gm, radius, r);
        both.six(-0.3, n, gm, radius, radius);
        both.six(-1.0, n, gm, r, radius);
        both.six(cases.number(), n, cases.number(), cases.number(), cases.number());
    }
    for n in [0, 1, 2, 3, 10, 96, MAX_DEGREE] {
        for x in strange() {
            for (gm, radius, r) in [(x, radius, r), (gm, x, r), (gm, radius, x), (x, x, r), (gm, x, x), (x, radius, x), (x, x, x)] {
                both.six(x, n, gm, radius, r);
            }
        }
    }
    for _ in cases.times(300_000) {
        let n = cases.below(MAX_DEGREE as u64 + 1) as usize;
        // Ratios whose powers stay finite, numbers of every size, and small degrees with them.
        let ratio = 0.9 + 0.2 * cases.fraction();
        both.six(cases.fraction() - 0.5, n, cases.near_one(), ratio, 1.0);
        both.six(cases.near_one(), n, gm, 6.3e6 + 1e5 * cases.fraction(), 6.3e6 + 1e6 * cases.fraction());
        both.six(cases.number(), n, cases.number(), cases.number(), cases.number());
        both.six(cases.number(), n % 8, cases.any_bits(), cases.near_one(), cases.near_one());
    }
    both.finish();
}

/// Every functional and some numbers that are none, at degrees about the limit, with lists of Love numbers about the length needed.
fn refusals(tally: &mut Tally, cases: &mut Cases) {
    let mut both = Factors::new(tally, cases);
    let degrees = [0, 1, 2, 3, 10, 255, 256, 2698, 2699, 2700].into_iter().chain(BEYOND);
    for n in degrees {
        for number in (0..=WATER_HEIGHT).chain(NO_FUNCTIONALS) {
            let about = n.wrapping_sub(2).min(MAX_DEGREE);
            for length in (0..4).chain(about..about + 6) {
                let (gm, radius, r) = EARTH;
                both.one(number, length, n, gm, radius, r);
                both.one(number, length, n, cases.number(), cases.number(), cases.number());
            }
        }
    }
    for _ in cases.times(300_000) {
        let n = match cases.below(4) {
            0 => cases.bits() as usize >> cases.below(64),
            1 => MAX_DEGREE - 3 + cases.below(6) as usize,
            _ => cases.below(MAX_DEGREE as u64 + 1) as usize,
        };
        let number = if cases.below(4) == 0 { cases.bits() as u32 >> cases.below(32) } else { cases.below(6) as u32 };
        let length = if cases.below(2) == 0 { n.saturating_sub(2) + cases.below(5) as usize } else { cases.below(2710) as usize };
        both.one(number, length, n, cases.number(), cases.number(), cases.number());
    }
    both.finish();
}
