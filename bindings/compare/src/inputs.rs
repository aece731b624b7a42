//! Inputs of both sides, and the comparison of their answers.

use core::f64::consts::{FRAC_PI_2, PI};

use crate::cases::Cases;
use crate::shared::fields;
use crate::tally::{pattern, shown};

/// The degrees of large fields.
pub const LARGE: [usize; 4] = [96, 180, 360, 2700];

/// Degrees up to 40, `count` of them, then those of large fields.
pub fn degrees(cases: &mut Cases, count: u64, large: &[usize]) -> Vec<usize> {
    let mut degrees: Vec<usize> = cases.times(count).map(|_| cases.below(41) as usize).collect();
    degrees.extend(large);
    degrees
}

/// An angle in radians: of the circle, a quarter of it or its middle, or any number.
pub fn angle(cases: &mut Cases) -> f64 {
    match cases.below(12) {
        0 => cases.number(),
        1 => [0.0, -0.0, FRAC_PI_2, -FRAC_PI_2, PI, 1e-9 - FRAC_PI_2][cases.below(6) as usize],
        _ => 6.4 * cases.fraction() - 3.2,
    }
}

pub fn angles(cases: &mut Cases, count: usize) -> Vec<f64> {
    (0..count).map(|_| angle(cases)).collect()
}

/// A radius: about a field's own, or any number.
pub fn radius(cases: &mut Cases, field: &Field) -> f64 {
    if cases.below(4) == 0 { cases.number() } else { field.oracle.radius * (1.0 + 0.1 * cases.fraction()) }
}

/// One field, on both sides.
pub struct Field {
    pub ours: geopotential::Coefficients,
    pub oracle: oracle::Coefficients,
}

impl Field {
    /// A random field: strange numbers, ordinary ones, or both.
    pub fn random(cases: &mut Cases, nmax: usize) -> Self {
        let oracle = fields::field(cases, nmax);
        let mut ours = geopotential::Coefficients::zeros(oracle.gm, oracle.radius, nmax);
        for n in 0..=nmax {
            for m in 0..=n {
                ours.set(n, m, oracle.c(n, m), oracle.s(n, m));
            }
        }
        Field { ours, oracle }
    }
}

/// No date, or a count of days: about 0, at an end of its range, or any.
pub fn date(cases: &mut Cases) -> Option<i32> {
    match cases.below(4) {
        0 => None,
        1 => Some([0, 1, -1, i32::MIN, i32::MAX][cases.below(5) as usize]),
        _ => Some(cases.bits() as i32),
    }
}

/// One functional, on both sides.
pub struct Functionals<'a> {
    pub ours: geopotential::Functional<'a>,
    pub oracle: oracle::Functional<'a>,
}

impl<'a> Functionals<'a> {
    /// One of the six; water heights take their Love numbers from the list.
    pub fn random(cases: &mut Cases, love: &'a [f64]) -> Self {
        use {geopotential::Functional as Ours, oracle::Functional as Oracle};
        let (ours, oracle) = match cases.below(6) {
            0 => (Ours::Potential, Oracle::Potential),
            1 => (Ours::GeoidHeight, Oracle::GeoidHeight),
            2 => (Ours::GravityDisturbance, Oracle::GravityDisturbance),
            3 => (Ours::GravityAnomaly, Oracle::GravityAnomaly),
            4 => (Ours::RadialGradient, Oracle::RadialGradient),
            _ => (Ours::WaterHeight { love }, Oracle::WaterHeight { love }),
        };
        Functionals { ours, oracle }
    }
}

/// Love numbers for the degrees up to `nmax`, ordinary or of any shape, sometimes more than are needed.
pub fn love(cases: &mut Cases, nmax: usize) -> Vec<f64> {
    let (strange, more) = (cases.below(4) == 0, cases.below(3) as usize);
    (0..=nmax + more).map(|_| if strange { cases.number() } else { cases.fraction() - 0.5 }).collect()
}

/// What is wrong with a list, NaN counting as NaN.
pub fn fault(name: &str, ours: &[f64], oracle: &[f64]) -> Option<String> {
    if ours.len() != oracle.len() {
        return Some(format!("{name}: {} numbers, due {}", ours.len(), oracle.len()));
    }
    let at = ours.iter().zip(oracle).position(|(&x, &y)| pattern(x) != pattern(y))?;
    Some(format!("{name}[{at}]: ours {}, due {}", shown(ours[at]), shown(oracle[at])))
}

/// Every zero as +0.
pub fn unsigned(numbers: &[f64]) -> Vec<f64> {
    numbers.iter().map(|&x| if x == 0.0 { 0.0 } else { x }).collect()
}

/// What is wrong with a field's head and lists. The oracle's fields have no date: the one due is said apart.
pub fn field_fault(ours: &geopotential::Coefficients, oracle: &oracle::Coefficients, date: Option<i32>) -> Option<String> {
    let nmax = oracle.max_degree();
    if ours.date != date {
        return Some(format!("date {:?}, due {date:?}", ours.date));
    }
    if (ours.max_degree(), ours.tide_system as u8) != (nmax, oracle.tide_system as u8) {
        return Some(format!("degree {}, {:?}; due {nmax}, {:?}", ours.max_degree(), ours.tide_system, oracle.tide_system));
    }
    let lists = |entry: &dyn Fn(usize, usize) -> f64| -> Vec<f64> { (0..=nmax).flat_map(|n| (0..=n).map(move |m| entry(n, m))).collect() };
    fault("gm, radius", &[ours.gm, ours.radius], &[oracle.gm, oracle.radius])
        .or_else(|| fault("c", &lists(&|n, m| ours.c(n, m)), &oracle.c))
        .or_else(|| fault("s", &lists(&|n, m| ours.s(n, m)), &oracle.s))
}
