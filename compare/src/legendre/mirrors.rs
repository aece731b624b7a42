//! Tables for the negated sine of the latitude: `mirror` and `mirror_derivative` against the oracle's tables there, against a plain reader of the table,
//! and done twice.

use oracle::Legendre;
use oracle::legendre::idx;

use super::tables::any_numbers;
use super::{any_tables, strange_latitudes};
use crate::cases::Cases;
use crate::entries::*;
use crate::guarded::Guarded;
use crate::lent::pair;
use crate::refusal::{BEYOND, Checks, MAX_DEGREE, answered, fault, pairs};
use crate::sizes::{around, beside, table};
use crate::tally::{Tally, shown};

/// The random lists of each call, and the random latitudes with five tables each.
const COUNT: u64 = 60_000;
const LATITUDES: u64 = 40_000;

/// The degrees of the large tables.
const LARGE: [usize; 4] = [96, 128, 360, 2700];

/// The two calls; second derivatives are mirrored as the values are.
#[derive(Clone, Copy, Debug)]
pub enum Mirror {
    Values,
    Derivatives,
}
use Mirror::{Derivatives, Values};

const BOTH: [Mirror; 2] = [Values, Derivatives];

impl Mirror {
    /// Our call: its refusal.
    fn enter(self, nmax: usize, list: &mut Guarded<f64>) -> u32 {
        let (pointer, length) = (list.pointer(), list.len());
        match self {
            Values => unsafe { geopotential_legendre_mirror(nmax, pointer, length) },
            Derivatives => unsafe { geopotential_legendre_mirror_derivative(nmax, pointer, length) },
        }
    }

    /// The plain reader: every entry of a table with its sign turned or not.
    pub fn read(self, nmax: usize, list: &[f64]) -> Vec<f64> {
        let shift = match self {
            Values => 0,
            Derivatives => 1,
        };
        let mut mirrored = list.to_vec();
        for n in 0..=nmax {
            for m in 0..=n {
                let x = list[idx(n, m)];
                mirrored[idx(n, m)] = if (n - m + shift) % 2 == 1 { -x } else { x };
            }
        }
        mirrored
    }

    /// The call on a list of so many numbers, by both.
    fn compare(self, tally: &mut Tally, nmax: usize, content: &[f64], length: usize) {
        let mut list = Guarded::of(content, length);
        let due = Checks { degree: nmax, inputs: &beside(&[length], pairs(nmax)), ..Checks::default() }.due();
        let answer = answered(due, || self.read(nmax, list.now())).unwrap_or_default();
        let ours = self.enter(nmax, &mut list);
        let fault = fault(ours, due).or_else(|| list.fault("table", &answer));
        tally.call(fault, || format!("mirror of {self:?}, N {nmax}, length {length}"));
    }
}

/// Lists of any numbers, and refusals: what is written, and that nothing else is.
pub fn lists(tally: &mut Tally, cases: &mut Cases) {
    let mut one = |cases: &mut Cases, nmax: usize, length: usize| {
        let content = any_numbers(cases, length);
        BOTH.iter().for_each(|mirror| mirror.compare(tally, nmax, &content, length));
    };
    for nmax in (0..=60).chain(LARGE) {
        one(cases, nmax, table(nmax));
    }
    for nmax in [0, 1, 2, 5, 40] {
        around(nmax, &[table(nmax)], |degree, lengths| one(cases, degree, lengths[0]));
        // Degrees of 33 and of 64 bits, of which the low ones are the table's.
        [1 << 32, 1 << 63].iter().for_each(|high| one(cases, high + nmax, table(nmax)));
    }
    for nmax in [MAX_DEGREE - 1, MAX_DEGREE, MAX_DEGREE + 1] {
        [table(nmax) - 1, table(nmax), table(nmax) + 1].iter().for_each(|&length| one(cases, nmax, length));
    }
    for _ in cases.times(COUNT) {
        let nmax = cases.below(41) as usize;
        one(cases, nmax, table(nmax));
        if cases.below(8) == 0 {
            let (length, beyond) = (cases.below(900) as usize, BEYOND[cases.below(BEYOND.len() as u64) as usize]);
            one(cases, nmax, length);
            one(cases, beyond, length);
        }
    }
}

/// Mirrored twice, a list of any numbers has them again, zeros with their signs.
pub fn twice(tally: &mut Tally, cases: &mut Cases) {
    let mut one = |cases: &mut Cases, nmax: usize| {
        let content = any_numbers(cases, table(nmax));
        for mirror in BOTH {
            let mut list = Guarded::of(&content, content.len());
            let refusals = [mirror.enter(nmax, &mut list), mirror.enter(nmax, &mut list)];
            let fault = refusals.iter().find_map(|&refusal| fault(refusal, 0)).or_else(|| list.fault("table", &content));
            tally.call(fault, || format!("mirror of {mirror:?} twice, N {nmax}"));
        }
    };
    for nmax in (0..=60).chain(LARGE) {
        one(cases, nmax);
    }
    for _ in cases.times(COUNT) {
        let nmax = cases.below(41) as usize;
        one(cases, nmax);
    }
}

/// Equal, where zeros of either sign are equal and NaN is equal to NaN.
fn alike(x: f64, y: f64) -> bool {
    x == y || x.is_nan() && y.is_nan()
}

/// The first entry of two tables that is not alike.
fn first_unlike(ours: &[f64], due: &[f64]) -> Option<String> {
    let place = (0..due.len()).find(|&place| !alike(ours[place], due[place]))?;
    Some(format!("table[{place}]: mirrored {}, at -t {}", shown(ours[place]), shown(due[place])))
}

/// The oracle's tables at a pair: P, the first and the second derivatives.
fn tables_at(legendre: &mut Legendre, latitude: (f64, f64)) -> [Vec<f64>; 3] {
    legendre.compute_with_second_derivative(latitude);
    [legendre.p.clone(), legendre.dp.clone(), legendre.ddp.clone()]
}

/// Our tables at a pair, with the oracle's a and b: P by the call for it alone, the derivatives by the other.
fn our_tables_at(legendre: &Legendre, nmax: usize, (t, u): (f64, f64)) -> [Vec<f64>; 2] {
    let size = table(nmax);
    let (a, b) = (legendre.a.as_ptr(), legendre.b.as_ptr());
    let (mut p, mut other, mut dp) = (vec![0.0; size], vec![0.0; size], vec![0.0; size]);
    unsafe {
        geopotential_legendre_compute(nmax, t, u, a, size, b, size, p.as_mut_ptr(), size);
        let (other, dp) = (other.as_mut_ptr(), dp.as_mut_ptr());
        geopotential_legendre_compute_with_derivative(nmax, t, u, a, size, b, size, other, size, dp, size);
    }
    [p, dp]
}

/// Tables at (t, u), ours and the oracle's, each mirrored by our call, beside the oracle's at (-t, u).
fn law(tally: &mut Tally, legendre: &mut Legendre, nmax: usize, (t, u): (f64, f64)) {
    let [our_p, our_dp] = our_tables_at(legendre, nmax, (t, u));
    let [p, dp, ddp] = tables_at(legendre, (t, u));
    let [due_p, due_dp, due_ddp] = tables_at(legendre, (-t, u));
    let tables = [
        ("our P", Values, our_p, &due_p),
        ("the oracle's P", Values, p, &due_p),
        ("our derivatives", Derivatives, our_dp, &due_dp),
        ("the oracle's derivatives", Derivatives, dp, &due_dp),
        ("the oracle's second derivatives", Values, ddp, &due_ddp),
    ];
    for (name, mirror, table, due) in tables {
        let mut list = Guarded::of(&table, table.len());
        let ours = mirror.enter(nmax, &mut list);
        let fault = fault(ours, 0).or_else(|| first_unlike(list.now(), due));
        tally.call(fault, || format!("mirror of {name}, N {nmax}, t {}, u {}", shown(t), shown(u)));
    }
}

/// A latitude's pair, or any numbers in the place of one of its numbers or of both.
fn any_pair(cases: &mut Cases) -> (f64, f64) {
    let (t, u) = pair(3.2 * cases.fraction() - 1.6);
    match cases.below(6) {
        0 => (cases.number(), cases.number()),
        1 => (cases.number(), u),
        2 => (t, cases.number()),
        3 => [(0.0, 1.0), (-0.0, 1.0), (1.0, 0.0), (-1.0, -0.0), (1.0, 1.0), (f64::INFINITY, 0.5)][cases.below(6) as usize],
        _ => (t, u),
    }
}

/// The law of the mirror, at every kind of pair, with the own tables a and b and with any.
pub fn laws(tally: &mut Tally, cases: &mut Cases) {
    for nmax in (0..=60).chain(LARGE) {
        let mut legendre = Legendre::new(nmax);
        let latitudes = strange_latitudes(cases);
        // At degree 2700 one of them takes a second.
        let kept = if nmax < 2700 { latitudes.len() } else { 3 };
        latitudes[..kept].iter().for_each(|&latitude| law(tally, &mut legendre, nmax, latitude));
    }
    // The smallest table whose mirrored zero has another sign than the zero at -t.
    let mut zeros = Legendre::new(1);
    (zeros.a[1], zeros.b[1]) = (0.0, -1.0);
    law(tally, &mut zeros, 1, (1.0, 1.0));
    for _ in cases.times(LATITUDES) {
        let nmax = cases.below(41) as usize;
        let mut legendre = if cases.below(3) == 0 { any_tables(cases, nmax) } else { Legendre::new(nmax) };
        let latitude = any_pair(cases);
        law(tally, &mut legendre, nmax, latitude);
    }
}
