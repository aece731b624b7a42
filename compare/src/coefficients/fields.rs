//! Inputs of the calls on coefficients: random fields, and sizes about the stated ones.

use oracle::Coefficients;

use crate::cases::Cases;
use crate::refusal::MAX_DEGREE;
use crate::sizes::around;

/// The random fields of a call, and the degrees of its large ones.
pub const COUNT: u64 = 40_000;
pub const LARGE: [usize; 4] = [40, 96, 360, 2700];

/// A random field: strange numbers, or ordinary ones, or ordinary ones with a few strange.
pub fn field(cases: &mut Cases, nmax: usize) -> Coefficients {
    let kind = cases.below(5);
    let mut draw = |ordinary: u64| match kind {
        0 => cases.number(),
        1 => cases.near_one(),
        2 => cases.subnormal(),
        // Numbers of the size that a gravity model has.
        3 => 1e-5 * (cases.fraction() - 0.5),
        _ if cases.below(ordinary) == 0 => cases.number(),
        _ => cases.fraction() - 0.5,
    };
    let (gm, radius) = (draw(2), draw(2));
    let mut field = Coefficients::zeros(gm, radius, nmax);
    for cell in field.c.iter_mut().chain(&mut field.s) {
        *cell = draw(40);
    }
    field
}

/// A field with ordinary numbers, the same every time: for replays.
pub fn fixed(nmax: usize) -> Coefficients {
    let mut field = Coefficients::zeros(3.986004415e14, 6378136.3, nmax);
    let cells = field.c.iter_mut().chain(&mut field.s).enumerate();
    cells.for_each(|(i, cell)| *cell = (i as f64 + 0.7).sin() / (i as f64 + 1.0));
    field
}

/// What one call is tried with.
pub struct Plan<F> {
    /// How many random fields of degrees up to 40.
    pub count: u64,
    /// The degrees of the large fields.
    pub large: &'static [usize],
    /// The first lists of the call, whose lengths must be exact; the others may be longer.
    pub exact: usize,
    /// The stated lengths of the call's lists by N.
    pub stated: F,
}

impl<F: Fn(usize) -> Vec<usize>> Plan<F> {
    pub fn new(exact: usize, stated: F) -> Self {
        Plan { count: COUNT, large: &LARGE, exact, stated }
    }

    /// The stated lengths, with some cells more where that is allowed.
    fn longer(&self, cases: &mut Cases, nmax: usize) -> Vec<usize> {
        let mut lengths = (self.stated)(nmax);
        lengths[self.exact..].iter_mut().for_each(|length| *length += cases.below(5) as usize);
        lengths
    }

    /// Call `one` with a field, N and the lengths of the lists.
    pub fn carry_out(&self, cases: &mut Cases, mut one: impl FnMut(&mut Cases, &Coefficients, usize, &[usize])) {
        for nmax in [0, 1, 2, 5] {
            let field = field(cases, nmax);
            around(nmax, &(self.stated)(nmax), |degree, lengths| one(cases, &field, degree, lengths));
        }
        for _ in cases.times(self.count) {
            let nmax = cases.below(41) as usize;
            let field = field(cases, nmax);
            let lengths = self.longer(cases, nmax);
            one(cases, &field, nmax, &lengths);
        }
        for &nmax in self.large {
            let field = field(cases, nmax);
            let lengths = self.longer(cases, nmax);
            one(cases, &field, nmax, &lengths);
            // One list too short or too long by one; at degree 2700, which takes long, the last too short and the first too long.
            for i in 0..lengths.len() {
                let stated = (self.stated)(nmax);
                let mut changed = |length: usize| {
                    let mut lengths = stated.clone();
                    lengths[i] = length;
                    one(cases, &field, nmax, &lengths);
                };
                if nmax < MAX_DEGREE || i == stated.len() - 1 {
                    changed(stated[i] - 1);
                }
                if nmax < MAX_DEGREE || i == 0 {
                    changed(stated[i] + 1);
                }
            }
        }
    }
}
