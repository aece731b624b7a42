//! The crate `synthesis` against the oracle's `grid`.

pub mod bench;
pub mod replay;

use oracle::Coefficients;

use crate::cases::Cases;
use crate::coefficients::fields::field;
use crate::entries::*;
use crate::functional::{NO_FUNCTIONALS, WATER_HEIGHT, functional};
use crate::guarded::Guarded;
use crate::lent::{latitude, longitude};
use crate::refusal::{BEYOND, Checks, NO_FUNCTIONAL, SIZE, answered, fault, pairs};
use crate::sizes::table;
use crate::tally::{Report, Tally, shown};

/// The random grids.
const COUNT: u64 = 20_000;

pub fn compare(report: &mut Report) {
    report.call("synthesis.grid", grids);
    report.call("synthesis.grid, refusals", refusals);
}

/// How many numbers of the working list a grid may use: 3T + 3(N+1).
pub fn work_size(nmax: usize) -> u128 {
    3 * pairs(nmax) + 3 * (nmax as u128 + 1)
}

/// One call. Lists that are lent flat: latitudes (t, u), longitudes (cosine, sine) order by order.
struct Call<'a> {
    field: &'a Coefficients,
    number: u32,
    love: &'a [f64],
    r: f64,
    latitudes: &'a [(f64, f64)],
    longitudes: &'a [Vec<(f64, f64)>],
    /// What the call is told: N, rows, longitudes, and the lengths of c, s, latitudes, cosines and sines, working list, output.
    nmax: usize,
    rows: usize,
    columns: usize,
    lengths: [usize; 6],
}

impl<'a> Call<'a> {
    fn new(
        field: &'a Coefficients,
        number: u32,
        love: &'a [f64],
        r: f64,
        latitudes: &'a [(f64, f64)],
        longitudes: &'a [Vec<(f64, f64)>],
    ) -> Self {
        let (nmax, rows, columns) = (field.max_degree(), latitudes.len(), longitudes.len());
        let size = table(nmax);
        let lengths = [size, size, 2 * rows, 2 * columns * (nmax + 1), work_size(nmax) as usize, rows * columns];
        Call { field, number, love, r, latitudes, longitudes, nmax, rows, columns, lengths }
    }

    fn due(&self) -> u32 {
        if self.number > WATER_HEIGHT {
            return NO_FUNCTIONAL;
        }
        if self.rows > 65_535 || self.columns > 65_535 {
            return SIZE;
        }
        let l = self.lengths;
        let (size, order) = (pairs(self.nmax), self.nmax as u128 + 1);
        Checks {
            degree: self.nmax,
            inputs: &[(l[0], size), (l[1], size), (l[2], 2 * self.rows as u128), (l[3], 2 * self.columns as u128 * order)],
            love: (self.number == WATER_HEIGHT).then_some(self.love.len()),
            outputs: &[(l[4], work_size(self.nmax)), (l[5], self.rows as u128 * self.columns as u128)],
            ..Checks::default()
        }
        .due()
    }

    fn compare(&self, tally: &mut Tally) {
        let Call { field, number, love, r, latitudes, longitudes, nmax, rows, columns, lengths } = *self;
        let flat: Vec<f64> = latitudes.iter().flat_map(|&(t, u)| [t, u]).collect();
        let angles: Vec<f64> = longitudes.iter().flatten().flat_map(|&(c, s)| [c, s]).collect();
        let (mut c, mut s) = (Guarded::of(&field.c, lengths[0]), Guarded::of(&field.s, lengths[1]));
        let (mut lats, mut trig) = (Guarded::of(&flat, lengths[2]), Guarded::of(&angles, lengths[3]));
        let (mut work, mut out, mut lent) = (Guarded::marked(lengths[4]), Guarded::marked(lengths[5]), Guarded::of(love, love.len()));
        let due = self.due();
        let ours = unsafe {
            let (c, s) = ((c.pointer(), c.len()), (s.pointer(), s.len()));
            let (k, l) = ((lent.pointer(), lent.len()), (lats.pointer(), lats.len()));
            let (t, w, o) = ((trig.pointer(), trig.len()), (work.pointer(), work.len()), (out.pointer(), out.len()));
            let (gm, radius) = (field.gm, field.radius);
            geopotential_grid(
                gm, radius, nmax, c.0, c.1, s.0, s.1, number, k.0, k.1, r, rows, l.0, l.1, columns, t.0, t.1, w.0, w.1, o.0, o.1,
            )
        };
        let lons: Vec<&[(f64, f64)]> = longitudes.iter().map(Vec::as_slice).collect();
        let answer = answered(due, || field.grid(&functional(number, love), r, latitudes, &lons)).unwrap_or_default();
        // The used part of the working list is free after an accepted call.
        let used = if due == 0 { work_size(nmax) as usize } else { 0 };
        let kept = work.now()[..used].to_vec();
        let fault = fault(ours, due).or_else(|| out.fault("out", &answer)).or_else(|| work.fault("work", &kept)).or_else(|| {
            [("c", &c), ("s", &s), ("latitudes", &lats), ("trig", &trig), ("love", &lent)].iter().find_map(|(n, l)| l.fault(n, &[]))
        });
        tally.call(fault, || {
            let head = [field.gm, field.radius, r].map(shown);
            format!("functional {number}, gm, radius, r {head:?}, N {nmax}, {rows} rows, {columns} longitudes, lengths {lengths:?}")
        });
    }
}

/// A grid of these sizes, of a random field.
fn one(tally: &mut Tally, cases: &mut Cases, nmax: usize, rows: usize, columns: usize, number: u32) {
    let field = field(cases, nmax);
    let strange = cases.below(2) == 0;
    let love: Vec<f64> = (0..=nmax).map(|_| if strange { cases.number() } else { cases.fraction() - 0.5 }).collect();
    let r = if cases.below(2) == 0 { cases.number() } else { field.radius * (1.0 + 0.1 * cases.fraction()) };
    let latitudes: Vec<(f64, f64)> = (0..rows).map(|_| latitude(cases)).collect();
    let longitudes: Vec<Vec<(f64, f64)>> = (0..columns).map(|_| longitude(cases, nmax)).collect();
    let mut call = Call::new(&field, number, &love, r, &latitudes, &longitudes);
    // A working list and an output that may be longer.
    (call.lengths[4], call.lengths[5]) = (call.lengths[4] + cases.below(5) as usize, call.lengths[5] + cases.below(5) as usize);
    call.compare(tally);
}

fn grids(tally: &mut Tally, cases: &mut Cases) {
    for nmax in 0..=40 {
        (0..=WATER_HEIGHT).for_each(|number| one(tally, cases, nmax, 3, 19, number));
        // Every remainder of longitudes that are taken several at a time.
        (0..=17).for_each(|columns| one(tally, cases, nmax, 2, columns, 1));
        [0, 1, 9].into_iter().for_each(|rows| one(tally, cases, nmax, rows, 5, 0));
    }
    for _ in cases.times(COUNT) {
        let (nmax, rows, columns) = (cases.below(41) as usize, cases.below(5) as usize, cases.below(12) as usize);
        let number = cases.below(6) as u32;
        one(tally, cases, nmax, rows, columns, number);
    }
    for (nmax, rows, columns) in [(96, 37, 73), (127, 3, 9), (128, 3, 9), (360, 5, 30), (2700, 1, 11)] {
        (0..=WATER_HEIGHT).for_each(|number| one(tally, cases, nmax, rows, columns, number));
    }
    one(tally, cases, 0, 65_535, 3, 1);
    one(tally, cases, 0, 3, 65_535, 1);
}

fn refusals(tally: &mut Tally, cases: &mut Cases) {
    for (nmax, rows, columns) in [(0, 1, 1), (1, 2, 1), (2, 0, 3), (2, 2, 2), (3, 1, 0)] {
        let field = field(cases, nmax);
        let love: Vec<f64> = (0..8).map(|_| cases.number()).collect();
        let latitudes: Vec<(f64, f64)> = (0..rows).map(|_| latitude(cases)).collect();
        let longitudes: Vec<Vec<(f64, f64)>> = (0..columns).map(|_| longitude(cases, nmax)).collect();
        for number in [0, WATER_HEIGHT, NO_FUNCTIONALS[cases.below(8) as usize]] {
            for numbers in [0, nmax, nmax + 1] {
                let call = || Call::new(&field, number, &love[..numbers], 1.5, &latitudes, &longitudes);
                for choice in 0..729usize {
                    let mut changed = call();
                    // Each list one too short, right, or one too long.
                    for (place, length) in changed.lengths.iter_mut().enumerate() {
                        *length = (*length + choice / 3usize.pow(place as u32) % 3).saturating_sub(1);
                    }
                    changed.compare(tally);
                }
                for degree in BEYOND.into_iter().chain([2700, nmax + 1]) {
                    Call { nmax: degree, ..call() }.compare(tally);
                }
                for count in [rows + 1, 65_535, 65_536, 1 << 32, 1 << 63, usize::MAX] {
                    Call { rows: count, ..call() }.compare(tally);
                    Call { columns: count, ..call() }.compare(tally);
                    Call { rows: count, columns: count, ..call() }.compare(tally);
                }
            }
        }
    }
}
