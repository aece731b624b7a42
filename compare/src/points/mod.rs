//! The calls that answer numbers at points: an entry for one point and an entry for many. Those of the first derivatives and those of the second
//! have the same parameters; they differ in the sizes of their lists and in what they answer.

pub mod bench;

use oracle::Coefficients;

use crate::cases::Cases;
use crate::coefficients::fields::field;
use crate::functional::EARTH;
use crate::guarded::Guarded;
use crate::lent::{flat, latitude, longitude};
use crate::refusal::{BEYOND, Checks, MAX_DEGREE, SIZE, answered, fault};
use crate::sizes::{around, table};
use crate::tally::{Tally, shown};

/// The most points of a call.
const MAX_POINTS: usize = 65_535;

/// Gm, radius, N, c, s, then r, t, u, then cosines and sines, working list, output.
type OnePoint = unsafe extern "C" fn(
    f64,
    f64,
    usize,
    *const f64,
    usize,
    *const f64,
    usize,
    f64,
    f64,
    f64,
    *const f64,
    usize,
    *mut f64,
    usize,
    *mut f64,
    usize,
) -> u32;

/// The same with the number of points, radii and latitudes after c and s.
type ManyPoints = unsafe extern "C" fn(
    f64,
    f64,
    usize,
    *const f64,
    usize,
    *const f64,
    usize,
    usize,
    *const f64,
    usize,
    *const f64,
    usize,
    *const f64,
    usize,
    *mut f64,
    usize,
    *mut f64,
    usize,
) -> u32;

/// A list as an entry takes it.
type List = (*mut f64, usize);

/// A point: its radius, its latitude as a pair, the cosines and sines of its longitude.
pub struct Place {
    pub r: f64,
    pub lat: (f64, f64),
    pub lon: Vec<(f64, f64)>,
}

/// What else must hold of our numbers at the points: the first thing that is wrong with them.
type Law = fn(&Coefficients, &[Place], Option<usize>, &[f64]) -> Option<String>;

/// Two entries that answer so many numbers a point. `points` is what the entry for many is told of their number; none stands for the entry for one.
pub struct Entries<const NUMBERS: usize> {
    /// How many tables the working list holds.
    pub tables: usize,
    pub one: OnePoint,
    pub many: ManyPoints,
    /// The oracle's numbers at a point.
    pub oracle: fn(&Coefficients, &Place) -> [f64; NUMBERS],
    pub law: Law,
}

/// A field with numbers of the size that a gravity model has.
pub fn ordinary(cases: &mut Cases, nmax: usize) -> Coefficients {
    let (gm, radius, _) = EARTH;
    let mut field = Coefficients::zeros(gm, radius, nmax);
    field.c.iter_mut().chain(&mut field.s).for_each(|cell| *cell = 1e-6 * (cases.fraction() - 0.5));
    field
}

/// A radius: any number, or one near the field's own.
fn radius_near(cases: &mut Cases, field: &Coefficients) -> f64 {
    if cases.below(3) == 0 { cases.number() } else { field.radius * (0.9 + 0.2 * cases.fraction()) }
}

/// So many random points about a field.
fn places(cases: &mut Cases, field: &Coefficients, count: usize) -> Vec<Place> {
    let radii: Vec<f64> = (0..count).map(|_| radius_near(cases, field)).collect();
    let latitudes: Vec<(f64, f64)> = (0..count).map(|_| latitude(cases)).collect();
    radii.into_iter().zip(latitudes).map(|(r, lat)| Place { r, lat, lon: longitude(cases, field.max_degree()) }).collect()
}

/// What the lists of a call hold before it, nothing in the working list and in the output.
fn contents(field: &Coefficients, places: &[Place], points: Option<usize>) -> Vec<Vec<f64>> {
    let trig = places.iter().flat_map(|place| flat(&place.lon)).collect();
    let mut lists = vec![field.c.clone(), field.s.clone(), trig, vec![], vec![]];
    if points.is_some() {
        let latitudes = places.iter().flat_map(|place| [place.lat.0, place.lat.1]).collect();
        lists.splice(2..2, [places.iter().map(|place| place.r).collect(), latitudes]);
    }
    lists
}

/// A working list and an output that may be longer.
fn lengthen(cases: &mut Cases, lengths: &mut [usize]) {
    let inputs = lengths.len() - 2;
    lengths[inputs..].iter_mut().for_each(|length| *length += cases.below(5) as usize);
}

impl<const NUMBERS: usize> Entries<NUMBERS> {
    /// The stated lengths of c, s, of many points the radii and latitudes, of cosines and sines, working list, output.
    fn stated(&self, nmax: usize, points: Option<usize>) -> Vec<usize> {
        let (size, trig) = (table(nmax), 2 * (nmax + 1));
        let work = self.tables * size;
        match points {
            None => vec![size, size, trig, work, NUMBERS],
            Some(points) => vec![size, size, points, 2 * points, points * trig, work, points * NUMBERS],
        }
    }

    fn due(&self, nmax: usize, points: Option<usize>, lengths: &[usize]) -> u32 {
        if nmax > MAX_DEGREE || points.is_some_and(|points| points > MAX_POINTS) {
            return SIZE;
        }
        let stated = self.stated(nmax, points).into_iter().map(|length| length as u128);
        let lists: Vec<(usize, u128)> = lengths.iter().copied().zip(stated).collect();
        let (inputs, outputs) = lists.split_at(lists.len() - 2);
        Checks { degree: nmax, inputs, outputs, ..Checks::default() }.due()
    }

    /// Our call: its refusal. The lists must be as long as they say.
    unsafe fn enter(&self, field: &Coefficients, places: &[Place], nmax: usize, points: Option<usize>, lists: &[List]) -> u32 {
        let (gm, radius) = (field.gm, field.radius);
        match (points, lists) {
            (None, &[c, s, trig, w, o]) => {
                let (r, (t, u)) = (places[0].r, places[0].lat);
                unsafe { (self.one)(gm, radius, nmax, c.0, c.1, s.0, s.1, r, t, u, trig.0, trig.1, w.0, w.1, o.0, o.1) }
            }
            (Some(points), &[c, s, r, l, trig, w, o]) => unsafe {
                (self.many)(gm, radius, nmax, c.0, c.1, s.0, s.1, points, r.0, r.1, l.0, l.1, trig.0, trig.1, w.0, w.1, o.0, o.1)
            },
            _ => unreachable!("one point has five lists, many have seven"),
        }
    }

    /// Lists of the stated lengths.
    fn lists(&self, field: &Coefficients, places: &[Place], points: Option<usize>) -> Vec<Vec<f64>> {
        let mut lists = contents(field, places, points);
        lists.iter_mut().zip(self.stated(field.max_degree(), points)).for_each(|(list, length)| list.resize(length, 0.0));
        lists
    }

    /// Our numbers at the points.
    pub fn ours(&self, field: &Coefficients, places: &[Place], points: Option<usize>) -> Vec<f64> {
        let mut lists = self.lists(field, places, points);
        let lent: Vec<List> = lists.iter_mut().map(|list| (list.as_mut_ptr(), list.len())).collect();
        unsafe { self.enter(field, places, field.max_degree(), points, &lent) };
        lists.swap_remove(lent.len() - 1)
    }

    /// A call as it should be.
    pub fn call<'a>(&'a self, field: &'a Coefficients, places: &'a [Place], points: Option<usize>) -> Call<'a, NUMBERS> {
        let nmax = field.max_degree();
        Call { entries: self, field, places, nmax, points, lengths: self.stated(nmax, points) }
    }

    /// One point at a time: lists about the stated lengths, so many random points of degrees up to 40, each of these degrees and larger ones.
    pub fn one_by_one(&self, tally: &mut Tally, cases: &mut Cases, count: u64) {
        for nmax in [0, 1, 2, 5] {
            let field = field(cases, nmax);
            around(nmax, &self.stated(nmax, None), |nmax, lengths| {
                let places = places(cases, &field, 1);
                Call { nmax, lengths: lengths.to_vec(), ..self.call(&field, &places, None) }.compare(tally);
            });
        }
        let mut one = |cases: &mut Cases, nmax: usize| {
            let field = field(cases, nmax);
            let mut lengths = self.stated(nmax, None);
            lengthen(cases, &mut lengths);
            let places = places(cases, &field, 1);
            Call { lengths, ..self.call(&field, &places, None) }.compare(tally);
        };
        for _ in cases.times(count) {
            let nmax = cases.below(41) as usize;
            one(cases, nmax);
        }
        for nmax in (0..=40).chain([96, 96, 96, 127, 128, 360, 2700, 2700]) {
            one(cases, nmax);
        }
    }

    /// Many points at a time: so many random lists of up to 11 points, then lists of each degree, and one as long as may be.
    pub fn along(&self, tally: &mut Tally, cases: &mut Cases, count: u64) {
        let mut one = |cases: &mut Cases, nmax: usize, points: usize| {
            let field = field(cases, nmax);
            let places = places(cases, &field, points);
            let mut call = self.call(&field, &places, Some(points));
            lengthen(cases, &mut call.lengths);
            call.compare(tally);
        };
        for _ in cases.times(count) {
            let (nmax, points) = (cases.below(41) as usize, cases.below(12) as usize);
            one(cases, nmax, points);
        }
        for (nmax, points) in (0..=40).map(|n| (n, 5)).chain([(96, 30), (127, 3), (128, 3), (360, 5), (2700, 2), (1, MAX_POINTS)]) {
            one(cases, nmax, points);
        }
    }

    /// Many points in lists that are one too short, right, or one too long, and with degrees and numbers of points that are not theirs.
    pub fn along_refusals(&self, tally: &mut Tally, cases: &mut Cases) {
        for (nmax, count) in [(0, 0), (0, 1), (1, 2), (2, 3)] {
            let field = field(cases, nmax);
            let places = places(cases, &field, count);
            let call = || self.call(&field, &places, Some(count));
            for choice in 0..2187usize {
                let mut changed = call();
                for (place, length) in changed.lengths.iter_mut().enumerate() {
                    *length = (*length + choice / 3usize.pow(place as u32) % 3).saturating_sub(1);
                }
                changed.compare(tally);
            }
            for degree in BEYOND.into_iter().chain([MAX_DEGREE, nmax + 1]) {
                Call { nmax: degree, ..call() }.compare(tally);
            }
            for number in [count + 1, MAX_POINTS, MAX_POINTS + 1, 1 << 32, 1 << 63, usize::MAX] {
                Call { points: Some(number), ..call() }.compare(tally);
                Call { points: Some(number), nmax: BEYOND[0], ..call() }.compare(tally);
            }
        }
    }
}

/// One call: a field and its points, and what the entry is told of N, of the number of points and of its lists' lengths.
pub struct Call<'a, const NUMBERS: usize> {
    entries: &'a Entries<NUMBERS>,
    field: &'a Coefficients,
    places: &'a [Place],
    nmax: usize,
    points: Option<usize>,
    lengths: Vec<usize>,
}

impl<const NUMBERS: usize> Call<'_, NUMBERS> {
    pub fn compare(&self, tally: &mut Tally) {
        let Call { entries, field, places, nmax, points, ref lengths } = *self;
        let contents = contents(field, places, points);
        let mut lists: Vec<Guarded<f64>> = contents.iter().zip(lengths).map(|(list, &length)| Guarded::of(list, length)).collect();
        let lent: Vec<List> = lists.iter_mut().map(|list| (list.pointer(), list.len())).collect();
        let due = entries.due(nmax, points, lengths);
        let ours = unsafe { entries.enter(field, places, nmax, points, &lent) };
        let [inputs @ .., work, out] = &lists[..] else { unreachable!("every call has a working list and an output") };
        let oracle = || places.iter().flat_map(|place| (entries.oracle)(field, place)).collect();
        let answer: Vec<f64> = answered(due, oracle).unwrap_or_default();
        // The used part of the working list is free after an accepted call.
        let kept = work.now()[..if due == 0 { entries.tables * table(nmax) } else { 0 }].to_vec();
        let names: &[&str] = if points.is_none() { &["c", "s", "trig"] } else { &["c", "s", "radii", "latitudes", "trig"] };
        let fault = fault(ours, due)
            .or_else(|| out.fault("out", &answer))
            .or_else(|| work.fault("work", &kept))
            .or_else(|| inputs.iter().zip(names).find_map(|(list, name)| list.fault(name, &[])))
            .or_else(|| answered(due, || (entries.law)(field, places, points, &out.now()[..answer.len()])).flatten());
        tally.call(fault, || format!("{}, N {nmax}, lengths {lengths:?}", self.input()));
    }

    /// The head of the field, and the point or how many there are.
    fn input(&self) -> String {
        let head = format!("gm, radius {:?}", [self.field.gm, self.field.radius].map(shown));
        match (self.points, self.places) {
            (None, [Place { r, lat: (t, u), .. }]) => format!("{head}, r, t, u {:?}", [*r, *t, *u].map(shown)),
            (points, _) => format!("{head}, {} points", points.unwrap_or_default()),
        }
    }
}
