//! Times of the calls for points. The Rust builds its tables at every point; the entry for many builds them once.

use core::f64::consts::TAU;

use super::{Entries, List, Place, ordinary};
use crate::cases::Cases;
use crate::functional::EARTH;
use crate::lent::{orders, pair};
use crate::timing::{allocated, race, repeat};

/// The rows of two entries, the one for one point called `name`.
pub fn bench<const NUMBERS: usize>(name: &str, entries: &Entries<NUMBERS>) {
    let (_, radius, _) = EARTH;
    for (nmax, calls) in [(96, 50), (360, 4), (2700, 1)] {
        let place = Place { r: radius * 1.05, lat: pair(0.7), lon: orders(1.1, nmax) };
        row(&format!("{name} N = {nmax}"), entries, nmax, calls, None, &[place]);
    }
    for (nmax, points) in [(96, 1000), (360, 40)] {
        let place = |i: usize| {
            let share = i as f64 / points as f64;
            Place { r: radius * (1.05 + 0.01 * share), lat: pair(1.5 - 3.0 * share), lon: orders(TAU * share, nmax) }
        };
        let places: Vec<Place> = (0..points).map(place).collect();
        row(&format!("{name}_along N = {nmax}, a point"), entries, nmax, 1, Some(points), &places);
    }
}

/// The time of a point in so many calls.
fn row<const NUMBERS: usize>(name: &str, entries: &Entries<NUMBERS>, nmax: usize, calls: usize, points: Option<usize>, places: &[Place]) {
    let field = ordinary(&mut Cases::new(1, 1), nmax);
    let mut lists = entries.lists(&field, places, points);
    let lent: Vec<List> = lists.iter_mut().map(|list| (list.as_mut_ptr(), list.len())).collect();
    let ours = || repeat(calls, || unsafe { entries.enter(&field, places, nmax, points, &lent) });
    let every = || places.iter().map(|place| allocated((entries.oracle)(&field, place))).fold(0, |all, refusal| all | refusal);
    race(name, calls * places.len(), ours, || repeat(calls, every));
}
