//! One entry of a table: the calls that answer it have the same parameters.

use crate::cases::Cases;
use crate::guarded::Guarded;
use crate::refusal::{MAX_DEGREE, fault};
use crate::sizes::table;
use crate::tally::Tally;

/// Every place of a small table and about it, else some; `length` is the table's.
pub fn places(cases: &mut Cases, nmax: usize, length: usize) -> Vec<(usize, usize)> {
    let mut places: Vec<(usize, usize)> = Vec::new();
    if nmax <= 8 {
        places.extend((0..nmax + 2).flat_map(|n| (0..n + 2).map(move |m| (n, m))));
    } else {
        let top = nmax.saturating_add(1);
        places.extend([(nmax, nmax), (top, 0)]);
        // A list of degree 2700 takes long to look through.
        if length < table(MAX_DEGREE) {
            places.extend([(0, 0), (0, 1), (1, 1), (nmax, 0), (nmax, top), (nmax - 1, nmax)]);
        }
    }
    if nmax <= 360 {
        let n = cases.below(nmax as u64 + 1) as usize;
        places.push((n, cases.below(n as u64 + 1) as usize));
        // Places whose position wraps around to one in the table, and n in the place of m.
        places.extend([
            (usize::MAX, usize::MAX),
            (usize::MAX, 0),
            (0, usize::MAX),
            (1 << 32, 0),
            (1 << 32, 1 << 32),
            (n, n + 1),
            (n / 2, n),
        ]);
    }
    places
}

/// A call that answers an entry: N, the table, its length, n, m, the value.
pub type Entry = unsafe extern "C" fn(usize, *const f64, usize, usize, usize, *mut f64) -> u32;

/// One entry of a table by our call, which reads the list and writes the value alone.
pub fn entry(
    tally: &mut Tally,
    (name, call): (&str, Entry),
    nmax: usize,
    mut list: Guarded<f64>,
    (n, m): (usize, usize),
    due: u32,
    answer: Option<f64>,
) {
    let mut value = Guarded::marked(1);
    let ours = unsafe { call(nmax, list.pointer(), list.len(), n, m, value.pointer()) };
    let fault = fault(ours, due).or_else(|| value.fault("value", answer.as_slice())).or_else(|| list.fault(name, &[]));
    tally.call(fault, || format!("{name}({n}, {m}), N {nmax}, length {}", list.len()));
}
