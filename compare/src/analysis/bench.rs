//! Times of the crate `analysis`.

use oracle::Coefficients;

use super::gauss;
use crate::coefficients::fields::fixed;
use crate::entries::*;
use crate::functional::functional;
use crate::lent::flat;
use crate::sizes::table;
use crate::timing::{allocated, race, repeat};

pub fn bench() {
    for (nmax, calls) in [(20, 20), (96, 1), (180, 1)] {
        analysis(nmax, calls);
    }
}

fn analysis(nmax: usize, calls: usize) {
    let field = fixed(nmax);
    let (gm, radius, r) = (field.gm, field.radius, field.radius);
    let lent = gauss(&field, 1, &[], r);
    let (lats, trig, size) = (flat(&lent.latitudes), flat(&lent.trig), table(nmax));
    let (mut work, mut c, mut s) = (vec![0.0; 3 * size], vec![0.0; size], vec![0.0; size]);
    let none = core::ptr::NonNull::dangling().as_ptr();
    let ours = || {
        repeat(calls, || unsafe {
            let (v, w) = ((lent.values.as_ptr(), lent.values.len()), (lent.weights.as_ptr(), lent.weights.len()));
            let (l, t) = ((lats.as_ptr(), lats.len()), (trig.as_ptr(), trig.len()));
            let (f, c, s) = (work.as_mut_ptr(), c.as_mut_ptr(), s.as_mut_ptr());
            geopotential_analysis(1, none, 0, r, nmax, gm, radius, v.0, v.1, w.0, w.1, l.0, l.1, t.0, t.1, f, 3 * size, c, size, s, size)
        })
    };
    let height = functional(1, &[]);
    let rust = || {
        repeat(calls, || {
            allocated(Coefficients::analysis(&height, r, &lent.values, nmax, gm, radius, &lent.weights, &lent.latitudes, &lent.trig))
        })
    };
    race(&format!("analysis N = {nmax}"), calls, ours, rust);
}
