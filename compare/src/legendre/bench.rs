//! Times of the crate `legendre`. `Legendre::new` allocates its tables, ours writes to lists at hand; a second line has the
//! published loops on lists at hand. The Rust cannot let tables grow; its lines have the published formulas on the new row, or whole tables. Nor can it
//! mirror them; its lines work them out anew.

use oracle::standins::tricomi;
use oracle::{Legendre, gauss_legendre};

use crate::entries::*;
use crate::lent::pair;
use crate::sizes::table;
use crate::timing::{allocated, race, repeat};

pub fn bench() {
    for (nmax, calls) in [(96, 200), (2700, 1)] {
        degree(nmax, calls);
        mirrors(nmax, calls);
    }
    growth();
    for (n, calls) in [(32, 200), (181, 20), (2701, 1)] {
        let guesses = tricomi(n);
        let (mut x, mut w) = (vec![0.0; n], vec![0.0; n]);
        let ours = || {
            repeat(calls, || unsafe {
                geopotential_gauss_legendre(n, guesses.as_ptr(), guesses.len(), x.as_mut_ptr(), n, w.as_mut_ptr(), n)
            })
        };
        race(&format!("gauss_legendre, n = {n}"), calls, ours, || repeat(calls, || allocated(gauss_legendre(n, &guesses))));
    }
}

/// The times at one degree, each of so many calls.
fn degree(nmax: usize, calls: usize) {
    let length = table(nmax);
    let mut legendre = Legendre::new(nmax);
    let (a, b) = (legendre.a.clone(), legendre.b.clone());
    let (mut own_a, mut own_b, mut p, mut dp) = (vec![1.0; length], vec![1.0; length], vec![1.0; length], vec![1.0; length]);
    let (mut plain_a, mut plain_b) = (vec![1.0; length], vec![1.0; length]);
    let (t, u) = pair(0.7);

    let mut ours = || repeat(calls, || unsafe { geopotential_legendre_new(nmax, own_a.as_mut_ptr(), length, own_b.as_mut_ptr(), length) });
    race(&format!("Legendre::new, N = {nmax}"), calls, &mut ours, || repeat(calls, || allocated(Legendre::new(nmax))));
    let plain = || repeat(calls, || at_hand(nmax, &mut plain_a, &mut plain_b));
    race(&format!("Legendre::new, N = {nmax}, lists at hand"), calls, ours, plain);

    let ours = || {
        repeat(calls, || unsafe {
            geopotential_legendre_compute(nmax, t, u, a.as_ptr(), length, b.as_ptr(), length, p.as_mut_ptr(), length)
        })
    };
    let rust = || {
        repeat(calls, || {
            legendre.compute((t, u));
            0
        })
    };
    race(&format!("compute, N = {nmax}"), calls, ours, rust);

    let ours = || {
        repeat(calls, || unsafe {
            let (p, dp) = (p.as_mut_ptr(), dp.as_mut_ptr());
            geopotential_legendre_compute_with_derivative(nmax, t, u, a.as_ptr(), length, b.as_ptr(), length, p, length, dp, length)
        })
    };
    let rust = || {
        repeat(calls, || {
            legendre.compute_with_derivative((t, u));
            0
        })
    };
    race(&format!("compute_with_derivative, N = {nmax}"), calls, ours, rust);
}

/// Tables at the negated sine: ours are mirrored in their lists. Where the name says so, ours stand on both sides: in the Rust's column the call that
/// works them out anew.
fn mirrors(nmax: usize, calls: usize) {
    let length = table(nmax);
    let (t, u) = pair(0.7);
    let mut legendre = Legendre::new(nmax);
    let (a, b) = (legendre.a.clone(), legendre.b.clone());
    legendre.compute_with_derivative((t, u));
    let (mut p, mut dp) = (legendre.p.clone(), legendre.dp.clone());
    let (a, b, p, dp) = (a.as_ptr(), b.as_ptr(), p.as_mut_ptr(), dp.as_mut_ptr());
    let (mut other_p, mut other_dp) = (vec![1.0; length], vec![1.0; length]);
    let (other_p, other_dp) = (other_p.as_mut_ptr(), other_dp.as_mut_ptr());

    let mirror = || repeat(calls, || unsafe { geopotential_legendre_mirror(nmax, p, length) });
    let rust = || {
        repeat(calls, || {
            legendre.compute((-t, u));
            0
        })
    };
    race(&format!("mirror, N = {nmax}"), calls, mirror, rust);
    let ours = || repeat(calls, || unsafe { geopotential_legendre_compute(nmax, -t, u, a, length, b, length, other_p, length) });
    race(&format!("mirror, N = {nmax}, beside our compute"), calls, mirror, ours);

    let both = || {
        repeat(calls, || unsafe {
            geopotential_legendre_mirror(nmax, p, length) | geopotential_legendre_mirror_derivative(nmax, dp, length)
        })
    };
    let rust = || {
        repeat(calls, || {
            legendre.compute_with_derivative((-t, u));
            0
        })
    };
    race(&format!("mirror with derivative, N = {nmax}"), calls, both, rust);
    let ours = || {
        repeat(calls, || unsafe {
            geopotential_legendre_compute_with_derivative(nmax, -t, u, a, length, b, length, other_p, length, other_dp, length)
        })
    };
    race(&format!("mirror with derivative, N = {nmax}, beside ours"), calls, both, ours);
}

/// Tables that grow to degree 2700: by their last row alone, and from degree 0 in ten steps.
fn growth() {
    const NMAX: usize = 2700;
    const STEPS: usize = 10;
    let length = table(NMAX);
    let (mut a, mut b) = (vec![1.0; length], vec![1.0; length]);
    let (mut other_a, mut other_b) = (vec![1.0; length], vec![1.0; length]);
    let mut grow = |from, nmax| unsafe { geopotential_legendre_grow(from, nmax, a.as_mut_ptr(), length, b.as_mut_ptr(), length) };

    let calls = 100;
    let plain = || repeat(calls, || row_at_hand(NMAX, &mut other_a, &mut other_b));
    race("grow, 2699 to 2700, lists at hand", calls, || repeat(calls, || grow(NMAX - 1, NMAX)), plain);

    let width = NMAX / STEPS;
    let mut ten = || (0..STEPS).map(|step| grow(step * width, (step + 1) * width)).fold(0, |all, refusal| all | refusal);
    race("grow, ten steps to 2700", 1, &mut ten, || allocated(Legendre::new(NMAX)));
    // Ours on both sides: in the Rust's column stands one call of `new`.
    let at_once = || unsafe { geopotential_legendre_new(NMAX, other_a.as_mut_ptr(), length, other_b.as_mut_ptr(), length) };
    race("grow, ten steps to 2700, beside our new", 1, ten, at_once);
}

/// The published loops of `Legendre::new`, on lists at hand.
fn at_hand(nmax: usize, a: &mut [f64], b: &mut [f64]) -> u32 {
    for m in 0..=nmax {
        for n in m + 1..=nmax {
            cell(n, m, a, b);
        }
    }
    0
}

/// One row of both tables.
fn row_at_hand(n: usize, a: &mut [f64], b: &mut [f64]) -> u32 {
    (0..n).for_each(|m| cell(n, m, a, b));
    0
}

/// The published formulas.
fn cell(n: usize, m: usize, a: &mut [f64], b: &mut [f64]) {
    let (nf, mf) = (n as f64, m as f64);
    let k = oracle::legendre::idx(n, m);
    a[k] = ((2.0 * nf - 1.0) * (2.0 * nf + 1.0) / ((nf - mf) * (nf + mf))).sqrt();
    if n > m + 1 {
        b[k] = ((2.0 * nf + 1.0) * (nf + mf - 1.0) * (nf - mf - 1.0) / ((nf - mf) * (nf + mf) * (2.0 * nf - 3.0))).sqrt();
    }
}
