//! Times of the crate `coefficients`. The published calls allocate their answers, ours write to lists at hand; where that decides
//! the time, a second line has the same work done by plain Rust on lists at hand.

use oracle::Coefficients;

use crate::cases::Cases;
use crate::entries::*;
use crate::functional::{EARTH, NAMES, functional};
use crate::sizes::table;
use crate::timing::{allocated, race, repeat};

pub fn bench() {
    for (nmax, cut, calls) in [(96, 60, 500), (2700, 2160, 1)] {
        degree(nmax, cut, calls);
    }
}

/// The times at one degree, each of so many calls.
fn degree(nmax: usize, cut: usize, calls: usize) {
    let mut cases = Cases::new(1, 1);
    let (gm, radius, r) = EARTH;
    let mut field = Coefficients::zeros(gm, radius, nmax);
    field.c.iter_mut().chain(&mut field.s).for_each(|cell| *cell = 1e-6 * (cases.fraction() - 0.5));
    let love: Vec<f64> = (0..=nmax).map(|_| -0.3 * cases.fraction()).collect();
    let (c, s, length) = (field.c.as_ptr(), field.s.as_ptr(), table(nmax));
    let (mut out_c, mut out_s, mut degrees) = (vec![1.0; length], vec![1.0; length], vec![1.0; nmax + 1]);
    let (oc, os, od) = (out_c.as_mut_ptr(), out_s.as_mut_ptr(), degrees.as_mut_ptr());
    let (mut plain_c, mut plain_s) = (vec![1.0; length], vec![1.0; length]);

    let ours = || repeat(calls, || unsafe { geopotential_zeros(gm, radius, nmax, oc, length, os, length) });
    race(&format!("zeros, N = {nmax}"), calls, ours, || repeat(calls, || allocated(Coefficients::zeros(gm, radius, nmax))));
    let plain = || {
        repeat(calls, || {
            plain_c.fill(0.0);
            plain_s.fill(0.0);
            std::hint::black_box((plain_c.as_ptr(), plain_s.as_ptr()));
            0
        })
    };
    race(&format!("zeros, N = {nmax}, lists at hand"), calls, ours, plain);

    let ours = || {
        let mut degree = 0;
        repeat(calls, || unsafe { geopotential_truncated(nmax, c, length, s, length, cut, oc, length, os, length, &mut degree) })
    };
    race(&format!("truncated, N = {nmax} to {cut}"), calls, ours, || repeat(calls, || allocated(field.truncated(cut))));
    let plain = || {
        let kept = table(cut);
        repeat(calls, || {
            plain_c[..kept].copy_from_slice(&field.c[..kept]);
            plain_s[..kept].copy_from_slice(&field.s[..kept]);
            std::hint::black_box((plain_c.as_ptr(), plain_s.as_ptr()));
            0
        })
    };
    race(&format!("truncated, N = {nmax}, lists at hand"), calls, ours, plain);

    let ours =
        || repeat(calls, || unsafe { geopotential_rescaled(gm, radius, nmax, c, length, s, length, 4e14, r, oc, length, os, length) });
    race(&format!("rescaled, N = {nmax}"), calls, ours, || repeat(calls, || allocated(field.rescaled(4e14, r))));

    let ours = || repeat(calls, || unsafe { geopotential_degree_variances(nmax, c, length, s, length, od, nmax + 1) });
    race(&format!("degree_variances, N = {nmax}"), calls, ours, || repeat(calls, || allocated(field.degree_variances())));

    for number in [1, 5] {
        let ours = || {
            repeat(calls, || unsafe {
                geopotential_degree_amplitudes(gm, radius, nmax, c, length, s, length, number, love.as_ptr(), nmax + 1, od, nmax + 1)
            })
        };
        let rust = || repeat(calls, || allocated(field.degree_amplitudes(&functional(number, &love))));
        race(&format!("amplitudes, {}, N = {nmax}", NAMES[number as usize]), calls, ours, rust);
    }
}
