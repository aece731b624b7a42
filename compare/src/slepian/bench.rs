//! Times of the crate `slepian`.

use oracle::Coefficients;
use oracle::slepian::{basin_average, concentration_matrix, region};

use super::caps::{Cap, lengths, work_size};
use super::regions::{Asked, Region, stated};
use crate::cases::Cases;
use crate::ended::Ended;
use crate::entries::*;
use crate::functional::{EARTH, functional};
use crate::lent::flat;
use crate::sizes::table;
use crate::timing::{allocated, race, repeat};

pub fn bench() {
    averages();
    for (lmax, calls) in [(2, 50), (18, 4), (60, 1), (180, 1)] {
        cap(lmax, calls);
    }
    for (lmax, calls) in [(10, 4), (21, 1)] {
        regions(lmax, calls);
    }
}

/// A basin of 60 vertices and 464 nodes: its matrix, and its functions.
fn regions(lmax: usize, calls: usize) {
    let of = Region::sixty(lmax);
    let (weights, latitudes, marks, s, c) = (of.weights(), of.latitudes(), of.marks(), of.s(), of.c());
    let (w, l, m) = ((weights.as_ptr(), weights.len()), (latitudes.as_ptr(), latitudes.len()), (marks.as_ptr(), marks.len()));
    let (s, c, nodes) = ((s.as_ptr(), s.len()), (c.as_ptr(), c.len()), marks.len());
    let room = |asked: Asked| stated(asked, lmax, nodes)[5..].iter().map(|&length| vec![0.0; length as usize]).collect::<Vec<Vec<f64>>>();
    let mut lists = room(Asked::Matrix);
    let mut lent: Vec<(*mut f64, usize)> = lists.iter_mut().map(|list| (list.as_mut_ptr(), list.len())).collect();
    let ours = || {
        repeat(calls, || unsafe {
            let (f, o) = (lent[0], lent[1]);
            geopotential_concentration_matrix(lmax, nodes, w.0, w.1, l.0, l.1, m.0, m.1, s.0, s.1, c.0, c.1, f.0, f.1, o.0, o.1)
        })
    };
    race(&format!("concentration_matrix L = {lmax}"), calls, ours, || repeat(calls, || allocated(concentration_matrix(lmax, &of.nodes))));
    lists = room(Asked::Functions);
    let mut ended = Ended::lent();
    lent = lists.iter_mut().map(|list| (list.as_mut_ptr(), list.len())).collect();
    let ours = || {
        repeat(calls, || unsafe {
            let (f, o, cs, ss) = (lent[0], lent[1], lent[2], lent[3]);
            let (settled, count) = (&mut ended.settled, &mut ended.count);
            geopotential_region(
                lmax, nodes, w.0, w.1, l.0, l.1, m.0, m.1, s.0, s.1, c.0, c.1, f.0, f.1, o.0, o.1, cs.0, cs.1, ss.0, ss.1, settled, count,
            )
        })
    };
    race(&format!("region L = {lmax}"), calls, ours, || repeat(calls, || allocated(region(lmax, &of.nodes))));
}

fn cap(lmax: usize, calls: usize) {
    let cap = Cap::of(lmax, 0.7);
    let pairs = flat(&cap.latitudes);
    let (functions, numbers) = lengths(lmax);
    let (functions, numbers) = (functions as usize, numbers as usize);
    let (mut work, mut vectors) = (vec![0.0; work_size(lmax) as usize], vec![0.0; numbers]);
    let (mut orders, mut concentrations) = (vec![0.0; functions], vec![0.0; functions]);
    let (wide, mut settled) = (work.len(), vec![0.0; 2 * (lmax + 1)]);
    let ours = || {
        repeat(calls, || unsafe {
            let (w, l) = ((cap.weights.as_ptr(), cap.weights.len()), (pairs.as_ptr(), pairs.len()));
            let (o, c) = (orders.as_mut_ptr(), concentrations.as_mut_ptr());
            let (f, v) = (work.as_mut_ptr(), vectors.as_mut_ptr());
            let s = (settled.as_mut_ptr(), settled.len());
            geopotential_polar_cap(lmax, cap.cosine, w.0, w.1, l.0, l.1, f, wide, o, functions, c, functions, v, numbers, s.0, s.1)
        })
    };
    race(&format!("polar_cap L = {lmax}"), calls, ours, || repeat(calls, || allocated(cap.oracle())));
}

fn averages() {
    for (nmax, calls) in [(96, 200), (2700, 1)] {
        let mut cases = Cases::new(1, 1);
        let (gm, radius, _) = EARTH;
        let mut random = || {
            let mut field = Coefficients::zeros(gm, radius, nmax);
            field.c.iter_mut().chain(&mut field.s).for_each(|cell| *cell = 1e-6 * (cases.fraction() - 0.5));
            field
        };
        let (field, kernel) = (random(), random());
        let love: Vec<f64> = (0..=nmax).map(|n| -0.3 / (n as f64 + 1.0)).collect();
        let (c, s, kc, ks, k) = (field.c.as_ptr(), field.s.as_ptr(), kernel.c.as_ptr(), kernel.s.as_ptr(), love.as_ptr());
        let (size, mut value) = (table(nmax), 0.0);
        let ours = || {
            (0..calls).fold(0.0, |sum: f64, _| unsafe {
                geopotential_basin_average(
                    gm,
                    radius,
                    nmax,
                    c,
                    size,
                    s,
                    size,
                    nmax,
                    kc,
                    size,
                    ks,
                    size,
                    5,
                    k,
                    love.len(),
                    radius,
                    &mut value,
                );
                sum + value
            })
        };
        let water = functional(5, &love);
        let rust = || (0..calls).fold(0.0, |sum: f64, _| sum + basin_average(std::hint::black_box(&field), &kernel, &water, radius));
        race(&format!("basin_average, N = {nmax}"), calls, ours, rust);
    }
}
