//! Times of the crate `basin_kernel`, over the nodes of drawn basins: both sides get the same lists.

use oracle::slepian::basin_kernel;

use crate::cases::Cases;
use crate::entries::geopotential_basin_kernel;
use crate::polygon::outlines::smooth;
use crate::sizes::table;
use crate::slepian::regions::Region;
use crate::timing::{allocated, race, repeat};

pub fn bench() {
    // 59 panels of 8 nodes, of 2, and two panels of 2.
    for (lmax, vertices, count, calls) in [(96, 60, 8, 2), (360, 60, 2, 1), (2700, 3, 2, 1)] {
        kernel(&Region::of_outline(lmax, &smooth(&mut Cases::new(1, 1), vertices), count), calls);
    }
}

fn kernel(of: &Region, calls: usize) {
    let (lmax, nodes, t) = (of.lmax, of.nodes.len(), table(of.lmax));
    let (weights, latitudes, marks, s, c) = (of.weights(), of.latitudes(), of.marks(), of.s(), of.c());
    let (mut work, mut kc, mut ks) = (vec![0.0; 3 * t], vec![0.0; t], vec![0.0; t]);
    let ours = || {
        repeat(calls, || unsafe {
            let (w, l, m) = ((weights.as_ptr(), weights.len()), (latitudes.as_ptr(), latitudes.len()), (marks.as_ptr(), marks.len()));
            let (s, c, f) = ((s.as_ptr(), s.len()), (c.as_ptr(), c.len()), (work.as_mut_ptr(), work.len()));
            let (p, q) = (kc.as_mut_ptr(), ks.as_mut_ptr());
            geopotential_basin_kernel(lmax, nodes, w.0, w.1, l.0, l.1, m.0, m.1, s.0, s.1, c.0, c.1, f.0, f.1, p, t, q, t)
        })
    };
    race(&format!("basin_kernel L = {lmax}, {nodes} nodes"), calls, ours, || repeat(calls, || allocated(basin_kernel(lmax, &of.nodes))));
}
