//! Times of the crate `polygon`. The Rust keeps the vertices' colatitudes from its first call on and allocates every answer; ours works them
//! out in each call, and writes to lists at hand.

use oracle::slepian::polygon;

use super::outlines::{Outline, between, jagged, smooth};
use crate::cases::Cases;
use crate::entries::{geopotential_polygon_breaks, geopotential_polygon_intervals};
use crate::lent::flat;
use crate::timing::{allocated, race, repeat};

/// Vertices, colatitudes in a round, and breaks in a round.
const SIZES: [(usize, usize, usize); 4] = [(4, 20_000, 20_000), (60, 10_000, 2_000), (300, 2_000, 400), (4096, 200, 20)];

pub fn bench() {
    for (kind, star) in [("", smooth as fn(&mut Cases, usize) -> Outline), (", jagged", jagged)] {
        for (vertices, colatitudes, calls) in SIZES {
            let mut cases = Cases::new(1, 1);
            let outline = star(&mut cases, vertices);
            intervals(&format!("polygon intervals, V = {vertices}{kind}"), &outline, &between(&mut cases, &outline, colatitudes));
            breaks(&format!("polygon breaks, V = {vertices}{kind}"), &outline, calls);
        }
    }
}

/// The intervals at many colatitudes.
fn intervals(name: &str, outline: &Outline, colatitudes: &[f64]) {
    let (vertices, lent) = (outline.len(), flat(outline));
    let (mut work, mut out, mut count) = (vec![0.0; vertices], vec![0.0; vertices], 0);
    let ours = || {
        colatitudes.iter().fold(0, |all, &theta| unsafe {
            let (l, w, o) = ((lent.as_ptr(), lent.len()), (work.as_mut_ptr(), work.len()), (out.as_mut_ptr(), out.len()));
            all | geopotential_polygon_intervals(vertices, l.0, l.1, theta, w.0, w.1, o.0, o.1, &mut count)
        })
    };
    let intervals = polygon(outline).0;
    race(name, colatitudes.len(), ours, || colatitudes.iter().fold(0, |all, &theta| all | allocated(intervals(theta))));
}

fn breaks(name: &str, outline: &Outline, calls: usize) {
    let (vertices, lent) = (outline.len(), flat(outline));
    let (mut work, mut out, mut count) = (vec![0.0; vertices], vec![0.0; vertices], 0);
    let ours = || {
        repeat(calls, || unsafe {
            let (l, w, o) = ((lent.as_ptr(), lent.len()), (work.as_mut_ptr(), work.len()), (out.as_mut_ptr(), out.len()));
            geopotential_polygon_breaks(vertices, l.0, l.1, w.0, w.1, o.0, o.1, &mut count)
        })
    };
    race(name, calls, ours, || repeat(calls, || allocated(polygon(outline).1)));
}
