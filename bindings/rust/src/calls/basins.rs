//! Calls on drawn basins: the intervals and breaks of an outline, and the kernel of a region.

use crate::ffi::*;
use crate::nodes::Nodes;
use crate::{Coefficients, Refusal};

/// How many an entry tells at a place that is made for this call alone.
fn counted(entry: impl FnOnce(*mut usize) -> u32) -> Result<usize, Refusal> {
    let mut count = 0;
    Refusal::check(entry(&mut count))?;
    Ok(count)
}

/// Writes the ends of the intervals at a colatitude, west before east, and answers how many intervals there are.
pub fn polygon_intervals(vertices: usize, outline: &[f64], theta: f64, work: &mut [f64], out: &mut [f64]) -> Result<usize, Refusal> {
    // SAFETY: each list is one slice's; the last two are borrowed mutably. The place is `counted`'s.
    counted(|count| unsafe {
        geopotential_polygon_intervals(
            vertices,
            outline.as_ptr(),
            outline.len(),
            theta,
            work.as_mut_ptr(),
            work.len(),
            out.as_mut_ptr(),
            out.len(),
            count,
        )
    })
}

/// Writes the breaks and answers how many there are.
pub fn polygon_breaks(vertices: usize, outline: &[f64], work: &mut [f64], out: &mut [f64]) -> Result<usize, Refusal> {
    // SAFETY: each list is one slice's; the last two are borrowed mutably. The place is `counted`'s.
    counted(|count| unsafe {
        geopotential_polygon_breaks(
            vertices,
            outline.as_ptr(),
            outline.len(),
            work.as_mut_ptr(),
            work.len(),
            out.as_mut_ptr(),
            out.len(),
            count,
        )
    })
}

/// Fills the lists of `kernel`, which has the degree of the nodes.
pub fn basin_kernel(nodes: &Nodes, work: &mut [f64], kernel: &mut Coefficients) -> Result<(), Refusal> {
    let Nodes { lmax, weights, latitudes, marks, s, c } = nodes;
    let Coefficients { c: kc, s: ks, .. } = kernel;
    // SAFETY: each list is one slice's; the last three are borrowed mutably.
    Refusal::check(unsafe {
        geopotential_basin_kernel(
            *lmax,
            nodes.len(),
            weights.as_ptr(),
            weights.len(),
            latitudes.as_ptr(),
            latitudes.len(),
            marks.as_ptr(),
            marks.len(),
            s.as_ptr(),
            s.len(),
            c.as_ptr(),
            c.len(),
            work.as_mut_ptr(),
            work.len(),
            kc.as_mut_ptr(),
            kc.len(),
            ks.as_mut_ptr(),
            ks.len(),
        )
    })
}
