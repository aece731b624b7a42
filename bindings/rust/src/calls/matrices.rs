//! Calls on symmetric matrices, and the functions of a polar cap and of a region.

use crate::Refusal;
use crate::ffi::*;
use crate::linalg::Convergence;
use crate::nodes::Nodes;

/// What a solver's entry tells at two places that are made for this call alone.
fn solved(entry: impl FnOnce(*mut u32, *mut usize) -> u32) -> Result<Convergence, Refusal> {
    let (mut settled, mut count) = (0, 0);
    Refusal::check(entry(&mut settled, &mut count))?;
    Ok(Convergence { settled: settled == 1, count })
}

pub fn symmetric_eigen(n: usize, a: &[f64], work: &mut [f64], values: &mut [f64], vectors: &mut [f64]) -> Result<Convergence, Refusal> {
    // SAFETY: each list is one slice's; the last three are borrowed mutably. The two places are `solved`'s.
    solved(|settled, count| unsafe {
        geopotential_symmetric_eigen(
            n,
            a.as_ptr(),
            a.len(),
            work.as_mut_ptr(),
            work.len(),
            values.as_mut_ptr(),
            values.len(),
            vectors.as_mut_ptr(),
            vectors.len(),
            settled,
            count,
        )
    })
}

pub fn householder_ql(n: usize, a: &[f64], work: &mut [f64], values: &mut [f64], vectors: &mut [f64]) -> Result<Convergence, Refusal> {
    // SAFETY: each list is one slice's; the last three are borrowed mutably. The two places are `solved`'s.
    solved(|settled, count| unsafe {
        geopotential_householder_ql(
            n,
            a.as_ptr(),
            a.len(),
            work.as_mut_ptr(),
            work.len(),
            values.as_mut_ptr(),
            values.len(),
            vectors.as_mut_ptr(),
            vectors.len(),
            settled,
            count,
        )
    })
}

/// The functions of a cap: orders, concentrations, and their vectors end to end.
pub struct Ranked<'a> {
    pub orders: &'a mut [f64],
    pub concentrations: &'a mut [f64],
    pub vectors: &'a mut [f64],
}

/// `latitudes` has the pairs of the nodes over the cap, whose angle has this cosine; `settled` is by rising order, not ranked.
pub fn polar_cap(
    lmax: usize,
    cosine: f64,
    weights: &[f64],
    latitudes: &[f64],
    work: &mut [f64],
    Ranked { orders, concentrations, vectors }: &mut Ranked,
    settled: &mut [f64],
) -> Result<(), Refusal> {
    // SAFETY: each list is one slice's; the last five are borrowed mutably.
    Refusal::check(unsafe {
        geopotential_polar_cap(
            lmax,
            cosine,
            weights.as_ptr(),
            weights.len(),
            latitudes.as_ptr(),
            latitudes.len(),
            work.as_mut_ptr(),
            work.len(),
            orders.as_mut_ptr(),
            orders.len(),
            concentrations.as_mut_ptr(),
            concentrations.len(),
            vectors.as_mut_ptr(),
            vectors.len(),
            settled.as_mut_ptr(),
            settled.len(),
        )
    })
}

pub fn concentration_matrix(nodes: &Nodes, work: &mut [f64], matrix: &mut [f64]) -> Result<(), Refusal> {
    let Nodes { lmax, weights, latitudes, marks, s, c } = nodes;
    // SAFETY: each list is one slice's; the last two are borrowed mutably.
    Refusal::check(unsafe {
        geopotential_concentration_matrix(
            *lmax,
            nodes.len(),
            weights.as_ptr(),
            weights.len(),
            latitudes.as_ptr(),
            latitudes.len(),
            marks.as_ptr(),
            marks.len(),
            s.as_ptr(),
            s.len(),
            c.as_ptr(),
            c.len(),
            work.as_mut_ptr(),
            work.len(),
            matrix.as_mut_ptr(),
            matrix.len(),
        )
    })
}

/// The functions of a region: concentrations, and for each function its cosine and its sine coefficients, as tables end to end.
pub struct RankedTables<'a> {
    pub concentrations: &'a mut [f64],
    pub cs: &'a mut [f64],
    pub ss: &'a mut [f64],
}

pub fn region(nodes: &Nodes, work: &mut [f64], RankedTables { concentrations, cs, ss }: &mut RankedTables) -> Result<Convergence, Refusal> {
    let Nodes { lmax, weights, latitudes, marks, s, c } = nodes;
    // SAFETY: each list is one slice's; the last four are borrowed mutably. The two places are `solved`'s.
    solved(|settled, count| unsafe {
        geopotential_region(
            *lmax,
            nodes.len(),
            weights.as_ptr(),
            weights.len(),
            latitudes.as_ptr(),
            latitudes.len(),
            marks.as_ptr(),
            marks.len(),
            s.as_ptr(),
            s.len(),
            c.as_ptr(),
            c.len(),
            work.as_mut_ptr(),
            work.len(),
            concentrations.as_mut_ptr(),
            concentrations.len(),
            cs.as_mut_ptr(),
            cs.len(),
            ss.as_mut_ptr(),
            ss.len(),
            settled,
            count,
        )
    })
}
