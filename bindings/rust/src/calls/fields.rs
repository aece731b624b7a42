//! Calls between a field and its values: grids, analyses, averages.

use crate::ffi::*;
use crate::{Coefficients, Functional, Refusal};

/// The places of a grid: pairs of its latitudes, cosines and sines of the multiples of its longitudes.
pub struct Places<'a> {
    pub rows: usize,
    pub latitudes: &'a [f64],
    pub longitudes: usize,
    pub trig: &'a [f64],
}

pub fn grid(
    field: &Coefficients,
    functional: &Functional,
    r: f64,
    Places { rows, latitudes, longitudes, trig }: Places,
    work: &mut [f64],
    out: &mut [f64],
) -> Result<(), Refusal> {
    let (c, s) = (&field.c, &field.s);
    let (number, love) = functional.lent();
    // SAFETY: each list is one slice's; the last two are borrowed mutably.
    Refusal::check(unsafe {
        geopotential_grid(
            field.gm,
            field.radius,
            field.nmax,
            c.as_ptr(),
            c.len(),
            s.as_ptr(),
            s.len(),
            number,
            love.as_ptr(),
            love.len(),
            r,
            rows,
            latitudes.as_ptr(),
            latitudes.len(),
            longitudes,
            trig.as_ptr(),
            trig.len(),
            work.as_mut_ptr(),
            work.len(),
            out.as_mut_ptr(),
            out.len(),
        )
    })
}

/// What values are integrated by: weights and pairs of the rows, cosines and sines order after order.
pub struct Quadrature<'a> {
    pub weights: &'a [f64],
    pub latitudes: &'a [f64],
    pub trig: &'a [f64],
}

/// Fills the lists of `out`, which has the degree, `gm` and `radius` asked for.
pub fn analysis(
    functional: &Functional,
    r: f64,
    values: &[f64],
    Quadrature { weights, latitudes, trig }: Quadrature,
    work: &mut [f64],
    out: &mut Coefficients,
) -> Result<(), Refusal> {
    let (number, love) = functional.lent();
    let Coefficients { gm, radius, nmax, ref mut c, ref mut s, .. } = *out;
    // SAFETY: each list is one slice's; the last three are borrowed mutably.
    Refusal::check(unsafe {
        geopotential_analysis(
            number,
            love.as_ptr(),
            love.len(),
            r,
            nmax,
            gm,
            radius,
            values.as_ptr(),
            values.len(),
            weights.as_ptr(),
            weights.len(),
            latitudes.as_ptr(),
            latitudes.len(),
            trig.as_ptr(),
            trig.len(),
            work.as_mut_ptr(),
            work.len(),
            c.as_mut_ptr(),
            c.len(),
            s.as_mut_ptr(),
            s.len(),
        )
    })
}

pub fn basin_average(field: &Coefficients, kernel: &Coefficients, functional: &Functional, r: f64) -> Result<f64, Refusal> {
    let (c, s, kc, ks) = (&field.c, &field.s, &kernel.c, &kernel.s);
    let (number, love) = functional.lent();
    let mut value = 0.0;
    // SAFETY: each list is one slice's, and none is written (field and kernel may be one); `value` is a number of our own.
    Refusal::check(unsafe {
        geopotential_basin_average(
            field.gm,
            field.radius,
            field.nmax,
            c.as_ptr(),
            c.len(),
            s.as_ptr(),
            s.len(),
            kernel.nmax,
            kc.as_ptr(),
            kc.len(),
            ks.as_ptr(),
            ks.len(),
            number,
            love.as_ptr(),
            love.len(),
            r,
            &mut value,
        )
    })?;
    Ok(value)
}
