//! Calls on the coefficients of a field, and the factor of one degree.

use crate::ffi::*;
use crate::{Coefficients, Functional, Refusal};

pub fn factor(functional: &Functional, n: usize, gm: f64, radius: f64, r: f64) -> Result<f64, Refusal> {
    let (number, love) = functional.lent();
    let mut value = 0.0;
    // SAFETY: the list is one slice's; `value` is a number of our own.
    Refusal::check(unsafe { geopotential_factor(number, love.as_ptr(), love.len(), n, gm, radius, r, &mut value) })?;
    Ok(value)
}

/// Fills the lists of `out`.
pub fn zeros(out: &mut Coefficients) -> Result<(), Refusal> {
    let Coefficients { gm, radius, nmax, ref mut c, ref mut s, .. } = *out;
    // SAFETY: each list is one slice's, borrowed mutably.
    Refusal::check(unsafe { geopotential_zeros(gm, radius, nmax, c.as_mut_ptr(), c.len(), s.as_mut_ptr(), s.len()) })
}

pub fn coefficient_c(Coefficients { nmax, c, .. }: &Coefficients, n: usize, m: usize) -> Result<f64, Refusal> {
    let mut value = 0.0;
    // SAFETY: the list is one slice's; `value` is a number of our own.
    Refusal::check(unsafe { geopotential_coefficient_c(*nmax, c.as_ptr(), c.len(), n, m, &mut value) })?;
    Ok(value)
}

pub fn coefficient_s(Coefficients { nmax, s, .. }: &Coefficients, n: usize, m: usize) -> Result<f64, Refusal> {
    let mut value = 0.0;
    // SAFETY: the list is one slice's; `value` is a number of our own.
    Refusal::check(unsafe { geopotential_coefficient_s(*nmax, s.as_ptr(), s.len(), n, m, &mut value) })?;
    Ok(value)
}

pub fn set(field: &mut Coefficients, n: usize, m: usize, cnm: f64, snm: f64) -> Result<(), Refusal> {
    let Coefficients { nmax, ref mut c, ref mut s, .. } = *field;
    // SAFETY: each list is one slice's, borrowed mutably.
    Refusal::check(unsafe { geopotential_set(nmax, c.as_mut_ptr(), c.len(), s.as_mut_ptr(), s.len(), n, m, cnm, snm) })
}

/// Fills the lists of `out` and its degree.
pub fn truncated(field: &Coefficients, cut: usize, out: &mut Coefficients) -> Result<(), Refusal> {
    let (c, s) = (&field.c, &field.s);
    let Coefficients { nmax: degree, c: out_c, s: out_s, .. } = out;
    // SAFETY: each list is one slice's; those of `out` and its degree are borrowed mutably.
    Refusal::check(unsafe {
        geopotential_truncated(
            field.nmax,
            c.as_ptr(),
            c.len(),
            s.as_ptr(),
            s.len(),
            cut,
            out_c.as_mut_ptr(),
            out_c.len(),
            out_s.as_mut_ptr(),
            out_s.len(),
            degree,
        )
    })
}

/// Fills the lists of `out`, which has the new `gm` and `radius`.
pub fn rescaled(field: &Coefficients, out: &mut Coefficients) -> Result<(), Refusal> {
    let (c, s) = (&field.c, &field.s);
    let Coefficients { gm, radius, c: ref mut out_c, s: ref mut out_s, .. } = *out;
    // SAFETY: each list is one slice's; those of `out` are borrowed mutably.
    Refusal::check(unsafe {
        geopotential_rescaled(
            field.gm,
            field.radius,
            field.nmax,
            c.as_ptr(),
            c.len(),
            s.as_ptr(),
            s.len(),
            gm,
            radius,
            out_c.as_mut_ptr(),
            out_c.len(),
            out_s.as_mut_ptr(),
            out_s.len(),
        )
    })
}

pub fn degree_variances(Coefficients { nmax, c, s, .. }: &Coefficients, out: &mut [f64]) -> Result<(), Refusal> {
    // SAFETY: each list is one slice's; the last is borrowed mutably.
    Refusal::check(unsafe { geopotential_degree_variances(*nmax, c.as_ptr(), c.len(), s.as_ptr(), s.len(), out.as_mut_ptr(), out.len()) })
}

pub fn degree_amplitudes(field: &Coefficients, functional: &Functional, out: &mut [f64]) -> Result<(), Refusal> {
    let (c, s) = (&field.c, &field.s);
    let (number, love) = functional.lent();
    // SAFETY: each list is one slice's; the last is borrowed mutably.
    Refusal::check(unsafe {
        geopotential_degree_amplitudes(
            field.gm,
            field.radius,
            field.nmax,
            c.as_ptr(),
            c.len(),
            s.as_ptr(),
            s.len(),
            number,
            love.as_ptr(),
            love.len(),
            out.as_mut_ptr(),
            out.len(),
        )
    })
}
