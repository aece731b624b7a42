//! Calls on a model file, over bit patterns.

use crate::Refusal;
use crate::ffi::*;

/// A model as its file has it: every number by its bits.
pub struct Model<'a> {
    pub gm: u64,
    pub radius: u64,
    pub tide: u32,
    pub date: Option<i32>,
    pub nmax: usize,
    pub c: &'a [u64],
    pub s: &'a [u64],
}

/// The six words of the file's head: gm, radius, tide, N, dated (1 or 0), the 32 bits of the day count.
pub fn model_read(bytes: &[u8], c: &mut [u64], s: &mut [u64]) -> Result<[u64; 6], Refusal> {
    let mut head = [0; 6];
    // SAFETY: each list is one slice's; all but the bytes are borrowed mutably.
    Refusal::check(unsafe {
        geopotential_model_read(
            bytes.as_ptr(),
            bytes.len(),
            c.as_mut_ptr(),
            c.len(),
            s.as_mut_ptr(),
            s.len(),
            head.as_mut_ptr(),
            head.len(),
        )
    })?;
    Ok(head)
}

pub fn model_write(Model { gm, radius, tide, date, nmax, c, s }: Model, out: &mut [u8]) -> Result<(), Refusal> {
    let (dated, days) = (date.is_some().into(), date.unwrap_or(0));
    // SAFETY: each list is one slice's; the last is borrowed mutably.
    Refusal::check(unsafe {
        geopotential_model_write(gm, radius, tide, dated, days, nmax, c.as_ptr(), c.len(), s.as_ptr(), s.len(), out.as_mut_ptr(), out.len())
    })
}
