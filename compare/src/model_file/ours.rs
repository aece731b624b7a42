//! The library's reader and writer on plain lists, a head as its six words both ways.

use super::format::HEAD_WORDS;
use crate::entries::*;

pub fn read(bytes: &[u8], c: &mut [u64], s: &mut [u64], head: &mut [u64; HEAD_WORDS]) -> u32 {
    let (lent_c, lent_s, lent_head) = (c.as_mut_ptr(), s.as_mut_ptr(), head.as_mut_ptr());
    unsafe { geopotential_model_read(bytes.as_ptr(), bytes.len(), lent_c, c.len(), lent_s, s.len(), lent_head, HEAD_WORDS) }
}

pub fn write(&[gm, radius, tide, nmax, dated, days]: &[u64; HEAD_WORDS], c: &[u64], s: &[u64], out: &mut [u8]) -> u32 {
    let (tide, dated, days, nmax) = (tide as u32, dated as u32, days as u32 as i32, nmax as usize);
    let (lent_c, lent_s, lent_out) = (c.as_ptr(), s.as_ptr(), out.as_mut_ptr());
    unsafe { geopotential_model_write(gm, radius, tide, dated, days, nmax, lent_c, c.len(), lent_s, s.len(), lent_out, out.len()) }
}
