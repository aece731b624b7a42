//! Model files: a field in bytes and back, with every bit of every number, a NaN's too. Added: the published crate has no file
//! of its own.
//!
//! A record is one byte of kind, then a body; numbers are little-endian. Kind 1, the head: `gm`, `radius` (doubles), the tide
//! system (0 free, 1 zero, 2 mean, 3 unknown), the degree N (16 bits). Kind 4, the head of a dated field: the same, then the date
//! (32 bits, signed: days from 2000-01-01). Kind 2: `C̄nm`, `S̄nm`. Kind 3: the end. A file has one head, (N+1)(N+2)/2 pairs in the
//! order of `n(n+1)/2 + m`, and one end.
//!
//! ```
//! use geopotential::{Coefficients, Refusal, model_file};
//!
//! let mut field = Coefficients::zeros(3.986004415e14, 6378136.3, 2);
//! field.set(2, 2, 2.4393e-6, -1.4003e-6);
//! let bytes = model_file::write(&field)?;
//! assert_eq!(bytes.len(), 123);
//! assert_eq!(model_file::read(&bytes)?, field);
//! assert_eq!(model_file::read(&bytes[..122]), Err(Refusal::Short));
//!
//! // The same field of 2024-03-15, the 8840th day after 2000-01-01: the date outlives the file, a cut and a rescaling.
//! field.date = Some(8840);
//! let bytes = model_file::write(&field)?;
//! assert_eq!((bytes[0], bytes.len()), (4, 127));
//! assert_eq!(model_file::read(&bytes)?.date, Some(8840));
//! assert_eq!(field.truncated(1).rescaled(1.0, 1.0).date, Some(8840));
//! # Ok::<(), Refusal>(())
//! ```

use crate::calls::files::{self, Model};
use crate::calls::lengths;
use crate::coefficients::{Coefficients, TideSystem};
use crate::refusal::Refusal;
use crate::workspace;

/// The tide systems by their numbers in a file.
const TIDE_SYSTEMS: [TideSystem; 4] = [TideSystem::TideFree, TideSystem::ZeroTide, TideSystem::MeanTide, TideSystem::Unknown];

/// The field of a model file. Refused, by the first thing that is wrong from front to back: [`Refusal::Short`],
/// [`Refusal::Kind`], [`Refusal::Tide`], [`Refusal::Size`], [`Refusal::After`].
pub fn read(bytes: &[u8]) -> Result<Coefficients, Refusal> {
    let [length, c, s, _] = lengths::model_read(bytes)?;
    // A file of another length than its head tells is refused in any case: no lists are made for a degree that it only claims.
    let [c, s] = if bytes.len() == length { [c, s] } else { [0, 0] };
    let (mut c, mut s) = (vec![0; c], vec![0; s]);
    let [gm, radius, tide, nmax, dated, days] = files::model_read(bytes, &mut c, &mut s)?;
    Ok(Coefficients {
        gm: f64::from_bits(gm),
        radius: f64::from_bits(radius),
        tide_system: TIDE_SYSTEMS[tide as usize],
        date: (dated == 1).then_some(days as u32 as i32),
        nmax: nmax as usize,
        c: numbers(c),
        s: numbers(s),
    })
}

/// The model file of a field. No field is refused.
pub fn write(field: &Coefficients) -> Result<Vec<u8>, Refusal> {
    let [c, s, out] = lengths::model_write(field.nmax, field.date.is_some())?;
    let mut bytes = vec![0; out];
    workspace::lend(|lists| {
        let (c, s) = (lists.c_bits.front(c), lists.s_bits.front(s));
        put_bits(c, &field.c);
        put_bits(s, &field.s);
        let (gm, radius, tide) = (field.gm.to_bits(), field.radius.to_bits(), field.tide_system as u32);
        files::model_write(Model { gm, radius, tide, date: field.date, nmax: field.nmax, c, s }, &mut bytes)
    })?;
    Ok(bytes)
}

/// The numbers of bit patterns, in the patterns' own memory.
fn numbers(bits: Vec<u64>) -> Vec<f64> {
    bits.into_iter().map(f64::from_bits).collect()
}

/// Writes the bit patterns of numbers.
fn put_bits(bits: &mut [u64], numbers: &[f64]) {
    bits.iter_mut().zip(numbers).for_each(|(bits, number)| *bits = number.to_bits());
}

#[cfg(test)]
mod tests {
    use super::*;

    #[test]
    fn tide_systems_are_written_by_the_numbers_they_are_read_by() {
        for (number, tide_system) in TIDE_SYSTEMS.into_iter().enumerate() {
            assert_eq!(tide_system as usize, number);
        }
    }
}
