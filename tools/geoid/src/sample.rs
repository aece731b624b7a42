//! The sample field: synthetic, and no model of the Earth.

use geopotential::{Coefficients, TideSystem};

use crate::error::Error;
use crate::normal::GRS80;
use crate::random::SplitMix64;

/// Kaula's rule: the standard deviation of a coefficient of degree n is this over n².
pub const KAULA: f64 = 1e-5;

/// The even zonals of GRS80 and a random field that follows Kaula's rule from degree 2. The numbers
/// are drawn degree by degree, so that a sample of a lower degree is the front of a higher one.
pub fn sample(max_degree: usize, seed: u64) -> Result<Coefficients, Error> {
    let mut field = GRS80.coefficients(max_degree)?;
    // J₂ of GRS80 has no permanent tide in it (Moritz 2000).
    field.tide_system = TideSystem::TideFree;
    let mut random = SplitMix64::new(seed);
    for n in 2..=max_degree {
        let sigma = KAULA / (n * n) as f64;
        for m in 0..=n {
            let c = sigma * random.normal();
            let s = if m == 0 { 0.0 } else { sigma * random.normal() };
            field.try_set(n, m, field.try_c(n, m)? + c, s)?;
        }
    }
    Ok(field)
}
