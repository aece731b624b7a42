//! Times of the crate `functional`: one factor, over all degrees.

use super::{EARTH, NAMES, WATER_HEIGHT, functional};
use crate::cases::Cases;
use crate::entries::geopotential_factor;
use crate::refusal::MAX_DEGREE;
use crate::timing::throughput;

const PASSES: usize = 32;

pub fn bench() {
    let mut cases = Cases::new(1, 1);
    let (gm, radius, _) = EARTH;
    let love: Vec<f64> = (0..=MAX_DEGREE).map(|_| -0.3 * cases.fraction()).collect();
    let inputs: Vec<_> = (0..=MAX_DEGREE).map(|n| (n, gm, radius, radius + 1e4 * cases.fraction())).collect();
    for (number, name) in (0..=WATER_HEIGHT).zip(NAMES) {
        let rust = functional(number, &love);
        let ours = |(n, gm, radius, r)| {
            let mut value = 0.0;
            unsafe { geopotential_factor(number, love.as_ptr(), love.len(), n, gm, radius, r, &mut value) };
            value
        };
        throughput(&format!("factor, {name}"), &inputs, PASSES, ours, |(n, gm, radius, r)| rust.factor(n, gm, radius, r));
    }
}
