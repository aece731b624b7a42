//! Times of the crate `number`. The Rust's side is what the published code has, compiled in place; ours is a call.

use oracle::standins::Number;

use super::ranks_before;
use crate::cases::Cases;
use crate::entries::*;
use crate::tally::pattern;
use crate::timing::{latency, throughput};

const COUNT: usize = 4096;
const PASSES: usize = 32;

/// The cost of a call alone.
#[inline(never)]
extern "C" fn nothing(x: f64) -> f64 {
    std::hint::black_box(x)
}

pub fn bench() {
    let mut cases = Cases::new(1, 1);
    let mut list = |of: &dyn Fn(&mut Cases) -> f64| -> Vec<f64> { (0..COUNT).map(|_| of(&mut cases)).collect() };
    let positive = list(&|cases| f64::from_bits((1 << 52) + cases.below(2046 << 52)));
    let subnormal = list(&|cases| cases.subnormal().abs());
    let (x, y) = (list(&Cases::near_one), list(&Cases::near_one));
    let pairs: Vec<(f64, f64)> = x.iter().copied().zip(y).collect();
    let ratios = list(&|cases| 0.99 + 0.01 * cases.fraction());
    let powers =
        |exponent: &dyn Fn(usize) -> usize| -> Vec<(f64, usize)> { ratios.iter().enumerate().map(|(i, &q)| (q, exponent(i))).collect() };

    throughput("a call that does nothing", &positive, PASSES, |x| nothing(x), |x| x);
    throughput("root", &positive, PASSES, |x| geopotential_root(x), f64::sqrt);
    throughput("root, subnormal", &subnormal, PASSES, |x| geopotential_root(x), f64::sqrt);
    latency("root, latency (with one addition)", &positive, PASSES, |x| geopotential_root(x), f64::sqrt);
    let near: Vec<(f64, f64)> = positive.iter().map(|&x| (x, x.sqrt())).collect();
    throughput("root_near, from the root", &near, PASSES, |(x, guess)| geopotential_root_near(x, guess), |(x, _)| x.sqrt());
    throughput("hypot", &pairs, PASSES, |(x, y)| geopotential_hypot(x, y), |(x, y)| x.hypotenuse(y));
    throughput("powi, exponent 2", &powers(&|_| 2), PASSES, |(q, n)| geopotential_powi(q, n), |(q, n)| q.power(n));
    throughput("powi, exponents 0 to 2700", &powers(&|i| i * 37 % 2701), PASSES, |(q, n)| geopotential_powi(q, n), |(q, n)| q.power(n));
    throughput("signum", &x, PASSES, |x| geopotential_signum(x), |x| x.sign());
    throughput("magnitude", &x, PASSES, |x| geopotential_magnitude(x), f64::abs);
    throughput("ranks_before", &pairs, PASSES, |(x, y)| geopotential_ranks_before(x, y), |(x, y)| ranks_before(x, y));
    throughput("bits_of_number", &x, PASSES, |x| geopotential_bits_of_number(x), pattern);
    let words: Vec<u64> = x.iter().map(|x| x.to_bits()).collect();
    throughput("number_of_bits", &words, PASSES, |bits| geopotential_number_of_bits(bits), f64::from_bits);
}
