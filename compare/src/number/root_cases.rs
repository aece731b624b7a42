//! Inputs of the square root: exact squares, points nearest to a midpoint between two answers, every exponent, subnormals.

use crate::cases::{Cases, strange};

const HIDDEN: u64 = 1 << 52;

/// Call `one` with the bits of every input: about 1.2e8 of them in a full run.
pub fn all(cases: &mut Cases, mut one: impl FnMut(u64)) {
    strange().into_iter().for_each(|x| one(x.to_bits()));
    every_exponent(cases, &mut one);
    for _ in cases.times(8_000_000) {
        square(cases, &mut one);
    }
    for _ in cases.times(2_000_000) {
        let k = cases.below(1 << 26);
        near(k * k, &mut one);
    }
    for _ in cases.times(8_000_000) {
        let m = 1 << 53 | cases.below(1 << 53) | 1;
        near_midpoint(m, cases, &mut one);
    }
    for i in cases.times(400_000) {
        nearest_midpoints(8 * (i as i64 - 200_000) + 1, cases, &mut one);
    }
    for _ in cases.times(10_000_000) {
        one(cases.subnormal().to_bits());
        one(cases.number().to_bits());
        one(cases.bits());
        one(cases.bits() >> 1);
    }
}

/// A pattern and its two neighbours.
fn near(bits: u64, one: &mut impl FnMut(u64)) {
    one(bits.saturating_sub(1));
    one(bits);
    one(bits + 1);
}

/// Every exponent, with either sign, over short, long and random significands.
fn every_exponent(cases: &mut Cases, one: &mut impl FnMut(u64)) {
    for exponent in 0..4096 {
        for significand in [0, 1, 2, 3, HIDDEN / 2 - 1, HIDDEN / 2, HIDDEN / 2 + 1, HIDDEN - 3, HIDDEN - 2, HIDDEN - 1] {
            one(exponent << 52 | significand);
        }
        for _ in cases.times(100) {
            one(exponent << 52 | cases.bits() >> 12);
        }
    }
}

/// The square of a whole number below 2^26.5, times a power of four, and its neighbours.
fn square(cases: &mut Cases, one: &mut impl FnMut(u64)) {
    let k = 1 + cases.below(94_906_265);
    let bits = ((k * k) as f64).to_bits();
    // The exponent field, 1023 to 1075, goes down by 1022 and up by an even number, to 2045 at most.
    near(bits - (1022 << 52) + (cases.below(997) << 53), one);
}

/// The pattern with a 53-bit significand and the exponent field given.
fn with_exponent(significand: u64, exponent: u64) -> u64 {
    exponent << 52 | (significand - HIDDEN)
}

/// The numbers about the square of m/2 units in the last place, m odd with 54 bits: the square roots of the two on either
/// side of that square are the closest to the midpoint m/2.
fn near_midpoint(m: u64, cases: &mut Cases, one: &mut impl FnMut(u64)) {
    let square = m as u128 * m as u128;
    // m² has 107 or 108 bits; that fixes the parity of the exponent.
    let (dropped, parity) = if square >> 107 == 0 { (54, 1) } else { (55, 0) };
    let exponent = 2 + 2 * cases.below(1023) - parity;
    let below = with_exponent((square >> dropped) as u64, exponent);
    near(below, one);
    one(below + 2);
}

/// The odd m whose square differs from a multiple of 2^54 or 2^55 by c alone (c = 1 modulo 8): their squares are the
/// closest of all to a number with 53 bits, so they are the hardest to round.
fn nearest_midpoints(c: i64, cases: &mut Cases, one: &mut impl FnMut(u64)) {
    for width in [54, 55] {
        // Hensel's lemma for 2: a root modulo 2^k of c gives one modulo 2^(k+1).
        let mut root = 1u64;
        for k in 3..width {
            if (root.wrapping_mul(root).wrapping_sub(c as u64)) >> k & 1 == 1 {
                root += 1 << (k - 1);
            }
        }
        let mask = (1u64 << width) - 1;
        let half = 1u64 << (width - 1);
        for m in [root, root.wrapping_neg(), root + half, root.wrapping_neg().wrapping_add(half)] {
            let m = m & mask;
            // The square must have the number of bits that belongs to this width.
            if m >> 53 == 1 && (m as u128 * m as u128) >> 107 == width as u128 - 54 {
                near_midpoint(m, cases, one);
            }
        }
    }
}

/// The two inputs on either side of a midpoint's square, for c = −7, −15, .. of `nearest_midpoints`, carried next to 1: the
/// hard cases of a fixed list.
pub fn hardest(count: usize) -> Vec<f64> {
    let (mut list, mut cases, mut c) = (Vec::new(), Cases::new(0, 1), 1);
    while list.len() < 2 * count {
        c -= 8;
        nearest_midpoints(c, &mut cases, &mut |bits| {
            let exponent = 1022 + (bits >> 52) % 2;
            list.push(f64::from_bits(bits & (HIDDEN - 1) | exponent << 52));
        });
    }
    // Each midpoint gives four neighbouring inputs; the two in the middle are taken.
    list.chunks(4).flat_map(|four| [four[1], four[2]]).take(count).collect()
}
