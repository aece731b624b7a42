//! Inputs: a seeded generator (SplitMix64), and numbers of strange shapes.

/// A generator of inputs.
pub struct Cases {
    state: u64,
    /// What every count of inputs is divided by.
    divisor: u64,
    strange: Vec<f64>,
}

impl Cases {
    pub fn new(seed: u64, divisor: u64) -> Self {
        Cases { state: seed, divisor, strange: strange() }
    }

    /// As many turns as `count` stands for: fewer in a quick run.
    pub fn times(&self, count: u64) -> core::ops::Range<u64> {
        0..count.div_ceil(self.divisor)
    }

    /// 64 random bits (SplitMix64, Steele, Lea & Flood 2014).
    pub fn bits(&mut self) -> u64 {
        self.state = self.state.wrapping_add(0x9e37_79b9_7f4a_7c15);
        let z = (self.state ^ (self.state >> 30)).wrapping_mul(0xbf58_476d_1ce4_e5b9);
        let z = (z ^ (z >> 27)).wrapping_mul(0x94d0_49bb_1331_11eb);
        z ^ (z >> 31)
    }

    /// A whole number below `n`.
    pub fn below(&mut self, n: u64) -> u64 {
        ((self.bits() as u128 * n as u128) >> 64) as u64
    }

    /// A number with random bits: every exponent alike.
    pub fn any_bits(&mut self) -> f64 {
        f64::from_bits(self.bits())
    }

    /// A number in [0, 1) with 53 random bits.
    pub fn fraction(&mut self) -> f64 {
        (self.bits() >> 11) as f64 / (1u64 << 53) as f64
    }

    /// A subnormal number or zero, of every size alike.
    pub fn subnormal(&mut self) -> f64 {
        let size = self.below(52);
        f64::from_bits(self.bits() & (1 << 63) | self.bits() >> 12 >> size)
    }

    /// A power of two, or a number a few units in the last place away from one.
    pub fn near_power_of_two(&mut self) -> f64 {
        let away = self.below(9);
        f64::from_bits((self.below(4096) << 52).wrapping_add(away).wrapping_sub(4))
    }

    /// A finite number of either sign between 2^-8 and 2^9 in size.
    pub fn near_one(&mut self) -> f64 {
        f64::from_bits(self.bits() & 0x800f_ffff_ffff_ffff | (1015 + self.below(17)) << 52)
    }

    /// A number with few binary digits, or a small whole number.
    pub fn short(&mut self) -> f64 {
        if self.below(2) == 0 { self.below(1 << 20) as f64 } else { f64::from_bits(self.bits() & !0 << (30 + self.below(23))) }
    }

    /// A number of any shape.
    pub fn number(&mut self) -> f64 {
        match self.below(8) {
            0 => {
                let place = self.below(self.strange.len() as u64);
                self.strange[place as usize]
            }
            1 => self.subnormal(),
            2 => self.near_power_of_two(),
            3 => self.near_one(),
            4 => self.short(),
            _ => self.any_bits(),
        }
    }
}

/// A fixed list of edge cases: zeros, subnormals, powers of two and their neighbours over the whole range, small numbers,
/// infinities, NaNs with payloads; each with either sign.
pub fn strange() -> Vec<f64> {
    const ONE: u64 = 1 << 52;
    let mut list = vec![0, 1, 2, 3, 5, 0x0008_0000_0000_0000, 0x000f_ffff_ffff_fffe, 0x7fef_ffff_ffff_fffe, 0x7ff0_0000_0000_0000];
    list.extend([0x7ff0_0000_0000_0001, 0x7ff4_dead_beef_0001, 0x7ff7_ffff_ffff_ffff]);
    list.extend([0x7ff8_0000_0000_0000, 0x7ff8_0000_0000_0001, 0x7ffc_0123_4567_89ab, 0x7fff_ffff_ffff_ffff]);
    list.extend([0.1, 1.0 / 3.0, 1.5, 3.0, 5.0, 7.0, 9.0, 10.0, 1e-280, 1e16, 1e154, 1e-162, core::f64::consts::PI].map(f64::to_bits));
    list.extend((0..52).step_by(3).map(|shift| 1 << shift));
    let edge =
        |e: u64| e <= 3 || e >= 2043 || e.abs_diff(1023) <= 3 || e.abs_diff(1023).is_multiple_of(64) || e.abs_diff(1023).abs_diff(512) <= 2;
    for e in (1..=2046).filter(|&e| edge(e)) {
        list.extend([e * ONE - 1, e * ONE, e * ONE + 1]);
    }
    list.push(0x7fef_ffff_ffff_ffff);
    list.extend(list.clone().iter().map(|bits| bits | 1 << 63));
    list.sort_unstable();
    list.dedup();
    list.into_iter().map(f64::from_bits).collect()
}
