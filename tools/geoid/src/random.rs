//! Seeded random numbers whose bits should be the same on every machine.

/// SplitMix64 (Steele, Lea & Flood 2014, OOPSLA, "Fast splittable pseudorandom number generators").
#[derive(Clone, Debug)]
pub struct SplitMix64(u64);

impl SplitMix64 {
    /// The sequence of a seed.
    pub fn new(seed: u64) -> Self {
        SplitMix64(seed)
    }

    /// The next word.
    pub fn word(&mut self) -> u64 {
        self.0 = self.0.wrapping_add(0x9e37_79b9_7f4a_7c15);
        let mut z = self.0;
        z = (z ^ (z >> 30)).wrapping_mul(0xbf58_476d_1ce4_e5b9);
        z = (z ^ (z >> 27)).wrapping_mul(0x94d0_49bb_1331_11eb);
        z ^ (z >> 31)
    }

    /// A number of mean 0 and variance 1, near enough normal: the sum of twelve uniform numbers less 6.
    /// It is a sum of whole numbers and one exact division, so no library's logarithm or cosine has a
    /// part in it.
    pub fn normal(&mut self) -> f64 {
        let sum: u64 = (0..12).map(|_| self.word() >> 32).sum();
        (sum as f64 - 6.0 * 4_294_967_296.0) / 4_294_967_296.0
    }
}

#[cfg(test)]
mod tests {
    use super::SplitMix64;

    #[test]
    fn words_are_the_published_ones() {
        let mut random = SplitMix64::new(1234567);
        assert_eq!([random.word(), random.word(), random.word()], [6457827717110365317, 3203168211198807973, 9817491932198370423]);
    }

    #[test]
    fn mean_and_variance() {
        let mut random = SplitMix64::new(7);
        let count = 100_000;
        let (mut sum, mut squares) = (0.0, 0.0);
        for _ in 0..count {
            let x = random.normal();
            sum += x;
            squares += x * x;
        }
        assert!((sum / count as f64).abs() < 4.0 / (count as f64).sqrt());
        assert!((squares / count as f64 - 1.0).abs() < 4.0 * (2.0 / count as f64).sqrt());
    }
}
