//! Counting of cases and differences.

use std::time::Instant;

use crate::cases::Cases;

/// How many differences of a subject are printed.
const SHOWN: u64 = 5;

/// The bit pattern by which answers are compared: every NaN is one NaN.
pub fn pattern(x: f64) -> u64 {
    if x.is_nan() { 0x7ff8_0000_0000_0000 } else { x.to_bits() }
}

/// The text of a number in a message: its bits and its decimal.
pub fn shown(x: f64) -> String {
    format!("{:016x} ({x:e})", x.to_bits())
}

/// The cases and differences of one call.
pub struct Tally {
    cases: u64,
    differences: u64,
}

impl Tally {
    fn count(&mut self, same: bool, message: impl FnOnce() -> String) {
        self.cases += 1;
        if !same {
            self.differences += 1;
            if self.differences <= SHOWN {
                println!("  differs: {}", message());
            }
        }
    }

    /// Two answers that must have the same bits, NaN counting as NaN.
    pub fn numbers(&mut self, ours: f64, oracle: f64, input: impl FnOnce() -> String) {
        self.count(pattern(ours) == pattern(oracle), || format!("{}: ours {}, oracle {}", input(), shown(ours), shown(oracle)));
    }

    /// Two whole numbers or bit patterns that must be equal.
    pub fn words(&mut self, ours: u64, oracle: u64, input: impl FnOnce() -> String) {
        self.count(ours == oracle, || format!("{}: ours {ours:#x}, oracle {oracle:#x}", input()));
    }

    /// A call with lent lists, and the first thing that is wrong with it.
    pub fn call(&mut self, fault: Option<String>, input: impl FnOnce() -> String) {
        self.count(fault.is_none(), || format!("{}: {}", input(), fault.as_deref().unwrap_or_default()));
    }

    /// A statement that must hold.
    pub fn holds(&mut self, statement: bool, text: &str) {
        self.count(statement, || text.to_string());
    }
}

/// A run over several calls, one printed line each.
pub struct Report {
    seed: u64,
    divisor: u64,
    differences: u64,
}

impl Report {
    pub fn new(seed: u64, divisor: u64) -> Self {
        Report { seed, divisor, differences: 0 }
    }

    /// Compare one call. Its inputs depend on the seed and on its name alone.
    pub fn call(&mut self, name: &str, compare: impl FnOnce(&mut Tally, &mut Cases)) {
        let seed = name.bytes().fold(self.seed, |hash, byte| (hash ^ byte as u64).wrapping_mul(0x0100_0000_01b3));
        let (mut tally, mut cases) = (Tally { cases: 0, differences: 0 }, Cases::new(seed, self.divisor));
        let start = Instant::now();
        compare(&mut tally, &mut cases);
        println!("{name:<24}{:>12} cases{:>10} differences{:>8.1} s", tally.cases, tally.differences, start.elapsed().as_secs_f64());
        self.differences += tally.differences;
    }

    pub fn all_same(&self) -> bool {
        self.differences == 0
    }
}
