//! What document 01 puts in the place of the standard library's functions ("Stand-ins, used by the comparison too").

use core::cell::RefCell;
use core::cmp::Ordering;
use core::f64::consts::PI;

/// Stand-ins that are methods of a number.
pub trait Number {
    /// `powi`: from 1, by repeated squaring, lowest binary digit of the exponent first.
    fn power(self, exponent: usize) -> f64;
    /// `hypot`: the larger size times the root of 1 plus the squared ratio.
    fn hypotenuse(self, other: f64) -> f64;
    /// `signum`: 1 or −1 by the sign bit, NaN for NaN.
    fn sign(self) -> f64;
}

impl Number for f64 {
    #[inline]
    fn power(self, mut exponent: usize) -> f64 {
        let (mut result, mut base) = (1.0, self);
        while exponent != 0 {
            if exponent % 2 == 1 {
                result *= base;
            }
            exponent /= 2;
            if exponent != 0 {
                base *= base;
            }
        }
        result
    }

    #[inline]
    fn hypotenuse(self, other: f64) -> f64 {
        let (x, y) = (self.abs(), other.abs());
        if x == f64::INFINITY || y == f64::INFINITY {
            return f64::INFINITY;
        }
        if x.is_nan() || y.is_nan() {
            return f64::NAN;
        }
        let (g, h) = if x < y { (y, x) } else { (x, y) };
        if g == 0.0 { 0.0 } else { g * (1.0 + (h / g) * (h / g)).sqrt() }
    }

    #[inline]
    fn sign(self) -> f64 {
        if self.is_nan() {
            f64::NAN
        } else if self.is_sign_negative() {
            -1.0
        } else {
            1.0
        }
    }
}

/// `sum()` of numbers, from +0.0, left to right; the standard library's starts at −0.0.
pub trait Total {
    fn total(self) -> f64;
}

impl<I: Iterator<Item = f64>> Total for I {
    #[inline]
    fn total(self) -> f64 {
        self.fold(0.0, |sum, term| sum + term)
    }
}

/// The order of a ranking, for a stable sort: `total_cmp`, falling, with every NaN equal and above plus infinity.
#[inline]
pub fn falling(x: f64, y: f64) -> Ordering {
    let key = |x: f64| if x.is_nan() { f64::from_bits(0x7ff8_0000_0000_0000) } else { x };
    key(y).total_cmp(&key(x))
}

/// The first guesses of `gauss_legendre`, n/2 of them rounded up, as the published file works them out (Tricomi).
pub fn tricomi(n: usize) -> Vec<f64> {
    (0..n.div_ceil(2)).map(|i| (PI * (i as f64 + 0.75) / (n as f64 + 0.5)).cos()).collect()
}

/// What is lent for one node of a region: its weight, the sine and cosine of its latitude, a mark (0: empty, skipped), and the integrals of
/// cos fλ and sin fλ over the region's longitudes there, f from 0 to 2L.
#[derive(Clone)]
pub struct Node {
    pub weight: f64,
    pub lat: (f64, f64),
    pub mark: u8,
    pub s: Vec<f64>,
    pub c: Vec<f64>,
}

/// How a solver ends (document 02, W5): how many stopping tests it must meet, how many it met, and how many steps it took past one that was
/// not met.
#[derive(Default)]
pub struct Ended {
    asked: usize,
    met: usize,
    steps: usize,
}

thread_local! {
    static NOTES: RefCell<Vec<(bool, usize)>> = const { RefCell::new(Vec::new()) };
}

impl Ended {
    #[inline]
    pub fn ask(&mut self) {
        self.asked += 1;
    }
    #[inline]
    pub fn meet(&mut self) {
        self.met += 1;
    }
    #[inline]
    pub fn step(&mut self) {
        self.steps += 1;
    }
    /// Notes whether the solver settled, and its count.
    pub fn leave(self) {
        NOTES.with_borrow_mut(|notes| notes.push((self.asked == self.met, self.steps)));
    }
}

/// What a call answers, and the notes of the solvers that it called.
pub fn noted<T>(call: impl FnOnce() -> T) -> (T, Vec<(bool, usize)>) {
    NOTES.with_borrow_mut(Vec::clear);
    let answer = call();
    (answer, NOTES.take())
}
