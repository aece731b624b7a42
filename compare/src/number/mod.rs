//! The crate `number` against the standard library and the stand-ins.

pub mod bench;
pub mod replay;
mod root_cases;

use core::cmp::Ordering;

use oracle::standins::{Number, falling};

use crate::cases::{Cases, strange};
use crate::entries::*;
use crate::tally::{Report, Tally, pattern, shown};

/// The oracle's `ranks_before`: 1 where x stands strictly before y in the falling order.
pub fn ranks_before(x: f64, y: f64) -> u32 {
    (falling(x, y) == Ordering::Less) as u32
}

pub fn compare(report: &mut Report) {
    report.call("number.root", root);
    report.call("number.root_near", root_near);
    report.call("number.hypot", hypot);
    report.call("number.powi", powi);
    report.call("number.signum", |tally, cases| one_number(tally, cases, |x| (geopotential_signum(x), x.sign())));
    report.call("number.magnitude", |tally, cases| one_number(tally, cases, |x| (geopotential_magnitude(x), x.abs())));
    report.call("number.ranks_before", ranking);
    report.call("number.patterns", patterns);
}

fn root(tally: &mut Tally, cases: &mut Cases) {
    root_cases::all(cases, |bits| {
        let x = f64::from_bits(bits);
        tally.numbers(geopotential_root(x), x.sqrt(), || shown(x));
    });
}

/// The same inputs, each with one guess: the root, its neighbours, or any number.
fn root_near(tally: &mut Tally, cases: &mut Cases) {
    let mut others = Cases::new(cases.bits(), 1);
    root_cases::all(cases, |bits| {
        let x = f64::from_bits(bits);
        let guess = match others.below(8) {
            0 => x.sqrt(),
            k @ 1..=5 => f64::from_bits(x.sqrt().to_bits().wrapping_add(k).wrapping_sub(3)),
            6 => x.sqrt() * (1.0 + 1e-10 * (others.fraction() - 0.5)),
            _ => others.number(),
        };
        tally.numbers(geopotential_root_near(x, guess), x.sqrt(), || format!("{}, guess {}", shown(x), shown(guess)));
    });
}

fn hypot(tally: &mut Tally, cases: &mut Cases) {
    let mut one = |x: f64, y: f64| tally.numbers(geopotential_hypot(x, y), x.hypotenuse(y), || format!("{}, {}", shown(x), shown(y)));
    let list = strange();
    for &x in &list {
        list.iter().for_each(|&y| one(x, y));
    }
    for _ in cases.times(5_000_000) {
        one(cases.number(), cases.number());
        one(cases.any_bits(), 1.0);
        // Two numbers whose exponents are so close that both count.
        let x = cases.any_bits();
        let apart = cases.below(120) << 52;
        let y = f64::from_bits((x.to_bits() & !0xf_ffff_ffff_ffff).wrapping_add(apart).wrapping_sub(60 << 52) | cases.bits() >> 12);
        one(x, y);
        one(y, x);
        one(cases.subnormal(), cases.subnormal());
    }
}

fn powi(tally: &mut Tally, cases: &mut Cases) {
    let mut one = |base: f64, exponent: usize| {
        tally.numbers(geopotential_powi(base, exponent), base.power(exponent), || format!("{} to the {exponent}", shown(base)))
    };
    let mut exponents: Vec<usize> = (0..64).flat_map(|k| [(1usize << k) - 1, 1 << k, (1 << k) + 1]).collect();
    exponents.extend([5, 6, 7, 10, 86, 96, 100, 180, 1000, 2160, 2190, 2700, 2701, 4000, usize::MAX - 1, usize::MAX]);
    for base in strange() {
        (0..=4000).for_each(|exponent| one(base, exponent));
        exponents.iter().for_each(|&exponent| one(base, exponent));
    }
    for _ in cases.times(1_000_000) {
        // A ratio of radii, as the factors have it.
        one(0.5 + cases.fraction(), cases.below(4001) as usize);
        one(cases.number(), cases.below(4001) as usize);
        one(cases.number(), cases.below(33) as usize);
        // A base so close to 1 that a large power of it stays finite.
        let size = cases.below(53);
        let base = f64::from_bits(1f64.to_bits() - cases.below(1 << size) + cases.below(1 << size));
        one(base, (cases.bits() >> cases.below(64)) as usize);
    }
}

/// A call of one number, on strange and on random ones.
fn one_number(tally: &mut Tally, cases: &mut Cases, both: impl Fn(f64) -> (f64, f64)) {
    let mut one = |x: f64| {
        let (ours, oracle) = both(x);
        tally.numbers(ours, oracle, || shown(x));
    };
    strange().into_iter().for_each(&mut one);
    for _ in cases.times(10_000_000) {
        one(cases.number());
        one(cases.any_bits());
    }
}

fn ranking(tally: &mut Tally, cases: &mut Cases) {
    let mut one = |x: f64, y: f64| {
        let (ours, oracle) = (geopotential_ranks_before(x, y), ranks_before(x, y));
        tally.words(ours as u64, oracle as u64, || format!("{}, {}", shown(x), shown(y)));
    };
    let list = strange();
    for &x in &list {
        list.iter().for_each(|&y| one(x, y));
    }
    for _ in cases.times(5_000_000) {
        one(cases.any_bits(), cases.any_bits());
        one(cases.number(), cases.number());
        // A number against itself, its neighbours and its negative.
        let x = cases.number();
        for y in [x, f64::from_bits(x.to_bits().wrapping_add(1)), f64::from_bits(x.to_bits().wrapping_sub(1)), -x] {
            one(x, y);
        }
    }
}

fn patterns(tally: &mut Tally, cases: &mut Cases) {
    let mut one = |bits: u64| {
        let x = f64::from_bits(bits);
        tally.numbers(geopotential_number_of_bits(bits), x, || format!("number of {bits:#x}"));
        tally.words(geopotential_bits_of_number(x), pattern(x), || format!("bits of {}", shown(x)));
        tally.words(geopotential_bits_of_number(geopotential_number_of_bits(bits)), pattern(x), || format!("there and back, {bits:#x}"));
    };
    strange().into_iter().for_each(|x| one(x.to_bits()));
    for _ in cases.times(5_000_000) {
        one(cases.number().to_bits());
        one(cases.bits());
        // A NaN or an infinity.
        let size = cases.below(53);
        one(cases.bits() & 1 << 63 | 0x7ff0_0000_0000_0000 | cases.bits() >> 12 >> size);
    }
}
