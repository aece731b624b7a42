//! Tables that grow.

use core::f64::consts::FRAC_PI_2;
use std::panic::{self, AssertUnwindSafe};

use geopotential::{Legendre, MAX_DEGREE, Refusal};

const LATITUDES: [f64; 8] = [0.0, 0.3, -0.7, 1.2, -1.5, 1e-9 - FRAC_PI_2, FRAC_PI_2, -FRAC_PI_2];

/// Whole numbers without an order, from a seed (SplitMix64).
struct Random(u64);

impl Random {
    fn below(&mut self, n: usize) -> usize {
        self.0 = self.0.wrapping_add(0x9e37_79b9_7f4a_7c15);
        let z = (self.0 ^ (self.0 >> 30)).wrapping_mul(0xbf58_476d_1ce4_e5b9);
        let z = (z ^ (z >> 27)).wrapping_mul(0x94d0_49bb_1331_11eb);
        ((z ^ (z >> 31)) % n as u64) as usize
    }
}

/// All that a table holds, its recursion coefficients too. Numbers of one text have the same bits, but for NaN.
fn state(leg: &Legendre) -> String {
    format!("{leg:?}")
}

/// The bits of `P̄nm` and of its derivatives at a latitude.
fn bits(leg: &mut Legendre, lat: f64) -> Vec<[u64; 2]> {
    leg.compute_with_derivative(lat);
    let places = (0..=leg.max_degree()).flat_map(|n| (0..=n).map(move |m| (n, m)));
    places.map(|(n, m)| [leg.p(n, m).to_bits(), leg.dp(n, m).to_bits()]).collect()
}

/// A table of any degree up to `nmax` that grows to it in random steps; between some of them a latitude is computed.
fn grown(random: &mut Random, nmax: usize) -> Legendre {
    let mut leg = Legendre::new(random.below(nmax + 1));
    while leg.max_degree() < nmax {
        match random.below(3) {
            0 => leg.compute(0.9),
            1 => leg.compute_with_derivative(-0.4),
            _ => {}
        }
        let step = 1 + random.below(nmax - leg.max_degree());
        leg.grow(leg.max_degree() + step);
    }
    leg
}

#[test]
fn steps_of_any_size_end_where_new_begins() {
    let mut random = Random(3);
    for nmax in (0..=40).chain([96, 127, 128, 129, 360]) {
        let mut whole = Legendre::new(nmax);
        let mut tables = [grown(&mut random, nmax), grown(&mut random, nmax)];
        assert!(tables.iter().all(|table| state(table) == state(&whole)), "{nmax}");
        for lat in LATITUDES {
            let due = bits(&mut whole, lat);
            assert!(tables.iter_mut().all(|table| bits(table, lat) == due), "{nmax} at {lat}");
        }
    }
}

#[test]
fn degree_by_degree() {
    let mut leg = Legendre::new(0);
    for nmax in 0..=130 {
        leg.grow(nmax);
        assert_eq!(leg.max_degree(), nmax);
        let mut whole = Legendre::new(nmax);
        assert!(bits(&mut leg, 0.3) == bits(&mut whole, 0.3), "{nmax}");
        // `compute` alone answers the same, also where the table had derivatives before it grew.
        leg.compute(-1.1);
        whole.compute(-1.1);
        assert!(state(&leg) == state(&whole), "{nmax}");
    }
}

#[test]
fn up_to_the_highest_degree() {
    let (mut leg, mut whole) = (Legendre::new(360), Legendre::new(MAX_DEGREE));
    leg.grow(MAX_DEGREE - 1);
    leg.grow(MAX_DEGREE);
    for lat in [0.3, FRAC_PI_2] {
        assert!(bits(&mut leg, lat) == bits(&mut whole, lat), "{lat}");
    }
}

#[test]
fn a_degree_that_the_table_has_changes_nothing() {
    let mut leg = Legendre::new(7);
    let made = state(&leg);
    (0..=7).for_each(|nmax| leg.grow(nmax));
    assert_eq!(state(&leg), made);
    leg.compute_with_derivative(0.6);
    let computed = state(&leg);
    for nmax in (0..=7).rev() {
        assert_eq!(leg.try_grow(nmax), Ok(()));
        assert_eq!(state(&leg), computed);
    }
    assert_eq!(leg.max_degree(), 7);
}

#[test]
fn no_latitude_until_the_next_one_is_computed() {
    let mut leg = Legendre::new(3);
    leg.compute_with_derivative(0.5);
    leg.grow(5);
    for n in 0..=5 {
        for m in 0..=n {
            assert_eq!(leg.p(n, m).to_bits(), 0);
            assert_eq!(leg.try_dp(n, m), Err(Refusal::Length));
        }
    }
    assert_eq!(leg.try_p(6, 0), Err(Refusal::Place));
    leg.compute(0.5);
    assert_eq!((leg.p(0, 0), leg.try_dp(2, 1)), (1.0, Err(Refusal::Length)));
    leg.compute_with_derivative(0.5);
    assert!(leg.try_dp(5, 5).is_ok() && leg.try_dp(6, 0) == Err(Refusal::Place));
}

#[test]
fn a_refused_table_is_as_it_was() {
    let mut leg = Legendre::new(4);
    leg.compute_with_derivative(-0.2);
    let before = state(&leg);
    for nmax in [MAX_DEGREE + 1, 1 << 32, usize::MAX - 1, usize::MAX] {
        assert_eq!(leg.try_grow(nmax), Err(Refusal::Size));
        assert!(panic::catch_unwind(AssertUnwindSafe(|| leg.grow(nmax))).is_err());
        assert_eq!(state(&leg), before);
    }
    // It computes and grows on.
    assert!(bits(&mut leg, 0.8) == bits(&mut Legendre::new(4), 0.8));
    leg.grow(9);
    assert!(bits(&mut leg, 0.8) == bits(&mut Legendre::new(9), 0.8));
}

#[test]
fn a_copy_that_grows_leaves_the_table_alone() {
    let mut leg = Legendre::new(6);
    leg.compute_with_derivative(1.0);
    let before = state(&leg);
    let mut copy = leg.clone();
    copy.grow(20);
    copy.compute(0.1);
    assert_eq!((state(&leg), leg.max_degree(), copy.max_degree()), (before, 6, 20));
}
