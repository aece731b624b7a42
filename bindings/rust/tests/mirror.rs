//! Tables of the latitude −φ that are made from those of φ.

use core::f64::consts::{FRAC_PI_2, PI};

use geopotential::{Legendre, MAX_DEGREE, Refusal};

const DEGREES: [usize; 7] = [0, 1, 2, 5, 96, 130, 360];

/// Latitudes of both halves, the equator by either zero, the poles, tiny angles, angles beyond the poles, and what is no angle.
const LATITUDES: [f64; 19] = [
    0.0,
    -0.0,
    0.3,
    -0.7,
    1.2,
    -1.5,
    1e-9 - FRAC_PI_2,
    FRAC_PI_2,
    -FRAC_PI_2,
    1e-9,
    -1e-200,
    f64::MIN_POSITIVE,
    5e-324,
    PI,
    -4.0,
    1e300,
    f64::NAN,
    f64::INFINITY,
    f64::NEG_INFINITY,
];

/// The same number; zeros of either sign are one, and NaN counts as NaN.
fn alike(x: f64, y: f64) -> bool {
    x == y || x.is_nan() && y.is_nan()
}

/// The same bits; NaN counts as NaN.
fn same(x: f64, y: f64) -> bool {
    x.to_bits() == y.to_bits() || x.is_nan() && y.is_nan()
}

/// All that a table holds, its recursion coefficients too. Numbers of one text have the same bits, but for NaN.
fn state(leg: &Legendre) -> String {
    format!("{leg:?}")
}

/// The places (n, m) of a table, as they are stored.
fn places(nmax: usize) -> impl Iterator<Item = (usize, usize)> {
    (0..=nmax).flat_map(|n| (0..=n).map(move |m| (n, m)))
}

fn values(leg: &Legendre) -> Vec<f64> {
    places(leg.max_degree()).map(|(n, m)| leg.p(n, m)).collect()
}

fn derivatives(leg: &Legendre) -> Vec<f64> {
    places(leg.max_degree()).map(|(n, m)| leg.dp(n, m)).collect()
}

/// That two lists are as long and agree entry by entry.
fn agree(x: &[f64], y: &[f64], by: fn(f64, f64) -> bool) -> bool {
    x.len() == y.len() && x.iter().zip(y).all(|(&x, &y)| by(x, y))
}

/// A table's numbers, each with its sign turned where n − m + `shift` is odd.
fn turned(nmax: usize, shift: usize, numbers: &[f64]) -> Vec<f64> {
    places(nmax).zip(numbers).map(|((n, m), &x)| if (n - m + shift) % 2 == 1 { -x } else { x }).collect()
}

/// Mirrors a table of `lat` and holds it against one that is computed at -`lat`, then mirrors it back.
fn mirror_and_back(leg: &mut Legendre, south: &mut Legendre, lat: f64) {
    let nmax = leg.max_degree();
    leg.compute_with_derivative(lat);
    let (p, dp) = (values(leg), derivatives(leg));
    leg.mirror();
    south.compute_with_derivative(-lat);
    assert!(agree(&values(leg), &values(south), alike), "p of degree {nmax} at {lat}");
    assert!(agree(&derivatives(leg), &derivatives(south), alike), "dp of degree {nmax} at {lat}");
    assert!(agree(&values(leg), &turned(nmax, 0, &p), same), "signs of p, degree {nmax} at {lat}");
    assert!(agree(&derivatives(leg), &turned(nmax, 1, &dp), same), "signs of dp, degree {nmax} at {lat}");
    leg.mirror();
    assert!(agree(&values(leg), &p, same) && agree(&derivatives(leg), &dp, same), "twice, degree {nmax} at {lat}");
}

#[test]
fn a_mirrored_table_is_that_of_the_negated_latitude() {
    for nmax in DEGREES {
        let (mut leg, mut south) = (Legendre::new(nmax), Legendre::new(nmax));
        LATITUDES.into_iter().for_each(|lat| mirror_and_back(&mut leg, &mut south, lat));
    }
}

#[test]
fn up_to_the_highest_degree() {
    mirror_and_back(&mut Legendre::new(MAX_DEGREE), &mut Legendre::new(MAX_DEGREE), 0.7);
}

#[test]
fn sines_are_odd_and_cosines_even() {
    // What makes the table at (-t, u) that of the negated angle.
    let angles = (0..20_000).map(|k| k as f64 * 1e-4).chain((0..2_000).map(|k| 1.3f64.powi(k - 1_000)));
    for lat in angles.chain(LATITUDES) {
        let ((t, u), (s, c)) = (lat.sin_cos(), (-lat).sin_cos());
        assert!(same(s, -t) && same(c, u), "{lat:e}");
    }
}

#[test]
fn a_zero_may_have_the_other_sign() {
    let (mut leg, mut south) = (Legendre::new(0), Legendre::new(0));
    leg.compute_with_derivative(0.3);
    leg.mirror();
    south.compute_with_derivative(-0.3);
    assert_eq!((leg.dp(0, 0).to_bits(), south.dp(0, 0).to_bits()), (1 << 63, 0));
}

#[test]
fn a_table_without_a_latitude_stays_as_it_was() {
    for nmax in [0, 1, 7, 130] {
        let mut leg = Legendre::new(nmax);
        let made = state(&leg);
        leg.mirror();
        assert_eq!(state(&leg), made);
        assert!(values(&leg).iter().all(|p| p.to_bits() == 0));
        assert_eq!(leg.try_dp(0, 0), Err(Refusal::Length));
    }
}

#[test]
fn a_table_that_grew_has_no_latitude() {
    let mut leg = Legendre::new(3);
    leg.compute_with_derivative(0.5);
    leg.mirror();
    let mirrored = state(&leg);
    leg.grow(3);
    assert_eq!(state(&leg), mirrored, "a degree that it has changes nothing");
    leg.grow(6);
    leg.mirror();
    assert_eq!(state(&leg), state(&Legendre::new(6)));
    mirror_and_back(&mut leg, &mut Legendre::new(6), 0.5);
}

#[test]
fn the_next_latitude_is_computed_as_ever() {
    for nmax in [0, 1, 2, 5, 130] {
        let (mut leg, mut whole) = (Legendre::new(nmax), Legendre::new(nmax));
        leg.compute(0.4);
        leg.mirror();
        for lat in LATITUDES {
            leg.compute_with_derivative(lat);
            whole.compute_with_derivative(lat);
            assert_eq!(state(&leg), state(&whole), "{nmax} at {lat}");
            leg.mirror();
        }
    }
}

#[test]
fn no_derivatives_where_none_were_computed() {
    let (mut leg, mut south) = (Legendre::new(5), Legendre::new(5));
    leg.compute(0.9);
    leg.mirror();
    south.compute(-0.9);
    assert!(agree(&values(&leg), &values(&south), alike));
    assert!(places(5).all(|(n, m)| leg.try_dp(n, m) == Err(Refusal::Length)));
    assert_eq!(leg.try_p(6, 0), Err(Refusal::Place));
    mirror_and_back(&mut leg, &mut south, 0.9);
}

#[test]
fn derivatives_of_an_earlier_latitude_are_turned_by_themselves() {
    let (mut leg, mut south) = (Legendre::new(9), Legendre::new(9));
    leg.compute_with_derivative(0.3);
    leg.compute(1.1);
    leg.mirror();
    south.compute_with_derivative(-0.3);
    assert!(agree(&derivatives(&leg), &derivatives(&south), alike));
    south.compute(-1.1);
    assert!(agree(&values(&leg), &values(&south), alike));
}
