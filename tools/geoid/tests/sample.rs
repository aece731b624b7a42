//! The sample field.

use geoid::normal::GRS80;
use geoid::sample::{KAULA, sample};
use geopotential::{Functional, model_file};

#[test]
fn amplitudes_follow_kaulas_rule() {
    let field = sample(96, 1).unwrap();
    let amplitudes = GRS80.taken_from(&field).unwrap().degree_amplitudes(&Functional::GeoidHeight);
    assert_eq!(amplitudes[..2], [0.0, 0.0]);
    let (mut total, mut count) = (0.0, 0.0);
    for (n, amplitude) in amplitudes.iter().enumerate().skip(2) {
        // In units of Kaula's sigma the squares of 2n + 1 coefficients add up to 2n + 1, with the variance 2(2n + 1).
        let sigma = KAULA / (n * n) as f64;
        let squares = (amplitude / field.radius / sigma).powi(2);
        let terms = (2 * n + 1) as f64;
        assert!((squares - terms).abs() < 5.0 * (2.0 * terms).sqrt(), "degree {n}: {squares} of {terms}");
        total += squares;
        count += terms;
    }
    assert!((total - count).abs() < 3.0 * (2.0f64 * count).sqrt(), "{total} of {count}");
}

#[test]
fn the_low_degrees_are_the_normal_fields() {
    let field = sample(4, 3).unwrap();
    assert_eq!((field.gm, field.radius), (GRS80.gm, GRS80.a));
    assert_eq!((field.c(0, 0), field.s(0, 0)), (1.0, 0.0));
    assert_eq!((field.c(1, 0), field.c(1, 1), field.s(1, 1)), (0.0, 0.0, 0.0));
    assert!((field.c(2, 0) + GRS80.j2() / 5f64.sqrt()).abs() < 6.0 * KAULA / 4.0);
    assert!((0..=4).all(|n| field.s(n, 0) == 0.0));
}

#[test]
fn a_seed_says_every_bit() {
    let bytes = |degree, seed| model_file::write(&sample(degree, seed).unwrap()).unwrap();
    assert_eq!(bytes(12, 9), bytes(12, 9));
    assert_ne!(bytes(12, 9), bytes(12, 8));
    let checksum = geoid::png::crc32(&bytes(96, 1));
    assert_eq!(checksum, 0x66b7_6190, "the sample of degree 96 and seed 1 has changed: {checksum:#x}");
}

#[test]
fn a_lower_degree_is_the_front_of_a_higher_one() {
    assert_eq!(sample(40, 2).unwrap().truncated(12), sample(12, 2).unwrap());
}
