//! The normal field and the places of the ellipsoid.

use geoid::grid::{GLOBE, Nodes, Surface, evaluate_by};
use geoid::normal::{GRS80, NormalGravity, WGS84};
use geopotential::Functional;

/// Whether two numbers agree to some relative difference.
fn near(x: f64, y: f64, relative: f64) -> bool {
    (x - y).abs() <= relative * y.abs()
}

#[test]
fn zonals_are_the_published_ones() {
    // Moritz (2000), Geodetic Reference System 1980; J2 is its defining constant.
    assert!(near(GRS80.j2(), 1.08263e-3, 1e-11));
    assert!(near(GRS80.zonal(1), 1.08263e-3, 1e-11));
    assert!(near(GRS80.zonal(2), -2.37091222e-6, 2e-9));
    assert!(near(GRS80.zonal(3), 6.08347e-9, 1e-6));
    assert!(near(GRS80.zonal(4), -1.427e-11, 1e-3));
    assert!(near(GRS80.m(), 0.00344978600308, 1e-11));
    assert!(near(GRS80.b(), 6356752.3141, 1e-11));
}

#[test]
fn wgs84_has_its_own_second_zonal() {
    // NIMA TR8350.2: C20 = -0.484166774985e-3 of the normal field.
    let field = WGS84.coefficients(2).unwrap();
    assert!(near(field.c(2, 0), -0.484166774985e-3, 1e-9));
}

#[test]
fn the_ellipsoid_is_a_level_surface() {
    // Moritz (2000): U0 = 62 636 860.850 m²/s², at every latitude.
    let field = GRS80.coefficients(20).unwrap();
    let nodes = Nodes::new(GLOBE, 5.0).unwrap();
    let surface = Surface::Ellipsoid(GRS80);
    let potential = evaluate_by(1, &field, &Functional::Potential, &nodes, surface).unwrap();
    for (row, &degrees) in nodes.latitudes.iter().enumerate() {
        let (latitude, radius) = surface.row(degrees);
        let speed = GRS80.omega * radius * latitude.cos();
        let total = potential[row * nodes.longitudes.len()] + 0.5 * speed * speed;
        assert!((total - 62_636_860.850).abs() < 1e-3, "{degrees}: {total}");
    }
}

#[test]
fn normal_gravity_is_the_published_one() {
    // Moritz (2000): 9.7803267715, 9.8321863685, and 9.806199203 at 45 degrees; more digits by arithmetic of 30 digits.
    let (equator, pole) = GRS80.equator_and_pole();
    assert!(near(equator, 9.780_326_771_534_88, 1e-15) && near(pole, 9.832_186_368_519_57, 1e-15));
    assert!(near(GRS80.surface_gravity(0.0), equator, 1e-15) && near(GRS80.surface_gravity(-std::f64::consts::FRAC_PI_2), pole, 1e-15));
    assert!(near(GRS80.surface_gravity(45f64.to_radians()), 9.806_199_202_522_764, 1e-15));
    // NIMA TR8350.2: 9.7803253359, 9.8321849378.
    let (equator, pole) = WGS84.equator_and_pole();
    assert!(near(equator, 9.7803253359, 1e-11) && near(pole, 9.8321849378, 1e-11));
}

#[test]
fn the_potential_of_the_ellipsoid_is_the_published_one() {
    assert!(near(GRS80.u0(), 62_636_860.850_046_09, 1e-15));
    assert!((WGS84.u0() - 62_636_851.714_6).abs() < 1e-3);
}

#[test]
fn heights_above_the_ellipsoid_are_along_its_normal() {
    let (latitude, radius) = GRS80.geocentric_above(45f64.to_radians(), 1000.0);
    let (below, foot) = GRS80.geocentric(45f64.to_radians());
    let (dp, dz) = (radius * latitude.cos() - foot * below.cos(), radius * latitude.sin() - foot * below.sin());
    assert!((dp.hypot(dz) - 1000.0).abs() < 1e-8 && (dz.atan2(dp) - 45f64.to_radians()).abs() < 1e-11);
}

#[test]
fn geodetic_latitudes_lie_on_the_ellipsoid() {
    for degrees in [-90.0, -45.0, 0.0, 10.0, 45.0, 80.0, 90.0f64] {
        let (latitude, radius) = GRS80.geocentric(degrees.to_radians());
        let (p, z) = (radius * latitude.cos() / GRS80.a, radius * latitude.sin() / GRS80.b());
        assert!(near(p * p + z * z, 1.0, 1e-15));
        assert!(
            (latitude.tan() - (1.0 - GRS80.e2()) * degrees.to_radians().tan()).abs() < 1e-14 * latitude.tan().abs().max(1.0)
                || degrees.abs() == 90.0
        );
    }
    assert_eq!(GRS80.geocentric(0.0), (0.0, GRS80.a));
    assert!(near(GRS80.geocentric(std::f64::consts::FRAC_PI_2).1, GRS80.b(), 1e-15));
    assert!(near(GRS80.geocentric(45f64.to_radians()).0.to_degrees(), 44.807_576_78, 1e-9));
}

#[test]
fn a_normal_field_less_itself_is_nothing() {
    let mut field = GRS80.coefficients(12).unwrap();
    field.set(3, 1, 1e-6, 2e-6);
    let rest = GRS80.taken_from(&field).unwrap();
    for n in 0..=12 {
        for m in 0..=n {
            let expected = if (n, m) == (3, 1) { (1e-6, 2e-6) } else { (0.0, 0.0) };
            assert_eq!((rest.c(n, m), rest.s(n, m)), expected);
        }
    }
}

#[test]
fn the_normal_field_takes_the_fields_gm_and_radius() {
    let field = GRS80.coefficients(8).unwrap().rescaled(3.986004415e14, 6378136.3);
    let rest = GRS80.taken_from(&field).unwrap();
    assert!((0..=8).all(|n| rest.c(n, 0) == 0.0));
    // Another GM leaves its part of degree 0.
    let other = WGS84.taken_from(&field).unwrap();
    assert!(near(other.c(0, 0), (GRS80.gm - WGS84.gm) / 3.986004415e14, 1e-6));
}

#[test]
fn ellipsoids_have_names() {
    assert_eq!(NormalGravity::named("grs80"), Some(GRS80));
    assert_eq!(NormalGravity::named("WGS84"), Some(WGS84));
    assert_eq!(NormalGravity::named("bessel"), None);
}
