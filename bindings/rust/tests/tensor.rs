//! Second derivatives at points, and the tensor of gravity gradients.

use geopotential::{Coefficients, Partials, SecondPartials};

/// A field of the Earth's size whose coefficients fall as Kaula's rule has it.
fn field(nmax: usize) -> Coefficients {
    let mut field = Coefficients::zeros(3.986004415e14, 6378136.3, nmax);
    field.set(0, 0, 1.0, 0.0);
    for n in 2..=nmax {
        for m in 0..=n {
            let (k, size) = ((n * (n + 1) / 2 + m) as f64, 1e-5 / (n * n) as f64);
            field.set(n, m, size * (k + 0.7).sin(), if m == 0 { 0.0 } else { size * (k + 0.1).cos() });
        }
    }
    field
}

/// Points (r, lat, lon) of an orbit, of both hemispheres.
const ORBIT: [(f64, f64, f64); 5] = [(6.63e6, 0.0, 0.0), (6.7e6, 0.3, 1.0), (6.65e6, -0.9, 4.0), (6.64e6, 1.3, -2.0), (6.38e6, -1.5, 6.0)];

#[test]
fn the_tensor_of_a_point_mass() {
    let mass = field(0);
    for (r, lat, lon) in ORBIT {
        let tensor = mass.second_partials(r, lat, lon).tensor_neu(r, lat);
        let cube = 3.986004415e14 / (r * r * r);
        for (i, row) in tensor.iter().enumerate() {
            for (j, &entry) in row.iter().enumerate() {
                let due = if i == j { [-cube, -cube, 2.0 * cube][i] } else { 0.0 };
                assert!((entry - due).abs() <= 1e-15 * cube, "{i} {j}: {entry:e}, due {due:e}");
            }
        }
    }
}

#[test]
fn the_trace_of_an_ordinary_field_vanishes() {
    let field = field(90);
    for (r, lat, lon) in ORBIT {
        let tensor = field.second_partials(r, lat, lon).tensor_neu(r, lat);
        let [nn, ee, uu] = [0, 1, 2].map(|i| tensor[i][i]);
        assert!((nn + ee + uu).abs() < 1e-13 * uu, "{lat}: {:e} of {uu:e}", nn + ee + uu);
    }
}

#[test]
fn the_tensor_is_symmetric() {
    let at = field(20).second_partials(6.7e6, 0.3, 1.0);
    let strange = [0.0, -0.0, 1.0, -3e-9, f64::INFINITY, f64::NAN, 5e-324, 1e308];
    for (place, &number) in strange.iter().enumerate() {
        let first = Partials { dlat: number, dlon: strange[strange.len() - 1 - place], ..at.first };
        for lat in [0.0, 0.3, -1.2, core::f64::consts::FRAC_PI_2, f64::NAN] {
            let tensor = SecondPartials { first, dlatlon: number, ..at }.tensor_neu(6.7e6, lat);
            for (i, j) in [(0, 1), (0, 2), (1, 2)] {
                let (above, below) = (tensor[i][j], tensor[j][i]);
                assert!(above.to_bits() == below.to_bits() || above.is_nan() && below.is_nan(), "{number} {lat}: {i} {j}");
            }
        }
    }
}

#[test]
fn an_entry_that_is_nan_leaves_the_others() {
    let at = field(20).second_partials(6.7e6, 0.3, 1.0);
    let [whole, without] = [at, SecondPartials { dlonlon: f64::NAN, ..at }].map(|at| at.tensor_neu(6.7e6, 0.3));
    for (i, row) in without.iter().enumerate() {
        for (j, entry) in row.iter().enumerate() {
            assert!(if (i, j) == (1, 1) { entry.is_nan() } else { entry.to_bits() == whole[i][j].to_bits() });
        }
    }
}

#[test]
fn potential_and_latitude_have_the_bits_of_partials() {
    let field = field(40);
    for (r, lat, lon) in ORBIT {
        let (first, partials) = (field.second_partials(r, lat, lon).first, field.partials(r, lat, lon));
        assert_eq!((first.v.to_bits(), first.dlat.to_bits()), (partials.v.to_bits(), partials.dlat.to_bits()));
        // Their sums follow another order.
        assert!((first.dr / partials.dr - 1.0).abs() < 1e-14 && (first.dlon - partials.dlon).abs() < 1e-14 * first.v);
    }
}

#[test]
fn second_derivatives_at_a_pole_are_those_beside_it() {
    let field = field(40);
    for pole in [core::f64::consts::FRAC_PI_2, -core::f64::consts::FRAC_PI_2] {
        let [at, beside] = [pole, pole * (1.0 - 1e-9)].map(|lat| field.second_partials(6.7e6, lat, 1.0));
        assert!((at.dlatlat - beside.dlatlat).abs() < 1e-6 * at.first.v && (at.drlat - beside.drlat).abs() < 1e-6 * at.first.dr.abs());
        assert!(at.dlonlon.abs() < 1e-6 * at.first.v && (at.dlatlon - beside.dlatlon).abs() < 1e-6 * at.first.v);
    }
}

#[test]
fn second_derivatives_are_those_of_the_first() {
    let field = field(12);
    let (metres, radians) = (100.0, 1e-4);
    for (r, lat, lon) in ORBIT {
        let at = field.second_partials(r, lat, lon);
        // What moves by a step in one of the three, over the step.
        let moved = |step: (f64, f64, f64), number: fn(Partials) -> f64| {
            let [behind, before] = [1.0, -1.0].map(|sign| {
                let (dr, dlat, dlon) = step;
                number(field.partials(r + sign * dr, lat + sign * dlat, lon + sign * dlon))
            });
            (behind - before) / (2.0 * (step.0 + step.1 + step.2))
        };
        let (by_r, by_lat, by_lon) = ((metres, 0.0, 0.0), (0.0, radians, 0.0), (0.0, 0.0, radians));
        let cases = [
            (at.drr, moved(by_r, |p| p.dr), at.drr.abs()),
            (at.drlat, moved(by_r, |p| p.dlat), at.first.dr.abs()),
            (at.drlon, moved(by_r, |p| p.dlon), at.first.dr.abs()),
            (at.dlatlat, moved(by_lat, |p| p.dlat), at.first.v),
            (at.dlatlon, moved(by_lat, |p| p.dlon), at.first.v),
            (at.dlonlon, moved(by_lon, |p| p.dlon), at.first.v),
        ];
        for (place, (exact, difference, size)) in cases.into_iter().enumerate() {
            assert!((exact - difference).abs() < 1e-8 * size, "{place} at {lat}: {exact:e}, {difference:e}");
        }
    }
}
