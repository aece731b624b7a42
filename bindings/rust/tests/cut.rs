//! Cutting a field at A and then at B is cutting it at the smaller.

use geopotential::{Coefficients, MAX_DEGREE, TideSystem};

/// A field whose numbers all differ but for those of strange bits, which stand among them.
fn field(nmax: usize) -> Coefficients {
    let strange = [f64::NAN, -0.0, 0.0, f64::INFINITY, f64::NEG_INFINITY, 5e-324, f64::MAX];
    let mut field = Coefficients::zeros(3.986004415e14, 6378136.3, nmax);
    for n in 0..=nmax {
        for m in 0..=n {
            let k = n * (n + 1) / 2 + m;
            let c = if k % 3 == 1 { strange[k / 3 % strange.len()] } else { k as f64 + 0.25 };
            field.set(n, m, c, if k % 5 == 2 { strange[k / 5 % strange.len()] } else { -0.5 - k as f64 });
        }
    }
    field
}

/// The head: gm, radius, tide system, date, degree.
fn head(field: &Coefficients) -> (u64, u64, TideSystem, Option<i32>, usize) {
    (field.gm.to_bits(), field.radius.to_bits(), field.tide_system, field.date, field.max_degree())
}

/// The bits of all pairs up to a degree.
fn bits(field: &Coefficients, nmax: usize) -> Vec<[u64; 2]> {
    let places = (0..=nmax).flat_map(|n| (0..=n).map(move |m| (n, m)));
    places.map(|(n, m)| [field.c(n, m), field.s(n, m)].map(f64::to_bits)).collect()
}

/// Holds the cut at `first` and then at `second`, and the cut at the smaller, against the field itself.
fn cut_twice(field: &Coefficients, first: usize, second: usize) {
    let degree = field.max_degree().min(first).min(second);
    let due = (field.gm.to_bits(), field.radius.to_bits(), field.tide_system, field.date, degree);
    for cut in [field.truncated(first).truncated(second), field.truncated(first.min(second))] {
        assert_eq!(head(&cut), due, "at {first}, {second}");
        assert!(bits(&cut, degree) == bits(field, degree), "at {first}, {second}");
        assert!(cut.try_c(degree + 1, 0).is_err() && cut.try_s(degree + 1, 0).is_err());
    }
}

#[test]
fn any_two_cuts() {
    for nmax in [0, 1, 2, 5, 20, 96] {
        let field = field(nmax);
        let cuts = [0, 1, 2, 3, nmax.saturating_sub(1), nmax, nmax + 1, MAX_DEGREE, MAX_DEGREE + 1, 1 << 32, usize::MAX];
        for first in cuts {
            cuts.into_iter().for_each(|second| cut_twice(&field, first, second));
        }
    }
}

#[test]
fn any_head() {
    let mut field = field(4);
    for tide_system in [TideSystem::TideFree, TideSystem::ZeroTide, TideSystem::MeanTide, TideSystem::Unknown] {
        for date in [None, Some(0), Some(8840), Some(i32::MIN), Some(i32::MAX)] {
            for (gm, radius) in [(1.0, 1.0), (-0.0, f64::INFINITY), (f64::NAN, 5e-324)] {
                (field.gm, field.radius, field.tide_system, field.date) = (gm, radius, tide_system, date);
                for (first, second) in [(2, 3), (3, 2), (4, 1), (7, usize::MAX)] {
                    cut_twice(&field, first, second);
                }
            }
        }
    }
}

#[test]
fn from_the_highest_degree() {
    let field = field(MAX_DEGREE);
    cut_twice(&field, MAX_DEGREE - 1, 360);
    cut_twice(&field, 96, usize::MAX);
}
