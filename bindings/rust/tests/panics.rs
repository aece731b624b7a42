//! The published names panic with the refusal's line, at the caller's place.

use std::panic::{self, AssertUnwindSafe};

use geopotential::linalg::{householder_ql, symmetric_eigen};
use geopotential::slepian::{Nodes, basin_average, basin_kernel, cap, concentration_matrix, polar_cap, polygon, region};
use geopotential::{Coefficients, Functional, Legendre, Refusal, gauss_grid, gauss_legendre};

/// That a call panics with the line of a refusal.
#[track_caller]
fn panics<T>(refusal: Refusal, call: impl FnOnce() -> T) {
    let payload = panic::catch_unwind(AssertUnwindSafe(call)).err().expect("the call is refused");
    assert_eq!(payload.downcast_ref::<String>(), Some(&refusal.to_string()));
}

#[test]
fn sizes() {
    let (field, many) = (Coefficients::zeros(1.0, 1.0, 0), vec![0.0; 65_536]);
    panics(Refusal::Size, || Coefficients::zeros(1.0, 1.0, 2701));
    panics(Refusal::Size, || Legendre::new(2701));
    panics(Refusal::Size, || Legendre::new(2).grow(2701));
    panics(Refusal::Size, || gauss_legendre(2702));
    panics(Refusal::Size, || gauss_grid(2701));
    panics(Refusal::Size, || Functional::GeoidHeight.factor(2701, 1.0, 1.0, 1.0));
    panics(Refusal::Size, || field.grid(&Functional::Potential, 1.0, &many, &[]));
    panics(Refusal::Size, || field.partials_along(&vec![(1.0, 0.0, 0.0); 65_536]));
    panics(Refusal::Size, || field.second_partials_along(&vec![(1.0, 0.0, 0.0); 65_536]));
    panics(Refusal::Size, || Coefficients::analysis(&Functional::Potential, 1.0, &[], 2701, 1.0, 1.0));
    panics(Refusal::Size, || symmetric_eigen(&[], 513));
    panics(Refusal::Size, || householder_ql(&[], 513));
    panics(Refusal::Size, || polar_cap(181, 0.5));
    let (intervals, breaks) = cap(0.5, 0.0, 0.2);
    panics(Refusal::Size, || concentration_matrix(22, &intervals, &breaks, 3));
    panics(Refusal::Size, || region(22, &intervals, &breaks, 3));
    panics(Refusal::Size, || Nodes::new(1, &intervals, &breaks, 2702));
    panics(Refusal::Size, || Nodes::new(2701, &intervals, &breaks, 1));
    panics(Refusal::Size, || basin_kernel(2701, &intervals, &breaks, 1));
    panics(Refusal::Size, || polygon(&[(0.0, 0.0); 4097]));
    // Nodes above degree 21 are for kernels alone.
    let nodes = Nodes::new(22, &intervals, &breaks, 3);
    panics(Refusal::Size, || nodes.concentration_matrix());
    panics(Refusal::Size, || nodes.region());
    panics(Refusal::Size, || nodes.region_with());
    assert_eq!(nodes.basin_kernel().max_degree(), 22);
}

#[test]
fn lengths() {
    panics(Refusal::Length, || Coefficients::analysis(&Functional::Potential, 1.0, &[1.0], 0, 1.0, 1.0));
    panics(Refusal::Length, || symmetric_eigen(&[1.0; 3], 2));
    panics(Refusal::Length, || householder_ql(&[1.0; 5], 2));
    let mut leg = Legendre::new(2);
    panics(Refusal::Length, || leg.dp(0, 0));
    leg.compute_with_derivative(0.5);
    leg.grow(3);
    panics(Refusal::Length, || leg.dp(0, 0));
}

#[test]
fn places() {
    let (mut field, leg) = (Coefficients::zeros(1.0, 1.0, 2), Legendre::new(2));
    panics(Refusal::Place, || field.c(3, 0));
    panics(Refusal::Place, || field.s(1, 2));
    panics(Refusal::Place, || field.set(2, 3, 0.0, 0.0));
    panics(Refusal::Place, || leg.p(0, 1));
}

#[test]
fn love_numbers() {
    let (field, water) = (Coefficients::zeros(1.0, 1.0, 2), Functional::WaterHeight { love: &[0.0; 2] });
    panics(Refusal::Love, || water.factor(2, 1.0, 1.0, 1.0));
    panics(Refusal::Love, || field.degree_amplitudes(&water));
    panics(Refusal::Love, || field.grid(&water, 1.0, &[], &[]));
    panics(Refusal::Love, || basin_average(&field, &field, &water, 1.0));
    panics(Refusal::Love, || Coefficients::analysis(&water, 1.0, &[0.0; 18], 2, 1.0, 1.0));
    assert!(water.factor(1, 1.0, 1.0, 1.0) > 0.0);
}

#[test]
fn a_panic_names_the_callers_place() {
    static PLACE: std::sync::Mutex<String> = std::sync::Mutex::new(String::new());
    let before = panic::take_hook();
    panic::set_hook(Box::new(|info| {
        if let Some(place) = info.location() {
            *PLACE.lock().unwrap() = place.file().to_string();
        }
    }));
    let (field, mut leg) = (Coefficients::zeros(1.0, 1.0, 0), Legendre::new(0));
    let nodes = Nodes::new(22, &|_| vec![], &[], 0);
    let mut places = Vec::new();
    let mut place = |call: &mut dyn FnMut()| {
        assert!(panic::catch_unwind(AssertUnwindSafe(call)).is_err());
        places.push(std::mem::take(&mut *PLACE.lock().unwrap()));
    };
    place(&mut || _ = field.c(1, 0));
    place(&mut || leg.grow(2701));
    place(&mut || _ = polygon(&[(0.0, 0.0); 4097]));
    place(&mut || _ = basin_kernel(2701, &|_| vec![], &[], 0));
    place(&mut || _ = nodes.concentration_matrix());
    place(&mut || _ = nodes.region());
    place(&mut || _ = nodes.region_with());
    panic::set_hook(before);
    assert!(places.iter().all(|place| place.ends_with("panics.rs")), "{places:?}");
}
