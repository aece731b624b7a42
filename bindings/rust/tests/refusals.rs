//! Every refusal that a caller can meet, through the twin that answers it.

use geopotential::linalg::{try_householder_ql, try_householder_ql_with, try_symmetric_eigen, try_symmetric_eigen_with};
use geopotential::slepian::{
    Nodes, cap, region, try_basin_average, try_basin_kernel, try_concentration_matrix, try_polar_cap, try_polar_cap_with, try_polygon,
    try_region, try_region_with,
};
use geopotential::{Coefficients, Functional, Legendre, MAX_DEGREE, Refusal, try_gauss_grid, try_gauss_legendre};

/// Degrees that no call takes; the last two would wrap around.
const BEYOND: [usize; 4] = [MAX_DEGREE + 1, 1 << 32, usize::MAX - 1, usize::MAX];

fn field(nmax: usize) -> Coefficients {
    Coefficients::zeros(8.0, 2.0, nmax)
}

#[test]
fn degrees_above_the_limit() {
    for n in BEYOND {
        assert_eq!(Coefficients::try_zeros(1.0, 1.0, n), Err(Refusal::Size));
        assert_eq!(Legendre::try_new(n).err(), Some(Refusal::Size));
        assert_eq!(Legendre::new(3).try_grow(n), Err(Refusal::Size));
        assert_eq!(Functional::Potential.try_factor(n, 1.0, 1.0, 1.0), Err(Refusal::Size));
        assert_eq!(Coefficients::try_analysis(&Functional::Potential, 1.0, &[], n, 1.0, 1.0), Err(Refusal::Size));
        assert_eq!(try_gauss_grid(n), Err(Refusal::Size));
        assert_eq!(try_polar_cap(n, 1.0), Err(Refusal::Size));
        assert_eq!(try_polar_cap_with(n, 1.0), Err(Refusal::Size));
    }
    assert!(Coefficients::try_zeros(1.0, 1.0, MAX_DEGREE).is_ok());
    assert!(try_gauss_grid(64).is_ok());
}

#[test]
fn regions_above_their_limits() {
    // No interval is asked for where the sizes are refused.
    let unasked = |_: f64| -> Vec<(f64, f64)> { unreachable!("asked for an interval") };
    for lmax in [22, 2700, (1 << 32) + 1, usize::MAX] {
        assert_eq!(try_concentration_matrix(lmax, &unasked, &[0.0, 1.0], 1), Err(Refusal::Size));
        assert_eq!(try_region(lmax, &unasked, &[0.0, 1.0], 1), Err(Refusal::Size));
        assert_eq!(try_region_with(lmax, &unasked, &[0.0, 1.0], 1), Err(Refusal::Size));
    }
    let many: Vec<f64> = (0..=26).map(|k| 0.1 * k as f64).collect();
    for (breaks, nodes) in [(&many[..], 2521), (&many[..2], 2702), (&many[..3], usize::MAX), (&many[..], 1 << 60)] {
        assert_eq!(Nodes::try_new(0, &unasked, breaks, nodes).err(), Some(Refusal::Size), "{nodes}");
        assert_eq!(try_region_with(0, &unasked, breaks, nodes), Err(Refusal::Size), "{nodes}");
        assert_eq!(try_basin_kernel(0, &unasked, breaks, nodes), Err(Refusal::Size), "{nodes}");
    }
    let (intervals, _) = cap(1.3, 0.0, 3.0);
    assert_eq!(Nodes::new(0, &intervals, &many, 2520).len(), 26 * 2520);
    assert!(Nodes::try_new(21, &intervals, &many[..2], 2701).is_ok());
}

#[test]
fn kernels_and_outlines_above_their_limits() {
    let unasked = |_: f64| -> Vec<(f64, f64)> { unreachable!("asked for an interval") };
    for lmax in BEYOND {
        assert_eq!(try_basin_kernel(lmax, &unasked, &[0.0, 1.0], 1), Err(Refusal::Size));
        assert_eq!(Nodes::try_new(lmax, &unasked, &[0.0, 1.0], 1).err(), Some(Refusal::Size));
    }
    assert_eq!(try_polygon(&vec![(0.5, 0.5); 4097]).err(), Some(Refusal::Size));
    assert_eq!(try_polygon(&vec![(0.5, 0.5); 65_536 + 3]).err(), Some(Refusal::Size));
    assert!(try_polygon(&vec![(0.5, 0.5); 4096]).is_ok());
}

#[test]
fn nodes_of_kernels_have_no_matrix() {
    let (intervals, breaks) = cap(1.3, 0.0, 0.4);
    for lmax in [22, 60, MAX_DEGREE] {
        let nodes = Nodes::try_new(lmax, &intervals, &breaks[..2], 1).unwrap();
        assert_eq!(nodes.try_concentration_matrix(), Err(Refusal::Size));
        assert_eq!(nodes.try_region(), Err(Refusal::Size));
        assert_eq!(nodes.try_region_with(), Err(Refusal::Size));
        assert_eq!(nodes.basin_kernel().max_degree(), lmax);
    }
    let nodes = Nodes::new(21, &intervals, &breaks[..2], 1);
    assert_eq!(nodes.try_concentration_matrix().map(|matrix| matrix.len()), Ok(484 * 484));
}

#[test]
fn regions_without_nodes() {
    let nothing = |_: f64| vec![];
    for nodes in [Nodes::new(2, &nothing, &[], 5), Nodes::new(2, &nothing, &[0.3], 5000), Nodes::new(2, &nothing, &[0.3, 0.6], 0)] {
        assert!(nodes.is_empty() && nodes.max_degree() == 2);
        assert_eq!(nodes.concentration_matrix(), [0.0; 81]);
    }
    // Nodes that are skipped alone: the functions are those of the basis, in its order.
    let functions = region(1, &nothing, &[0.3, 0.6], 4);
    let of = |k: usize| {
        (
            functions[k].coefficients.c(0, 0),
            functions[k].coefficients.c(1, 0),
            functions[k].coefficients.c(1, 1),
            functions[k].coefficients.s(1, 1),
        )
    };
    assert_eq!([of(0), of(1), of(2), of(3)], [(1.0, 0.0, 0.0, 0.0), (0.0, 1.0, 0.0, 0.0), (0.0, 0.0, 1.0, 0.0), (0.0, 0.0, 0.0, 1.0)]);
}

#[test]
fn rules_matrices_and_caps_above_their_limits() {
    assert_eq!(try_gauss_legendre(2702), Err(Refusal::Size));
    assert_eq!(try_symmetric_eigen(&[0.0; 513 * 513], 513), Err(Refusal::Size));
    assert_eq!(try_householder_ql(&[], usize::MAX), Err(Refusal::Size));
    assert_eq!(try_polar_cap(181, 1.0), Err(Refusal::Size));
    assert_eq!(try_symmetric_eigen_with(&[0.0; 513 * 513], 513), Err(Refusal::Size));
    assert_eq!(try_householder_ql_with(&[], usize::MAX), Err(Refusal::Size));
    assert_eq!(try_polar_cap_with(181, 1.0), Err(Refusal::Size));
}

#[test]
fn rows_longitudes_and_points_above_65535() {
    let (field, many) = (field(1), vec![0.25; 65_536]);
    let grid = |lats: &[f64], lons: &[f64]| field.try_grid(&Functional::Potential, 2.0, lats, lons).map(|values| values.len());
    assert_eq!(grid(&many, &[]), Err(Refusal::Size));
    assert_eq!(grid(&[], &many), Err(Refusal::Size));
    assert_eq!(grid(&many[1..], &[0.0]), Ok(65_535));
    assert_eq!(grid(&[0.0], &many[1..]), Ok(65_535));
    let points = vec![(2.0, 0.1, 0.2); 65_536];
    assert_eq!(field.try_partials_along(&points), Err(Refusal::Size));
    assert_eq!(field.try_partials_along(&points[1..]).map(|along| along.len()), Ok(65_535));
    assert_eq!(field.try_second_partials_along(&points), Err(Refusal::Size));
    assert_eq!(field.try_second_partials_along(&points[1..]).map(|along| along.len()), Ok(65_535));
}

#[test]
fn lists_of_another_length() {
    let analysis = |values: usize| Coefficients::try_analysis(&Functional::Potential, 1.0, &vec![0.0; values], 2, 1.0, 1.0);
    assert_eq!(analysis(17), Err(Refusal::Length));
    assert!(analysis(18).is_ok());
    assert_eq!(analysis(19), Err(Refusal::Length));
    for solver in [try_symmetric_eigen, try_householder_ql] {
        assert_eq!(solver(&[1.0; 3], 2), Err(Refusal::Length));
        assert_eq!(solver(&[1.0; 5], 2), Err(Refusal::Length));
        assert_eq!(solver(&[1.0], 0), Err(Refusal::Length));
    }
    for solver in [try_symmetric_eigen_with, try_householder_ql_with] {
        assert_eq!(solver(&[1.0; 3], 2), Err(Refusal::Length));
        assert_eq!(solver(&[1.0; 5], 2), Err(Refusal::Length));
        assert_eq!(solver(&[1.0], 0), Err(Refusal::Length));
    }
}

#[test]
fn entries_outside_their_table() {
    let mut field = field(3);
    let mut leg = Legendre::new(3);
    leg.compute_with_derivative(0.5);
    for (n, m) in [(0, 1), (3, 4), (4, 0), (4, 4), (usize::MAX, 0), (usize::MAX, usize::MAX)] {
        assert_eq!(field.try_c(n, m), Err(Refusal::Place));
        assert_eq!(field.try_s(n, m), Err(Refusal::Place));
        assert_eq!(field.try_set(n, m, 1.0, 1.0), Err(Refusal::Place));
        assert_eq!(leg.try_p(n, m), Err(Refusal::Place));
        assert_eq!(leg.try_dp(n, m), Err(Refusal::Place));
    }
    assert_eq!(field, self::field(3), "a refused call changes nothing");
    assert!(field.try_set(3, 3, 1.0, 1.0).is_ok() && field.try_c(3, 3) == Ok(1.0) && field.try_s(3, 0) == Ok(0.0));
}

#[test]
fn derivatives_that_were_not_computed() {
    let mut leg = Legendre::new(3);
    leg.compute(0.5);
    assert_eq!(leg.try_dp(2, 1), Err(Refusal::Length));
    leg.compute_with_derivative(0.5);
    assert!(leg.try_dp(2, 1).is_ok());
}

#[test]
fn water_heights_want_a_love_number_for_each_degree() {
    let love = [0.0, 0.02, -0.3];
    let water = |count: usize| Functional::WaterHeight { love: &love[..count] };
    let (large, small) = (field(2), field(1));
    let (lats, lons) = try_gauss_grid(2).unwrap();
    let values = vec![1.0; lats.len() * lons.len()];
    for count in 0..=3 {
        let due = if count < 3 { Some(Refusal::Love) } else { None };
        assert_eq!(water(count).try_factor(2, 1.0, 1.0, 1.0).err(), due);
        assert_eq!(large.try_degree_amplitudes(&water(count)).err(), due);
        assert_eq!(large.try_grid(&water(count), 1.0, &lats, &lons).err(), due);
        assert_eq!(large.try_grid(&water(count), 1.0, &[], &[]).err(), due);
        assert_eq!(Coefficients::try_analysis(&water(count), 1.0, &values, 2, 1.0, 1.0).err(), due);
        assert_eq!(try_basin_average(&large, &large, &water(count), 1.0).err(), due);
        // The lower of two degrees counts.
        assert_eq!(try_basin_average(&large, &small, &water(count), 1.0).is_err(), count < 2);
    }
}

#[test]
fn numbers_names_and_lines() {
    let all = [
        (Refusal::Size, 1, "SIZE"),
        (Refusal::Length, 2, "LENGTH"),
        (Refusal::Space, 3, "SPACE"),
        (Refusal::Place, 4, "PLACE"),
        (Refusal::Love, 5, "LOVE"),
        (Refusal::Short, 6, "SHORT"),
        (Refusal::Kind, 7, "KIND"),
        (Refusal::After, 8, "AFTER"),
        (Refusal::Tide, 9, "TIDE"),
        (Refusal::NoFunctional, 255, "NO FUNCTIONAL"),
    ];
    for (refusal, number, name) in all {
        assert_eq!((refusal.number(), refusal.name()), (number, name));
        let line = refusal.to_string();
        assert!(line.starts_with(&format!("refused ({number} {name}): ")) && line.lines().count() == 1);
    }
    let error: Box<dyn std::error::Error> = Refusal::Place.into();
    assert_eq!(error.to_string(), "refused (4 PLACE): an entry outside its table");
}
