//! What a program that was written against the published crate relies on.

use geopotential::linalg::{householder_ql, symmetric_eigen};
use geopotential::slepian::{RegionSlepian, Slepian, basin_average, cap, concentration_matrix, polar_cap, region};
use geopotential::{Coefficients, Functional, Legendre, Partials, TideSystem, gauss_grid, gauss_legendre};

/// Numbers of the size that a gravity model has.
fn field(nmax: usize) -> Coefficients {
    let mut field = Coefficients::zeros(3.986004415e14, 6378136.3, nmax);
    for n in 0..=nmax {
        for m in 0..=n {
            let k = (n * (n + 1) / 2 + m) as f64;
            field.set(n, m, (k + 0.7).sin() / (k + 1.0), if m == 0 { 0.0 } else { (k + 0.1).cos() / (k + 1.0) });
        }
    }
    field
}

#[test]
fn cuts_above_the_degree_keep_the_field() {
    let mut field = field(5);
    field.tide_system = TideSystem::ZeroTide;
    for cut in [5, 6, 2700, 2701, usize::MAX] {
        assert_eq!(field.truncated(cut), field);
    }
    let cut = field.truncated(2);
    assert_eq!((cut.max_degree(), cut.tide_system), (2, TideSystem::ZeroTide));
    assert_eq!((cut.c(2, 1), cut.s(2, 2)), (field.c(2, 1), field.s(2, 2)));
}

#[test]
fn rescaling_keeps_the_potential_and_the_tide_system() {
    let mut field = field(4);
    field.tide_system = TideSystem::TideFree;
    let other = field.rescaled(4e14, 6.4e6);
    assert_eq!((other.gm, other.radius, other.tide_system), (4e14, 6.4e6, TideSystem::TideFree));
    let (v, w) = (field.partials(7e6, 0.3, 1.0).v, other.partials(7e6, 0.3, 1.0).v);
    assert!((v / w - 1.0).abs() < 1e-14);
}

#[test]
fn tables_before_and_after_they_are_computed() {
    let mut leg = Legendre::new(2);
    assert_eq!(leg.p(2, 2), 0.0);
    leg.compute_with_derivative(0.25);
    let (dp, mut copy) = (leg.dp(2, 1), leg.clone());
    leg.compute(-1.0);
    assert_eq!(leg.dp(2, 1), dp, "compute leaves the derivatives");
    copy.compute(-1.0);
    assert_eq!(copy.p(2, 1), leg.p(2, 1));
    assert_eq!((leg.max_degree(), leg.p(0, 0)), (2, 1.0));
}

#[test]
fn sizes_of_zero() {
    assert_eq!(gauss_legendre(0), (vec![], vec![]));
    assert_eq!(symmetric_eigen(&[], 0), (vec![], vec![]));
    assert_eq!(householder_ql(&[], 0), (vec![], vec![]));
    let field = field(3);
    assert!(field.grid(&Functional::Potential, 7e6, &[], &[0.0, 1.0]).is_empty());
    assert!(field.grid(&Functional::Potential, 7e6, &[0.5], &[]).is_empty());
    assert!(field.partials_along(&[]).is_empty() && field.second_partials_along(&[]).is_empty());
    assert_eq!(polar_cap(0, 1.0).len(), 1);
    let (lats, lons) = gauss_grid(0);
    assert_eq!((lats, lons.len()), (vec![0.0], 2));
}

#[test]
fn longer_love_lists_are_taken() {
    let field = field(2);
    let love = [0.0, 0.02, -0.3, 7.0, 8.0];
    let (exact, longer) = (Functional::WaterHeight { love: &love[..3] }, Functional::WaterHeight { love: &love });
    assert_eq!(field.degree_amplitudes(&exact), field.degree_amplitudes(&longer));
    assert_eq!(field.grid(&exact, 7e6, &[0.5], &[1.0]), field.grid(&longer, 7e6, &[0.5], &[1.0]));
}

#[test]
fn averages_take_the_lower_degree() {
    let (large, small) = (field(6), field(3));
    let average = |field, kernel| basin_average(field, kernel, &Functional::GeoidHeight, 7e6);
    assert_eq!(average(&large, &small), average(&small, &small));
    assert_eq!(average(&small, &large), average(&small, &small));
}

#[test]
fn analysis_undoes_a_grid() {
    let (field, (lats, lons)) = (field(6), gauss_grid(6));
    let again = |functional: &Functional| {
        let values = field.grid(functional, 7e6, &lats, &lons);
        Coefficients::analysis(functional, 7e6, &values, 6, field.gm, field.radius)
    };
    assert!((again(&Functional::RadialGradient).c(6, 3) - field.c(6, 3)).abs() < 1e-12);
    let anomaly = again(&Functional::GravityAnomaly);
    assert_eq!((anomaly.c(1, 0), anomaly.tide_system), (0.0, TideSystem::Unknown));
}

#[test]
fn caps_come_best_concentrated_first() {
    let cap: Vec<Slepian> = polar_cap(7, 0.6);
    assert_eq!(cap.len(), 36);
    assert!(cap.windows(2).all(|pair| pair[0].concentration >= pair[1].concentration));
    for Slepian { m, coefficients, .. } in &cap {
        assert_eq!(coefficients.len(), 8 - m);
        assert!((coefficients.iter().map(|c| c * c).sum::<f64>() - 1.0).abs() < 1e-13);
    }
}

#[test]
fn regions_come_best_concentrated_first() {
    let (intervals, breaks) = cap(0.0, 0.0, 0.7);
    let functions: Vec<RegionSlepian> = region(6, &intervals, &breaks, 40);
    assert_eq!(functions.len(), 49);
    assert!(functions.windows(2).all(|pair| pair[0].concentration >= pair[1].concentration));
    // A cap about the pole has the concentrations of the polar cap, those of an order above 0 twice.
    let mut twice: Vec<f64> = polar_cap(6, 0.7).iter().flat_map(|f| vec![f.concentration; if f.m == 0 { 1 } else { 2 }]).collect();
    twice.sort_by(|a, b| b.total_cmp(a));
    assert!(functions.iter().zip(&twice).all(|(f, due)| (f.concentration - due).abs() < 1e-7));
    for RegionSlepian { coefficients, .. } in &functions {
        assert_eq!((coefficients.gm, coefficients.radius, coefficients.max_degree(), coefficients.date), (1.0, 1.0, 6, None));
        assert_eq!(coefficients.s(5, 0).to_bits(), 0);
        let energy: f64 = (0..=6)
            .flat_map(|l| (0..=l).map(move |m| (l, m)))
            .map(|(l, m)| coefficients.c(l, m).powi(2) + coefficients.s(l, m).powi(2))
            .sum();
        assert!((energy - 1.0).abs() < 1e-12);
    }
    let matrix = concentration_matrix(6, &intervals, &breaks, 40);
    assert!((0..49 * 49).all(|k| matrix[k].to_bits() == matrix[k % 49 * 49 + k / 49].to_bits()));
}

#[test]
fn an_interval_may_call_the_crate() {
    let field = field(2);
    let inside = move |theta: f64| if field.partials(7e6, 1.5 - theta, 0.0).v > 0.0 { vec![(0.0, 1.0)] } else { vec![] };
    assert_eq!(concentration_matrix(1, &inside, &[0.2, 0.9], 3).len(), 16);
}

#[test]
fn gravity_turns_with_the_earth() {
    let at = Partials { v: 1.0, dr: -9.8, dlat: 0.0, dlon: 0.0 };
    let [north, east, up] = at.gravity_neu(6.4e6, 0.0, 7.292115e-5);
    assert_eq!((north, east, at.acceleration_neu(6.4e6, 0.0)[2]), (0.0, 0.0, -9.8));
    assert!((up + 9.8 - 0.03403).abs() < 1e-5);
}

#[test]
fn calls_of_several_threads_do_not_meet() {
    let field = field(12);
    let (lats, lons) = ([0.1, 0.7, -1.2], [0.0, 2.0, 4.0, 6.0]);
    let alone = field.grid(&Functional::GravityAnomaly, 7e6, &lats, &lons);
    std::thread::scope(|scope| {
        let calls: Vec<_> = (0..4).map(|_| scope.spawn(|| field.grid(&Functional::GravityAnomaly, 7e6, &lats, &lons))).collect();
        calls.into_iter().for_each(|call| assert_eq!(call.join().unwrap(), alone));
    });
}
