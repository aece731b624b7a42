//! Kernels of basins, and the averages that are taken by them.

use core::f64::consts::PI;

use geopotential::slepian::{
    Intervals, Nodes, basin_average, basin_kernel, cap, concentration_matrix, polygon, try_basin_average, try_basin_kernel,
};
use geopotential::{Coefficients, Functional, TideSystem};

/// The places of a table.
fn places(nmax: usize) -> impl Iterator<Item = (usize, usize)> {
    (0..=nmax).flat_map(|n| (0..=n).map(move |m| (n, m)))
}

/// A bit pattern, in which every NaN is one NaN.
fn bits(x: f64) -> u64 {
    if x.is_nan() { f64::NAN.to_bits() } else { x.to_bits() }
}

/// A concave outline of seven vertices, a river's shape.
const RIVER: [(f64, f64); 7] = [(0.1, -0.3), (0.9, -0.5), (0.8, 0.1), (1.4, 0.6), (0.7, 0.4), (0.5, 0.8), (0.3, 0.2)];

/// A basin between two meridians and two parallels (radians).
struct Rectangle {
    west: f64,
    east: f64,
    south: f64,
    north: f64,
}

impl Rectangle {
    const ONE: Rectangle = Rectangle { west: -0.3, east: 0.5, south: 0.2, north: 0.7 };

    fn outline(&self) -> [(f64, f64); 4] {
        let Rectangle { west, east, south, north } = *self;
        [(west, south), (east, south), (east, north), (west, north)]
    }

    fn kernel(&self, lmax: usize, nodes: usize) -> Coefficients {
        let (intervals, breaks) = polygon(&self.outline());
        basin_kernel(lmax, &intervals, &breaks, nodes)
    }

    /// Its share of the sphere.
    fn share(&self) -> f64 {
        (self.east - self.west) * (self.north.sin() - self.south.sin()) / (4.0 * PI)
    }

    /// The mean of P̄n0(sin φ) over it: the integral of Pn is (Pn+1 − Pn−1)/(2n + 1).
    fn zonal(&self, n: usize) -> f64 {
        let (south, north) = (self.south.sin(), self.north.sin());
        let integral = |x: f64| if n == 0 { x } else { (zonal(n + 1, x) - zonal(n - 1, x)) / (2 * n + 1) as f64 };
        ((2 * n + 1) as f64).sqrt() * (integral(north) - integral(south)) / (north - south)
    }
}

/// Pn(x), by Bonnet's recursion.
fn zonal(n: usize, x: f64) -> f64 {
    let (mut now, mut next) = (1.0, x);
    for k in 1..=n {
        let k = k as f64;
        (now, next) = (next, ((2.0 * k + 1.0) * x * next - k * now) / (k + 1.0));
    }
    now
}

#[test]
fn a_kernel_is_the_first_row_of_the_matrix_bit_for_bit() {
    let ((river, breaks), (round, ends)) = (polygon(&RIVER), cap(1.1, 2.0, 0.6));
    // Each by itself: an infinite number would hide what the others add.
    let strange = [(0.5, f64::INFINITY), (f64::NAN, 1.0), (1e308, -1e308), (0.0, 1e308), (-0.0, 0.0), (3.0, 1e-310)];
    for lmax in [0, 1, 2, 3, 7, 12, 21] {
        let of = |intervals: Intervals, breaks: &[f64]| {
            let kernel = basin_kernel(lmax, intervals, breaks, 7);
            let matrix = concentration_matrix(lmax, intervals, breaks, 7);
            for (l, m) in places(lmax) {
                let cosine = l * l + (2 * m).saturating_sub(1);
                assert_eq!(bits(kernel.c(l, m)), bits(matrix[cosine]), "c({l}, {m}) of {lmax}");
                let sine = if m == 0 { 0.0 } else { matrix[cosine + 1] };
                assert_eq!(bits(kernel.s(l, m)), bits(sine), "s({l}, {m}) of {lmax}");
            }
        };
        of(&river, &breaks);
        of(&round, &ends);
        strange.iter().for_each(|&ends| of(&|theta| if theta < 2.0 { vec![ends, (0.3, 0.4)] } else { vec![] }, &[0.1, 0.7, 0.4, 3.0]));
        // Weights that are NaN: all of a kernel is, but its sines at m = 0.
        of(&|_| vec![(0.3, 0.4)], &[0.1, f64::INFINITY]);
    }
}

#[test]
fn its_head_says_nothing_and_its_first_number_is_the_share() {
    let kernel = Rectangle::ONE.kernel(5, 16);
    assert_eq!((kernel.gm, kernel.radius, kernel.tide_system, kernel.date), (1.0, 1.0, TideSystem::Unknown, None));
    assert_eq!(kernel.max_degree(), 5);
    assert!((0..=5).all(|n| kernel.s(n, 0).to_bits() == 0));
    assert!((kernel.c(0, 0) / Rectangle::ONE.share() - 1.0).abs() < 1e-14);
    // A cap of 40° has (1 − cos 40°)/2 of the sphere, wherever it is.
    let (intervals, breaks) = cap(1.2, 0.3, 40f64.to_radians());
    let share = basin_kernel(3, &intervals, &breaks, 40).c(0, 0);
    assert!((share - (1.0 - 40f64.to_radians().cos()) / 2.0).abs() < 1e-12);
}

#[test]
fn averages_of_zonal_fields_over_a_rectangle() {
    let (basin, lmax) = (Rectangle::ONE, 120);
    let kernel = basin.kernel(lmax, 80);
    let (gm, radius) = (3.986004415e14, 6378136.3);
    let love = vec![0.0; lmax + 1];
    let water = Functional::WaterHeight { love: &love };
    let (mut all, mut due) = (Coefficients::zeros(gm, radius, lmax), 0.0);
    for n in 0..=lmax {
        let mut field = Coefficients::zeros(gm, radius, lmax);
        field.set(n, 0, 1e-9, 0.0);
        // The water column of one zonal coefficient, whose mean is that of its Legendre function.
        let height = 1e-9 * water.factor(n, gm, radius, radius);
        let average = basin_average(&field, &kernel, &water, radius);
        assert!((average - height * basin.zonal(n)).abs() < 2e-13 * height, "{n}: {average:e}, {:e}", height * basin.zonal(n));
        let weight = 1.0 / (n * n + 1) as f64;
        all.set(n, 0, 1e-9 * weight, 0.0);
        due += weight * height * basin.zonal(n);
    }
    let average = try_basin_average(&all, &kernel, &water, radius).unwrap();
    assert!((average / due - 1.0).abs() < 1e-12, "{average:e}, {due:e}");
}

#[test]
fn averages_of_a_field_that_goes_round() {
    // P̄11 = √3 cos φ: over a rectangle the integrals of cos² φ and of cos λ and sin λ are elementary.
    let basin @ Rectangle { west, east, south, north } = &Rectangle::ONE;
    let kernel = basin.kernel(1, 20);
    let squared = |lat: f64| (lat + lat.sin() * lat.cos()) / 2.0;
    let size = 3f64.sqrt() * (squared(*north) - squared(*south)) / (4.0 * PI);
    assert!((kernel.c(1, 1) - size * (east.sin() - west.sin())).abs() < 1e-16);
    assert!((kernel.s(1, 1) - size * (west.cos() - east.cos())).abs() < 1e-16);
    let mut field = Coefficients::zeros(1.0, 1.0, 1);
    field.set(1, 1, 2.0, -3.0);
    let due = size * (2.0 * (east.sin() - west.sin()) - 3.0 * (west.cos() - east.cos())) / basin.share();
    assert!((basin_average(&field, &kernel, &Functional::Potential, 1.0) - due).abs() < 1e-13);
}

#[test]
fn an_average_is_the_mean_of_a_grid() {
    // By another way: the values of a field at points inside the outline, each with the cosine of its latitude.
    let lmax = 6;
    let mut field = Coefficients::zeros(1.0, 1.0, lmax);
    places(lmax).for_each(|(n, m)| field.set(n, m, (n as f64 + 0.3).sin(), if m == 0 { 0.0 } else { (m as f64 - 0.2).cos() }));
    let (intervals, breaks) = polygon(&RIVER);
    let average = basin_average(&field, &basin_kernel(lmax, &intervals, &breaks, 30), &Functional::Potential, 1.0);
    let (lats, lons): (Vec<f64>, Vec<f64>) =
        ((0..260).map(|i| -0.5 + 0.005 * (i as f64 + 0.5)).collect(), (0..260).map(|j| 0.1 + 0.005 * (j as f64 + 0.5)).collect());
    let values = field.grid(&Functional::Potential, 1.0, &lats, &lons);
    let (mut sum, mut area) = (0.0, 0.0);
    for (i, &lat) in lats.iter().enumerate() {
        for j in (0..lons.len()).filter(|&j| inside(&RIVER, lons[j], lat)) {
            (sum, area) = (sum + lat.cos() * values[lons.len() * i + j], area + lat.cos());
        }
    }
    assert!((average - sum / area).abs() < 2e-3 * average.abs(), "{average}, {}", sum / area);
}

/// Whether a point lies inside an outline: by the winding of its vertices, each angle taken as it is seen from the point.
fn inside(outline: &[(f64, f64)], lon: f64, lat: f64) -> bool {
    let angle = |k: usize| (outline[k].1 - lat).atan2(outline[k].0 - lon);
    let turn = |k: usize| (angle((k + 1) % outline.len()) - angle(k) + PI).rem_euclid(2.0 * PI) - PI;
    (0..outline.len()).map(turn).sum::<f64>().abs() > PI
}

#[test]
fn kernels_of_a_higher_degree_begin_alike() {
    let (intervals, breaks) = polygon(&RIVER);
    let high = basin_kernel(150, &intervals, &breaks, 9);
    for lmax in [0, 1, 21, 22, 23, 63, 64, 65, 149, 150] {
        assert_eq!(basin_kernel(lmax, &intervals, &breaks, 9), high.truncated(lmax), "{lmax}");
    }
}

#[test]
fn nodes_where_the_region_is_absent_are_skipped() {
    // A vertex without a latitude is a break behind the others: the nodes of its panel have no colatitude, and no weight.
    let mut outline = RIVER.to_vec();
    outline.insert(3, (1.0, f64::NAN));
    let (intervals, breaks) = polygon(&outline);
    assert!(breaks.len() == 8 && breaks[7].is_nan());
    let kernel = basin_kernel(30, &intervals, &breaks, 5);
    assert_eq!(kernel, basin_kernel(30, &intervals, &breaks[..7], 5));
    assert!(kernel.c(0, 0) > 0.0);
}

#[test]
fn kernels_add_up() {
    let Rectangle { west, east, south, north } = Rectangle::ONE;
    let (whole, middle) = (Rectangle::ONE.kernel(40, 40), 0.5 * (west + east));
    let parts =
        [Rectangle { west, east: middle, south, north }, Rectangle { west: middle, east, south, north }].map(|part| part.kernel(40, 40));
    for (n, m) in places(40) {
        assert!((parts[0].c(n, m) + parts[1].c(n, m) - whole.c(n, m)).abs() < 1e-16);
        assert!((parts[0].s(n, m) + parts[1].s(n, m) - whole.s(n, m)).abs() < 1e-16);
    }
}

#[test]
fn kept_nodes_give_the_same_kernel() {
    let (intervals, breaks) = polygon(&RIVER);
    let nodes = Nodes::new(30, &intervals, &breaks, 5);
    let kernel = nodes.basin_kernel();
    assert_eq!(kernel, basin_kernel(30, &intervals, &breaks, 5));
    assert_eq!(kernel, nodes.clone().basin_kernel());
    assert_eq!(kernel, std::thread::scope(|scope| scope.spawn(|| nodes.basin_kernel()).join().unwrap()));
}

#[test]
fn regions_without_nodes_have_a_kernel_of_zeros() {
    let nothing = |_: f64| vec![];
    for (breaks, nodes) in [(&[][..], 5), (&[0.3], 5000), (&[0.3, 0.6], 0), (&[0.3, 0.6], 4)] {
        let kernel = basin_kernel(25, &nothing, breaks, nodes);
        assert!(places(25).all(|(n, m)| (kernel.c(n, m).to_bits(), kernel.s(n, m).to_bits()) == (0, 0)));
    }
}

#[test]
fn the_highest_degree() {
    let basin = Rectangle::ONE;
    let (intervals, breaks) = polygon(&basin.outline());
    let kernel = try_basin_kernel(2700, &intervals, &breaks, 2).unwrap();
    assert_eq!(kernel.max_degree(), 2700);
    assert_eq!(kernel.truncated(40), basin_kernel(40, &intervals, &breaks, 2));
    assert!(kernel.c(2700, 1) != 0.0 && kernel.c(2700, 1).is_finite());
}
