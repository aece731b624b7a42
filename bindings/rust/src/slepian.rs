//! Slepian functions: the bandlimited functions on the sphere best concentrated inside a region
//! (Simons, Dahlen & Wieczorek, SIAM Rev. 48, 504, 2006). They are the basis for averaging a
//! gravity field over a basin, or a magnetic field over a region, with the least leakage from
//! outside it.
//!
//! A function `g = Σ c_lm P̄lm(cos θ){cos, sin}mλ` to degree `L` puts the fraction
//! `λ = cᵀDc / cᵀc` of its energy inside a region `R`, where
//! `D = (1/4π)∫_R P̄lm P̄l′m′ T_m T_m′ dΩ` is the region's concentration matrix. Its eigenvectors
//! are the Slepian functions, and its eigenvalues sum to the Shannon number `(L + 1)²A/4π`,
//! about how many of them are well concentrated. For a [`polar_cap`] the matrix is one block
//! per order and Grünbaum's commuting matrix gives clean eigenvectors; any other [`region`] is
//! integrated the way Simons' `kernelc` does it, exactly in longitude and by Gauss–Legendre in
//! colatitude, here with the nodes clustered at the region's vertex colatitudes. The region's
//! first row of `D` is its [`basin_kernel`], which averages a field over it (Swenson & Wahr
//! 2002, Eqs. 17–18).
//!
//! ```
//! use geopotential::slepian::polar_cap;
//!
//! // A 40° cap at degree 18: 42.2 functions' worth, and the best is concentrated to 1 − 10⁻⁷.
//! let cap = polar_cap(18, 40f64.to_radians());
//! let shannon: f64 = cap.iter().map(|s| if s.m == 0 { 1.0 } else { 2.0 } * s.concentration).sum();
//! assert!((shannon - 19.0 * 19.0 * (1.0 - 40f64.to_radians().cos()) / 2.0).abs() < 1e-12);
//! assert!(cap[0].concentration > 1.0 - 1e-7);
//! ```

use core::f64::consts::{PI, TAU};

pub use crate::basin::{basin_kernel, polygon, try_basin_kernel, try_polygon};
use crate::calls::matrices::{Ranked, RankedTables};
use crate::calls::{fields, lengths, matrices};
use crate::linalg::Convergence;
pub use crate::nodes::{Intervals, Nodes};
use crate::refusal::{Refusal, or_panic};
use crate::trigonometry::put_latitudes;
use crate::workspace;
use crate::{Coefficients, Functional};

/// One Slepian function of a polar cap.
#[derive(Clone, Debug, PartialEq)]
pub struct Slepian {
    /// Its order. An order above 0 stands for two functions, with `cos mλ` and `sin mλ`, which
    /// share the coefficients and the concentration.
    pub m: usize,
    /// The fraction of its energy inside the cap, meant to be between 0 and 1.
    pub concentration: f64,
    /// Its coefficients of `P̄lm(cos θ)` (4π-normalized), for `l = m ..= L`, meant to be of unit norm.
    pub coefficients: Vec<f64>,
}

/// The Slepian functions to degree `lmax` of the cap within colatitude `theta` (radians) of the
/// pole, best concentrated first.
///
/// The concentration matrices are meant to be exact but for rounding: `P̄lm P̄l′m` is a polynomial
/// of degree `l + l′ ≤ 2L` in `cos θ`, for which `L + 1` Gauss–Legendre points over the cap are
/// enough. Their eigenvalues cluster at 1 and 0, so their eigenvectors are poorly determined. The
/// vectors come instead from Grünbaum's tridiagonal matrix, which commutes with the concentration
/// matrix and has a simple spectrum (Simons et al. 2006, "Commuting tridiagonal matrix"), and the
/// concentrations are the Rayleigh quotients `cᵀDc`.
///
/// # Panics
/// If `lmax > 180`.
#[track_caller]
pub fn polar_cap(lmax: usize, theta: f64) -> Vec<Slepian> {
    or_panic(try_polar_cap(lmax, theta))
}

/// [`polar_cap`], refused instead of a panic.
pub fn try_polar_cap(lmax: usize, theta: f64) -> Result<Vec<Slepian>, Refusal> {
    solve_cap(lmax, theta, |functions, _| functions)
}

/// [`try_polar_cap`], with how [`symmetric_eigen`](crate::linalg::symmetric_eigen) ended for the matrix of each order `m = 0 ..=
/// lmax`, which has `lmax − m + 1` rows: by rising order, not by rank. An order that did not settle has its functions too.
///
/// ```
/// use geopotential::slepian::try_polar_cap_with;
///
/// let (functions, orders) = try_polar_cap_with(18, 40f64.to_radians())?;
/// assert_eq!((functions.len(), orders.len()), (190, 19));
/// assert!(orders.iter().all(|order| order.settled) && orders[0].count == 7);
/// # Ok::<(), geopotential::Refusal>(())
/// ```
pub fn try_polar_cap_with(lmax: usize, theta: f64) -> Result<(Vec<Slepian>, Vec<Convergence>), Refusal> {
    solve_cap(lmax, theta, |functions, settled| {
        let convergence = |&[settled, count]: &[f64; 2]| Convergence { settled: settled == 1.0, count: count as usize };
        (functions, settled.as_chunks().0.iter().map(convergence).collect())
    })
}

/// A cap's functions and the list that tells how each order's solver ended, as `answer` puts them together: the plain call makes no
/// list of it.
fn solve_cap<T>(lmax: usize, theta: f64, answer: impl FnOnce(Vec<Slepian>, &[f64]) -> T) -> Result<T, Refusal> {
    let [_, latitudes, work, orders, concentrations, vectors, settled] = lengths::polar_cap(lmax)?;
    workspace::lend(|lists| {
        let (x, weights) = lists.gauss.rule(lmax + 1)?;
        let (latitudes, work) = (lists.latitudes.front(latitudes), lists.work.front(work));
        // The nodes map to [cos Θ, 1].
        let x0 = theta.cos();
        put_latitudes(latitudes, x.iter().map(|xi| (x0 + (1.0 - x0) * (xi + 1.0) / 2.0).asin()));
        let mut ranked = Ranked {
            orders: lists.orders.front(orders),
            concentrations: lists.concentrations.front(concentrations),
            vectors: lists.numbers.front(vectors),
        };
        let settled = lists.settled.front(settled);
        matrices::polar_cap(lmax, x0, weights, latitudes, work, &mut ranked, settled)?;
        Ok(answer(functions(lmax, &ranked), settled))
    })
}

/// A cap's functions, each with its own part of the vectors that stand end to end.
fn functions(lmax: usize, Ranked { orders, concentrations, vectors }: &Ranked) -> Vec<Slepian> {
    let mut rest: &[f64] = vectors;
    orders
        .iter()
        .zip(concentrations.iter())
        .map(|(&order, &concentration)| {
            let m = order as usize;
            let (coefficients, behind) = rest.split_at(lmax - m + 1);
            rest = behind;
            Slepian { m, concentration, coefficients: coefficients.to_vec() }
        })
        .collect()
}

/// One Slepian function of any region: its concentration and its coefficients, meant to be a unit vector
/// in the crate's normalization (`(1/4π)∫g² dΩ = 1`), held as a field with unit `GM` and radius
/// so that it can be synthesized and compared with any [`Coefficients`] by their dot product.
#[derive(Clone, Debug, PartialEq)]
pub struct RegionSlepian {
    /// The fraction of its energy inside the region, meant to be between 0 and 1.
    pub concentration: f64,
    /// Its coefficients `C̄lm`, `S̄lm` to the degree the region was built for.
    pub coefficients: Coefficients,
}

/// The concentration matrix `D` of a region to degree `lmax`, row-major over the basis `(l, m,
/// cos)`, `(l, m, sin)` for `l ≤ L`, `m ≤ l` (the sine for `m > 0` only), `l` outermost:
/// `D_ij = (1/4π)∫_R P̄_i P̄_j T_i T_j dΩ`, integrated exactly in longitude and with `nodes`
/// clustered Gauss–Legendre points in colatitude on each panel between consecutive `breaks`,
/// which should include every colatitude where the region's outline has a vertex or an extremum
/// (Simons' `kernelc`, with the panels added). Its trace is meant to be the Shannon number `(L + 1)²A/4π` and
/// its first entry the fractional area `A/4π`. It is symmetric bit for bit (the bits of a NaN are free).
///
/// ```
/// use geopotential::slepian::{cap, concentration_matrix};
///
/// let (intervals, breaks) = cap(1.2, 0.3, 0.5);
/// let matrix = concentration_matrix(4, &intervals, &breaks, 30);
/// let (area, shannon) = (matrix[0], (0..25).map(|i| matrix[26 * i]).sum::<f64>());
/// assert!((area - (1.0 - 0.5f64.cos()) / 2.0).abs() < 1e-12);
/// assert!((shannon - 25.0 * area).abs() < 1e-12);
/// ```
///
/// # Panics
/// If `lmax > 21`, there are more than 65,535 nodes on all panels, or more than 2701 on one.
#[track_caller]
pub fn concentration_matrix(lmax: usize, intervals: Intervals, breaks: &[f64], nodes: usize) -> Vec<f64> {
    or_panic(try_concentration_matrix(lmax, intervals, breaks, nodes))
}

/// [`concentration_matrix`], refused instead of a panic.
pub fn try_concentration_matrix(lmax: usize, intervals: Intervals, breaks: &[f64], nodes: usize) -> Result<Vec<f64>, Refusal> {
    within_regions(lmax)?;
    Nodes::try_new(lmax, intervals, breaks, nodes)?.try_concentration_matrix()
}

/// The Slepian functions to degree `lmax` of a region ([`concentration_matrix`] has the
/// arguments), best concentrated first. Their eigenvalues cluster at 1 and 0, so vectors within
/// a cluster are determined only up to rotations among themselves; the sum of the top `N`
/// functions' projections, which is what a regional estimate uses, is not affected.
///
/// ```
/// use geopotential::slepian::{cap, region};
///
/// // A cap of 40° about a point off the pole, at degree 6: 5.7 functions' worth of 49.
/// let (intervals, breaks) = cap(1.2, 0.3, 40f64.to_radians());
/// let functions = region(6, &intervals, &breaks, 30);
/// assert_eq!(functions.len(), 49);
/// assert!(functions[0].concentration > 0.97 && functions[48].concentration.abs() < 1e-9);
/// ```
///
/// # Panics
/// If `lmax > 21`, there are more than 65,535 nodes on all panels, or more than 2701 on one.
#[track_caller]
pub fn region(lmax: usize, intervals: Intervals, breaks: &[f64], nodes: usize) -> Vec<RegionSlepian> {
    or_panic(try_region(lmax, intervals, breaks, nodes))
}

/// [`region`], refused instead of a panic.
pub fn try_region(lmax: usize, intervals: Intervals, breaks: &[f64], nodes: usize) -> Result<Vec<RegionSlepian>, Refusal> {
    try_region_with(lmax, intervals, breaks, nodes).map(|(functions, _)| functions)
}

/// [`try_region`], with how [`symmetric_eigen`](crate::linalg::symmetric_eigen) ended for the region's one matrix, of `(lmax + 1)²`
/// rows. From `lmax = 10` on, not settled is ordinary, and no error: the eigenvalues that cluster at 0 keep the test from passing.
///
/// ```
/// use geopotential::slepian::{cap, try_region_with};
///
/// let (intervals, breaks) = cap(1.2, 0.3, 40f64.to_radians());
/// let (functions, end) = try_region_with(4, &intervals, &breaks, 30)?;
/// assert!(functions.len() == 25 && end.settled && end.count < 100);
/// # Ok::<(), geopotential::Refusal>(())
/// ```
pub fn try_region_with(
    lmax: usize,
    intervals: Intervals,
    breaks: &[f64],
    nodes: usize,
) -> Result<(Vec<RegionSlepian>, Convergence), Refusal> {
    within_regions(lmax)?;
    Nodes::try_new(lmax, intervals, breaks, nodes)?.try_region_with()
}

/// Refuses a degree above those of regions before an interval is asked for: nodes are made for the kernels' degrees too.
fn within_regions(lmax: usize) -> Result<(), Refusal> {
    lengths::region(lmax, 0).map(|_| ())
}

impl Nodes {
    /// The region's concentration matrix, as [`concentration_matrix`] answers it.
    ///
    /// # Panics
    /// If the nodes are for a degree above 21 (also for [`region`](Self::region) and [`region_with`](Self::region_with)).
    #[track_caller]
    pub fn concentration_matrix(&self) -> Vec<f64> {
        or_panic(self.try_concentration_matrix())
    }

    /// [`concentration_matrix`](Self::concentration_matrix), refused instead of a panic.
    pub fn try_concentration_matrix(&self) -> Result<Vec<f64>, Refusal> {
        let [.., work, matrix] = lengths::concentration_matrix(self.lmax, self.len())?;
        let mut out = vec![0.0; matrix];
        workspace::lend(|lists| matrices::concentration_matrix(self, lists.work.front(work), &mut out))?;
        Ok(out)
    }

    /// The region's Slepian functions, as [`region`] answers them.
    #[track_caller]
    pub fn region(&self) -> Vec<RegionSlepian> {
        or_panic(self.try_region())
    }

    /// [`region`](Self::region), refused instead of a panic.
    pub fn try_region(&self) -> Result<Vec<RegionSlepian>, Refusal> {
        self.try_region_with().map(|(functions, _)| functions)
    }

    /// The same with how the solver ended, as [`try_region_with`] answers them.
    #[track_caller]
    pub fn region_with(&self) -> (Vec<RegionSlepian>, Convergence) {
        or_panic(self.try_region_with())
    }

    /// [`region_with`](Self::region_with), refused instead of a panic.
    pub fn try_region_with(&self) -> Result<(Vec<RegionSlepian>, Convergence), Refusal> {
        let [.., work, concentrations, cs, ss] = lengths::region(self.lmax, self.len())?;
        workspace::lend(|lists| {
            let mut ranked = RankedTables {
                concentrations: lists.concentrations.front(concentrations),
                cs: lists.numbers.front(cs),
                ss: lists.sines.front(ss),
            };
            let convergence = matrices::region(self, lists.work.front(work), &mut ranked)?;
            Ok((self.functions(&ranked)?, convergence))
        })
    }

    /// The functions, each with its own part of the tables that stand end to end.
    fn functions(&self, RankedTables { concentrations, cs, ss }: &RankedTables) -> Result<Vec<RegionSlepian>, Refusal> {
        let [c, s] = lengths::zeros(self.lmax)?;
        let tables = cs.chunks_exact(c).zip(ss.chunks_exact(s));
        let function = |(&concentration, (cs, ss)): (&f64, (&[f64], &[f64]))| {
            let mut coefficients = Coefficients::with_lists(1.0, 1.0, self.lmax, c, s);
            coefficients.c.copy_from_slice(cs);
            coefficients.s.copy_from_slice(ss);
            RegionSlepian { concentration, coefficients }
        };
        Ok(concentrations.iter().zip(tables).map(function).collect())
    }
}

/// The longitude intervals of a spherical cap of angular `radius` centred at colatitude `colat`
/// and longitude `lon` (radians), and the breaks its integration needs: the cap's two colatitude
/// extremes and, when it holds a pole, the colatitude where it stops covering every longitude.
pub fn cap(colat: f64, lon: f64, radius: f64) -> (impl Fn(f64) -> Vec<(f64, f64)> + use<>, Vec<f64>) {
    let intervals = move |theta: f64| {
        let q = (radius.cos() - theta.cos() * colat.cos()) / (theta.sin() * colat.sin()).max(f64::MIN_POSITIVE);
        if q <= -1.0 {
            vec![(0.0, TAU)]
        } else if q >= 1.0 {
            vec![]
        } else {
            let half = q.acos();
            vec![(lon - half, lon + half)]
        }
    };
    let mut breaks = vec![(colat - radius).max(0.0), (colat - radius).abs(), (colat + radius).min(PI), (TAU - colat - radius).min(PI)];
    breaks.sort_by(f64::total_cmp);
    breaks.dedup();
    (intervals, breaks)
}

/// The mean of a `functional` of `field` over the region of `kernel` at radius `r`:
/// `Σ_lm κ_l (C̄_lm ϑ̂^c_lm + S̄_lm ϑ̂^s_lm)/ϑ̂_00`, Swenson & Wahr's (2002) Eq. 17 in the
/// crate's normalization, to the lower of the two degrees. With
/// [`Functional::WaterHeight`] it is the basin's mean water height.
///
/// ```
/// use geopotential::slepian::basin_average;
/// use geopotential::{Coefficients, Functional};
///
/// let (mut field, mut kernel) = (Coefficients::zeros(8.0, 1.0, 2), Coefficients::zeros(1.0, 1.0, 1));
/// field.set(0, 0, 3.0, 0.0);
/// field.set(1, 1, 2.0, 4.0);
/// kernel.set(0, 0, 0.5, 0.0);
/// kernel.set(1, 1, 0.25, 0.125);
/// assert_eq!(basin_average(&field, &kernel, &Functional::GeoidHeight, 1.0), 5.0);
/// ```
///
/// # Panics
/// For [`Functional::WaterHeight`], if `love` has no entry for a degree of both fields.
#[track_caller]
pub fn basin_average(field: &Coefficients, kernel: &Coefficients, functional: &Functional, r: f64) -> f64 {
    or_panic(try_basin_average(field, kernel, functional, r))
}

/// [`basin_average`], refused instead of a panic.
pub fn try_basin_average(field: &Coefficients, kernel: &Coefficients, functional: &Functional, r: f64) -> Result<f64, Refusal> {
    fields::basin_average(field, kernel, functional, r)
}
