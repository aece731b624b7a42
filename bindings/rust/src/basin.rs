//! Basins: outlines that are drawn, and the kernels that average a field over a region.

use crate::Coefficients;
use crate::calls::{basins, lengths};
use crate::nodes::{Intervals, Nodes};
use crate::refusal::{Refusal, or_panic};
use crate::workspace;

/// The longitude intervals of a polygon with `vertices` `(λ, φ)` (longitude and latitude,
/// radians), its edges straight in `(λ, φ)` as in Simons' `dphregion`, and the breaks at its
/// vertices' colatitudes. A vertical crossing of the polygon at a colatitude pairs the edges it
/// cuts from west to east, so the polygon may be concave; it must not cross the dateline or
/// hold a pole.
///
/// An edge is cut where the product of its two ends' differences from the colatitude, rounded, is below zero, so a vertex that lies
/// on it adds nothing. Cuts rise, every NaN last, and of an odd number the last is dropped; the two ends of an interval may be equal.
/// Breaks rise likewise; of equal ones the first is kept, so every NaN is. That an outline keeps clear of the dateline and the poles is
/// not checked: any numbers are answered.
///
/// ```
/// use geopotential::slepian::polygon;
///
/// // A square with a notch from the north, drawn without its first vertex again at the end.
/// let outline = [(0.0, 0.0), (1.0, 0.0), (1.0, 1.0), (0.5, 0.25), (0.0, 1.0)];
/// let (intervals, breaks) = polygon(&outline);
/// let colatitude = |lat: f64| core::f64::consts::FRAC_PI_2 - lat;
/// assert_eq!(breaks, [1.0, 0.25, 0.0].map(colatitude));
/// assert_eq!(intervals(colatitude(0.125)), [(0.0, 1.0)]);
/// // North of the notch's tip it is there twice.
/// let [west, east] = intervals(colatitude(0.625))[..] else { panic!() };
/// assert!((west.1 - 0.25).abs() < 1e-15 && (east.0 - 0.75).abs() < 1e-15);
/// assert_eq!(intervals(colatitude(1.5)), []);
/// ```
///
/// # Panics
/// If there are more than 4,096 vertices.
#[track_caller]
pub fn polygon(vertices: &[(f64, f64)]) -> (impl Fn(f64) -> Vec<(f64, f64)> + use<>, Vec<f64>) {
    or_panic(try_polygon(vertices))
}

/// [`polygon`], refused instead of a panic.
#[expect(clippy::type_complexity, reason = "an alias can't hold the closure's type")]
pub fn try_polygon(vertices: &[(f64, f64)]) -> Result<(impl Fn(f64) -> Vec<(f64, f64)> + use<>, Vec<f64>), Refusal> {
    let outline = Outline::try_new(vertices)?;
    let breaks = outline.breaks()?;
    // Not refused: the lists have the lengths that are told for these vertices, which are enough at every colatitude.
    Ok((move |theta| or_panic(outline.intervals(theta)), breaks))
}

/// An outline as the library is lent it.
struct Outline {
    vertices: usize,
    /// Longitude and latitude of each vertex, end to end.
    numbers: Vec<f64>,
}

impl Outline {
    fn try_new(vertices: &[(f64, f64)]) -> Result<Self, Refusal> {
        let [outline, ..] = lengths::polygon_breaks(vertices.len())?;
        let mut numbers = Vec::with_capacity(outline);
        numbers.extend(vertices.iter().flat_map(|&(lon, lat)| [lon, lat]));
        Ok(Outline { vertices: vertices.len(), numbers })
    }

    fn intervals(&self, theta: f64) -> Result<Vec<(f64, f64)>, Refusal> {
        let [_, work, out] = lengths::polygon_intervals(self.vertices)?;
        workspace::lend(|lists| {
            let (work, out) = (lists.work.front(work), lists.numbers.front(out));
            let count = basins::polygon_intervals(self.vertices, &self.numbers, theta, work, out)?;
            Ok(out.as_chunks().0[..count].iter().map(|&[west, east]| (west, east)).collect())
        })
    }

    fn breaks(&self) -> Result<Vec<f64>, Refusal> {
        let [_, work, out] = lengths::polygon_breaks(self.vertices)?;
        let mut breaks = vec![0.0; out];
        let count = workspace::lend(|lists| basins::polygon_breaks(self.vertices, &self.numbers, lists.work.front(work), &mut breaks))?;
        breaks.truncate(count);
        Ok(breaks)
    }
}

/// The basin kernel `ϑ̂_lm = (1/4π)∫_R P̄lm {cos, sin}mλ dΩ` of a region to degree `lmax`, as
/// coefficients with unit `GM` and radius: the first row of its
/// [`concentration_matrix`](crate::slepian::concentration_matrix), at a
/// cost of `n` per node instead of `n²`. `ϑ̂_00` is the fractional area. Swenson & Wahr's
/// (2002) `ϑ^c_lm` is `4πϑ̂` and their `Ω_region` is `4πϑ̂_00`.
///
/// A region whose matrix is refused, above degree 21, has its kernel all the same. What it is for is
/// [`basin_average`](crate::slepian::basin_average):
///
/// ```
/// use geopotential::slepian::{basin_average, basin_kernel, polygon};
/// use geopotential::{Coefficients, Functional};
///
/// // A basin from 10°W to 20°E and from the equator to 30°N, a 48th of the sphere.
/// let outline = [(-10.0, 0.0), (20.0, 0.0), (20.0, 30.0), (-10.0, 30.0)].map(|(lon, lat): (f64, f64)| (lon.to_radians(), lat.to_radians()));
/// let (intervals, breaks) = polygon(&outline);
/// let kernel = basin_kernel(60, &intervals, &breaks, 40);
/// assert!((kernel.c(0, 0) - 1.0 / 48.0).abs() < 1e-15);
///
/// // Water that is √3 sin φ times some height: over the basin sin φ is 1/4 on average.
/// let mut field = Coefficients::zeros(3.986004415e14, 6378136.3, 60);
/// field.set(1, 0, 1e-10, 0.0);
/// let (water, r) = (Functional::WaterHeight { love: &[0.0; 61] }, field.radius);
/// let height = 1e-10 * water.factor(1, field.gm, field.radius, r);
/// let average = basin_average(&field, &kernel, &water, r);
/// assert!((average - height * 3f64.sqrt() / 4.0).abs() < 1e-13 * height);
/// ```
///
/// # Panics
/// If `lmax > 2700`, there are more than 65,535 nodes on all panels, or more than 2701 on one.
#[track_caller]
pub fn basin_kernel(lmax: usize, intervals: Intervals, breaks: &[f64], nodes: usize) -> Coefficients {
    or_panic(try_basin_kernel(lmax, intervals, breaks, nodes))
}

/// [`basin_kernel`], refused instead of a panic; no interval is asked for then.
pub fn try_basin_kernel(lmax: usize, intervals: Intervals, breaks: &[f64], nodes: usize) -> Result<Coefficients, Refusal> {
    Nodes::try_new(lmax, intervals, breaks, nodes)?.kernel()
}

impl Nodes {
    /// The region's basin kernel, as [`basin_kernel`] answers it. It is the first row of the matrix bit for bit (the bits of a NaN are
    /// free), where there is a matrix.
    ///
    /// ```
    /// use geopotential::slepian::{Nodes, polygon};
    ///
    /// let (intervals, breaks) = polygon(&[(0.1, 0.2), (0.9, 0.3), (0.4, 0.7)]);
    /// let nodes = Nodes::new(3, &intervals, &breaks, 12);
    /// let (kernel, matrix) = (nodes.basin_kernel(), nodes.concentration_matrix());
    /// // (l, m) has its cosine at place l² + 2m − 1 and its sine behind it; at m = 0 there is a cosine alone, at l².
    /// assert_eq!([kernel.c(0, 0), kernel.c(3, 0), kernel.c(3, 2), kernel.s(3, 2)], [matrix[0], matrix[9], matrix[12], matrix[13]]);
    /// ```
    pub fn basin_kernel(&self) -> Coefficients {
        or_panic(self.kernel())
    }

    /// Not refused: nodes of a size that is have not been made.
    fn kernel(&self) -> Result<Coefficients, Refusal> {
        let [.., work, c, s] = lengths::basin_kernel(self.lmax, self.len())?;
        let mut kernel = Coefficients::with_lists(1.0, 1.0, self.lmax, c, s);
        workspace::lend(|lists| basins::basin_kernel(self, lists.work.front(work), &mut kernel))?;
        Ok(kernel)
    }
}
