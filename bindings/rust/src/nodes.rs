//! The nodes by which a region is integrated: exactly in longitude, by Gauss–Legendre points in colatitude, worked out by the published
//! crate's expressions.

use core::f64::consts::FRAC_PI_2;

use crate::calls::lengths;
use crate::legendre::try_gauss_legendre;
use crate::refusal::{Refusal, or_panic};
use crate::trigonometry::put_latitudes;

/// A region as the longitude intervals it covers at a colatitude: at `θ` (radians) the function
/// returns each `(λ₁, λ₂)` with `λ₁ < λ₂` inside it, and nothing where the region is absent.
/// Longitudes may run beyond `[0, 2π)`: only the differences matter.
pub type Intervals<'a> = &'a dyn Fn(f64) -> Vec<(f64, f64)>;

/// The nodes of a region to a degree, worked out once: [`concentration_matrix`](crate::slepian::concentration_matrix),
/// [`region`](crate::slepian::region) and [`basin_kernel`](crate::slepian::basin_kernel) make them for each call,
/// [`Nodes::concentration_matrix`], [`Nodes::region`] and [`Nodes::basin_kernel`] take these. Degrees above 21 are for kernels alone.
///
/// To degree `L` each has 4L + 5 numbers and a byte.
///
/// ```
/// use geopotential::slepian::{Nodes, cap};
///
/// let (intervals, breaks) = cap(0.8, 1.0, 0.4);
/// let nodes = Nodes::new(3, &intervals, &breaks, 20);
/// let trace: f64 = nodes.concentration_matrix().iter().step_by(17).sum();
/// let concentrations: f64 = nodes.region().iter().map(|f| f.concentration).sum();
/// assert!((trace - concentrations).abs() < 1e-13);
/// ```
#[derive(Clone, Debug)]
pub struct Nodes {
    pub(crate) lmax: usize,
    pub(crate) weights: Vec<f64>,
    /// Sine and cosine of each latitude.
    pub(crate) latitudes: Vec<f64>,
    /// 0 where the region is absent.
    pub(crate) marks: Vec<u8>,
    /// The integrals of `cos fλ` and of `sin fλ`, `f = 0 ..= 2L`, node after node.
    pub(crate) s: Vec<f64>,
    pub(crate) c: Vec<f64>,
}

impl Nodes {
    /// The nodes of a region to degree `lmax`: `nodes` points on each panel between neighbouring `breaks`.
    ///
    /// # Panics
    /// If `lmax > 2700`, there are more than 65,535 nodes, or more than 2701 on a panel.
    #[track_caller]
    pub fn new(lmax: usize, intervals: Intervals, breaks: &[f64], nodes: usize) -> Self {
        or_panic(Self::try_new(lmax, intervals, breaks, nodes))
    }

    /// [`new`](Self::new), refused instead of a panic; no interval is asked for then.
    pub fn try_new(lmax: usize, intervals: Intervals, breaks: &[f64], nodes: usize) -> Result<Self, Refusal> {
        let panels = breaks.len().saturating_sub(1);
        let [weights, latitudes, marks, s, c, ..] = lengths::basin_kernel(lmax, nodes.saturating_mul(panels))?;
        let rule = if panels == 0 { Default::default() } else { try_gauss_legendre(nodes)? };
        let mut out = Nodes {
            lmax,
            weights: vec![0.0; weights],
            latitudes: vec![0.0; latitudes],
            marks: vec![0; marks],
            s: vec![0.0; s],
            c: vec![0.0; c],
        };
        let points = breaks.windows(2).flat_map(|panel| colatitude_rule(panel[0], panel[1], &rule));
        let integrals = 2 * lmax + 1;
        for (place, (theta, weight)) in points.enumerate() {
            let (at, run) = (intervals(theta), place * integrals..(place + 1) * integrals);
            out.weights[place] = weight;
            put_latitudes(&mut out.latitudes[2 * place..2 * place + 2], [FRAC_PI_2 - theta].into_iter());
            out.marks[place] = u8::from(!at.is_empty());
            longitude_integrals(&mut out.s[run.clone()], &mut out.c[run], &at);
        }
        Ok(out)
    }

    /// The degree that they are for.
    pub fn max_degree(&self) -> usize {
        self.lmax
    }

    /// How many there are, those where the region is absent too.
    pub fn len(&self) -> usize {
        self.weights.len()
    }

    /// Whether there are none.
    pub fn is_empty(&self) -> bool {
        self.weights.is_empty()
    }
}

/// The nodes and weights of the colatitude integration over `[a, b]`: Gauss–Legendre points in `t ∈ [0, π]` mapped as
/// `θ = a + (b − a)(1 − cos t)/2`, which clusters them at both ends, where a region's width goes like a square root; the
/// weights carry `sin θ`.
fn colatitude_rule(a: f64, b: f64, (x, w): &(Vec<f64>, Vec<f64>)) -> impl Iterator<Item = (f64, f64)> {
    x.iter().zip(w).map(move |(&x, &w)| {
        let t = (x + 1.0) * FRAC_PI_2;
        let theta = a + (b - a) * (1.0 - t.cos()) / 2.0;
        (theta, w * FRAC_PI_2 * (b - a) * t.sin() / 2.0 * theta.sin())
    })
}

/// The integrals of `cos fλ` and `sin fλ` over `intervals`, summed, added to lists of zeros.
fn longitude_integrals(s: &mut [f64], c: &mut [f64], intervals: &[(f64, f64)]) {
    for &(lo, hi) in intervals {
        s[0] += hi - lo;
        for f in 1..s.len() {
            let ff = f as f64;
            s[f] += ((ff * hi).sin() - (ff * lo).sin()) / ff;
            c[f] += ((ff * lo).cos() - (ff * hi).cos()) / ff;
        }
    }
}
