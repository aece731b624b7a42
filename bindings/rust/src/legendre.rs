//! Fully normalized associated Legendre functions `P̄nm(sin φ)` (4π normalization, no
//! Condon–Shortley phase) and their latitude derivatives, up to degree 2700.
//!
//! This is the modified forward column recursion of Holmes & Featherstone (2002, J. Geodesy 76,
//! 279–299). The recursion runs on `P̄nm / cos^m φ`, scaled by 1e-280 against overflow, and
//! `cos^m φ` is applied last, the way SHTOOLS' `PlmBar` does it. What underflows in that last step
//! is taken to be negligible.

use crate::calls::tables::Recursion;
use crate::calls::{lengths, tables};
use crate::refusal::{Refusal, or_panic};
use crate::workspace::{self, List};

/// Highest degree that is taken: above it the scaled `P̄nm / cos^m φ` can overflow near the poles
/// (Holmes & Featherstone 2002).
pub const MAX_DEGREE: usize = 2700;

/// A reusable table of `P̄nm` (and optionally `∂P̄nm/∂φ`) for all `0 ≤ m ≤ n ≤ nmax` at one
/// latitude. The recursion coefficients are computed once in [`Legendre::new`], those of degrees that
/// are added later in [`Legendre::grow`].
///
/// ```
/// use geopotential::Legendre;
///
/// let mut leg = Legendre::new(2);
/// leg.compute(0.3);
/// let t = 0.3f64.sin();
/// assert!((leg.p(2, 0) - 5f64.sqrt() / 2.0 * (3.0 * t * t - 1.0)).abs() < 1e-15);
/// ```
#[derive(Clone, Debug)]
pub struct Legendre {
    nmax: usize,
    a: Vec<f64>,
    b: Vec<f64>,
    p: Vec<f64>,
    dp: Vec<f64>,
    /// Whether `p` holds the numbers of a latitude; else it holds zeros, and `dp` is empty.
    computed: bool,
}

impl Legendre {
    /// Prepare a table up to degree `nmax`.
    ///
    /// # Panics
    /// If `nmax > MAX_DEGREE`: the recursion could overflow near the poles and return NaN.
    #[track_caller]
    pub fn new(nmax: usize) -> Self {
        or_panic(Self::try_new(nmax))
    }

    /// [`new`](Self::new), refused instead of a panic.
    pub fn try_new(nmax: usize) -> Result<Self, Refusal> {
        let [a, b] = lengths::legendre_new(nmax)?;
        let [_, _, p] = lengths::legendre_compute(nmax)?;
        let (mut a, mut b) = (vec![0.0; a], vec![0.0; b]);
        tables::legendre_new(nmax, &mut a, &mut b)?;
        Ok(Legendre { nmax, a, b, p: vec![0.0; p], dp: Vec::new(), computed: false })
    }

    /// Carry the table on to degree `nmax`: the recursion coefficients that it has are kept, and those of the degrees above are
    /// computed behind them. It is then as [`new`](Self::new) makes one of that degree, in every bit: `P̄nm` is 0 until the next
    /// [`compute`](Self::compute), and there are no derivatives until the next
    /// [`compute_with_derivative`](Self::compute_with_derivative). If `nmax <= max_degree()`, nothing changes: the table keeps its
    /// degree and the numbers of the last latitude. Added: the published table can't grow.
    ///
    /// A model that is loaded degree by degree:
    ///
    /// ```
    /// use geopotential::Legendre;
    ///
    /// // C̄n0, C̄n1, .. of each degree, in the order in which they come.
    /// let model = [vec![1.0], vec![0.0, 0.0], vec![-4.8417e-4, -2.0e-10, 2.4394e-6]];
    ///
    /// // The sum at latitude 0.3 and longitude 0, as far as the model has come.
    /// let (mut leg, mut sum) = (Legendre::new(0), 0.0);
    /// for (n, c) in model.iter().enumerate() {
    ///     leg.grow(n);
    ///     leg.compute(0.3);
    ///     sum += (0..=n).map(|m| c[m] * leg.p(n, m)).sum::<f64>();
    /// }
    /// assert!((sum - 1.0004).abs() < 1e-5);
    ///
    /// // A table that is made at once has the same bits.
    /// let mut whole = Legendre::new(2);
    /// whole.compute(0.3);
    /// for (n, m) in [(0, 0), (1, 0), (1, 1), (2, 0), (2, 1), (2, 2)] {
    ///     assert_eq!(leg.p(n, m).to_bits(), whole.p(n, m).to_bits());
    /// }
    /// ```
    ///
    /// # Panics
    /// If `nmax > MAX_DEGREE`; the table is then as it was.
    #[track_caller]
    pub fn grow(&mut self, nmax: usize) {
        or_panic(self.try_grow(nmax));
    }

    /// [`grow`](Self::grow), refused instead of a panic.
    pub fn try_grow(&mut self, nmax: usize) -> Result<(), Refusal> {
        if nmax <= self.nmax {
            return Ok(());
        }
        // What is refused is refused here, before a list changes: the call itself takes lists of these lengths.
        let [a, b] = lengths::legendre_grow(nmax)?;
        let [_, _, p] = lengths::legendre_compute(nmax)?;
        self.a.resize(a, 0.0);
        self.b.resize(b, 0.0);
        tables::legendre_grow(self.nmax, nmax, &mut self.a, &mut self.b)?;
        // Nothing of the last latitude is wanted. Where there was none since the table was made or grew, only the new places are cleared, so
        // that steps of one degree do not cost a table each.
        if self.computed {
            (self.p, self.dp, self.computed) = (Vec::new(), Vec::new(), false);
        }
        self.p.resize(p, 0.0);
        self.nmax = nmax;
        Ok(())
    }

    /// Maximum degree of the table.
    pub fn max_degree(&self) -> usize {
        self.nmax
    }

    /// Fill `P̄nm(sin φ)` at geocentric latitude `lat` (radians).
    pub fn compute(&mut self, lat: f64) {
        let Legendre { nmax, a, b, p, .. } = self;
        or_panic(tables::legendre_compute(Recursion { nmax: *nmax, a, b }, lat.sin_cos(), p));
        self.computed = true;
    }

    /// Like [`compute`](Self::compute), and also fill `∂P̄nm/∂φ`. The derivative is a
    /// combination of `P̄n,m±1`, with no `1/cos φ` factor, so the poles bring no division by 0.
    pub fn compute_with_derivative(&mut self, lat: f64) {
        let Legendre { nmax, a, b, p, dp, .. } = self;
        if dp.is_empty() {
            let [.., length] = or_panic(lengths::legendre_compute_with_derivative(*nmax));
            *dp = vec![0.0; length];
        }
        or_panic(tables::legendre_compute_with_derivative(Recursion { nmax: *nmax, a, b }, lat.sin_cos(), p, dp));
        self.computed = true;
    }

    /// Make it the table of the latitude −φ, without a second recursion: `P̄nm` is turned into `(−1)^(n−m) P̄nm`, and
    /// `∂P̄nm/∂φ`, where there is a table of derivatives, into `(−1)^(n−m+1) ∂P̄nm/∂φ`. Only signs change. Where no latitude has been
    /// computed since the table was made or [grew](Self::grow), nothing changes: `P̄nm` stays 0. Added: the published table has no such
    /// call.
    ///
    /// Each entry then equals the one that is computed at `-lat`, under `==`: a zero may have the other sign, and NaN counts as NaN. That
    /// holds for every `lat` whose sine and cosine the standard library answers as those of `-lat`, the sine's sign turned.
    ///
    /// Each table is turned by itself: where [`compute`](Self::compute) came after
    /// [`compute_with_derivative`](Self::compute_with_derivative), the derivatives are still those of the earlier latitude, and they
    /// become those of its negative.
    ///
    /// The northern half is computed, and the southern half reuses it:
    ///
    /// ```
    /// use geopotential::Legendre;
    ///
    /// let (mut leg, mut south) = (Legendre::new(5), Legendre::new(5));
    /// for lat in [0.0, 0.3, 0.7, 1.2] {
    ///     leg.compute_with_derivative(lat);
    ///     // Here the sums of the northern parallel would be taken.
    ///     leg.mirror();
    ///     // And here those of the southern one. A table computed there has the same numbers, a zero of either sign being 0.
    ///     south.compute_with_derivative(-lat);
    ///     for n in 0..=5 {
    ///         for m in 0..=n {
    ///             assert!(leg.p(n, m) == south.p(n, m) && leg.dp(n, m) == south.dp(n, m));
    ///         }
    ///     }
    /// }
    /// ```
    pub fn mirror(&mut self) {
        // The zeros of a table without a latitude keep their sign.
        if !self.computed {
            return;
        }
        or_panic(tables::legendre_mirror(self.nmax, &mut self.p));
        if !self.dp.is_empty() {
            or_panic(tables::legendre_mirror_derivative(self.nmax, &mut self.dp));
        }
    }

    /// `P̄nm` from the last [`compute`](Self::compute), as each [`mirror`](Self::mirror) since has turned it.
    ///
    /// # Panics
    /// If `m > n` or `n > max_degree()`.
    #[track_caller]
    pub fn p(&self, n: usize, m: usize) -> f64 {
        or_panic(self.try_p(n, m))
    }

    /// [`p`](Self::p), refused instead of a panic.
    pub fn try_p(&self, n: usize, m: usize) -> Result<f64, Refusal> {
        tables::legendre_entry(self.nmax, &self.p, n, m)
    }

    /// `∂P̄nm/∂φ` from the last [`compute_with_derivative`](Self::compute_with_derivative), as each [`mirror`](Self::mirror) since has
    /// turned it.
    ///
    /// # Panics
    /// If `m > n`, `n > max_degree()`, or no derivative has been computed since the table was made or [grew](Self::grow).
    #[track_caller]
    pub fn dp(&self, n: usize, m: usize) -> f64 {
        or_panic(self.try_dp(n, m))
    }

    /// [`dp`](Self::dp), refused instead of a panic: by [`Refusal::Length`] where no derivative has been computed since the
    /// table was made or grew, as there is no table of them.
    pub fn try_dp(&self, n: usize, m: usize) -> Result<f64, Refusal> {
        tables::legendre_entry(self.nmax, &self.dp, n, m)
    }
}

/// The `n` nodes and weights of Gauss–Legendre quadrature on `[−1, 1]`: Newton's method on `P_n`
/// from Tricomi's starting values, with the weights `2/((1 − x²)P_n′²)` and the symmetry about 0
/// imposed. The nodes are meant to ascend, and the rule to be exact for polynomials of degree up to
/// `2n − 1` but for rounding; what is promised is the numbers of these steps.
///
/// ```
/// let (x, w) = geopotential::gauss_legendre(3);
/// assert!((x[2] - 0.6f64.sqrt()).abs() < 1e-15 && x[1] == 0.0 && x[0] == -x[2]);
/// assert!((w[1] - 8.0 / 9.0).abs() < 1e-15);
/// ```
///
/// # Panics
/// If `n > 2701`.
#[track_caller]
pub fn gauss_legendre(n: usize) -> (Vec<f64>, Vec<f64>) {
    or_panic(try_gauss_legendre(n))
}

/// [`gauss_legendre`], refused instead of a panic.
pub fn try_gauss_legendre(n: usize) -> Result<(Vec<f64>, Vec<f64>), Refusal> {
    workspace::lend(|lists| lists.gauss.rule(n).map(|(x, w)| (x.to_vec(), w.to_vec())))
}

/// The lists of a Gauss–Legendre rule.
#[derive(Default)]
pub(crate) struct GaussLists {
    guesses: List,
    nodes: List,
    weights: List,
}

impl GaussLists {
    /// Nodes and weights of the rule of `n` nodes.
    pub fn rule(&mut self, n: usize) -> Result<(&[f64], &[f64]), Refusal> {
        let [guesses, x, w] = lengths::gauss_legendre(n)?;
        let (guesses, x, w) = (self.guesses.front(guesses), self.nodes.front(x), self.weights.front(w));
        for (i, guess) in guesses.iter_mut().enumerate() {
            // Tricomi's starting value.
            *guess = (core::f64::consts::PI * (i as f64 + 0.75) / (n as f64 + 0.5)).cos();
        }
        tables::gauss_legendre(n, guesses, x, w)?;
        Ok((x, w))
    }
}
