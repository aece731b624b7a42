use crate::calls::{lengths, models};
use crate::functional::Functional;
use crate::refusal::{Refusal, or_panic};

/// How the permanent tide is treated in `C̄20`.
#[derive(Clone, Copy, Debug, PartialEq, Eq)]
pub enum TideSystem {
    /// No permanent tide, direct or indirect (the "conventional tide-free" system).
    TideFree,
    /// Includes the permanent deformation (indirect) part, not the direct tidal potential.
    ZeroTide,
    /// Includes both the direct and the indirect permanent parts. The direct part, the tide-generating
    /// potential itself, then sits in the Earth's own field, falling as `r⁻³` where it grows as `r²`:
    /// right on the sphere `r = R` only ("there is no mean-tide C̄20", Mäkinen 2021, J. Geod. 95,
    /// 106). Its gravity is +45.7 µGal at the equator against the true −30.5.
    MeanTide,
    /// Not stated; cannot be converted.
    Unknown,
}

/// A spherical-harmonic gravity field: fully normalized (4π, no Condon–Shortley phase) Stokes
/// coefficients `C̄nm, S̄nm` up to a maximum degree, with the `GM` and reference radius they
/// belong to.
///
/// The same type holds a static model, one GRACE month, a difference of months, or formal
/// errors (store `σC, σS` as the coefficients and take [`degree_amplitudes`](Self::degree_amplitudes)).
///
/// ```
/// use geopotential::{Coefficients, Refusal};
///
/// let mut field = Coefficients::zeros(1.0, 1.0, 2);
/// field.set(2, 1, 3.0, 4.0);
/// assert_eq!((field.c(2, 1), field.s(2, 1)), (3.0, 4.0));
/// assert_eq!(field.degree_variances(), [0.0, 0.0, 25.0]);
/// assert_eq!(field.try_c(3, 0), Err(Refusal::Place));
/// ```
#[derive(Clone, Debug, PartialEq)]
pub struct Coefficients {
    /// Geocentric gravitational constant `GM`, m³/s².
    pub gm: f64,
    /// Reference radius `R` of the expansion, m.
    pub radius: f64,
    /// Tide system of `C̄20`.
    pub tide_system: TideSystem,
    /// The day that the field is of, in days from 2000-01-01, where one is stated. Added: the published type has none.
    pub date: Option<i32>,
    pub(crate) nmax: usize,
    pub(crate) c: Vec<f64>,
    pub(crate) s: Vec<f64>,
}

impl Coefficients {
    /// All-zero coefficients up to degree `nmax`, tide system [`TideSystem::Unknown`], no date.
    ///
    /// # Panics
    /// If `nmax > MAX_DEGREE`.
    #[track_caller]
    pub fn zeros(gm: f64, radius: f64, nmax: usize) -> Self {
        or_panic(Self::try_zeros(gm, radius, nmax))
    }

    /// [`zeros`](Self::zeros), refused instead of a panic.
    pub fn try_zeros(gm: f64, radius: f64, nmax: usize) -> Result<Self, Refusal> {
        let [c, s] = lengths::zeros(nmax)?;
        let mut out = Self::with_lists(gm, radius, nmax, c, s);
        models::zeros(&mut out)?;
        Ok(out)
    }

    /// A field whose lists have these lengths and are still to be filled.
    pub(crate) fn with_lists(gm: f64, radius: f64, nmax: usize, c: usize, s: usize) -> Self {
        Coefficients { gm, radius, tide_system: TideSystem::Unknown, date: None, nmax, c: vec![0.0; c], s: vec![0.0; s] }
    }

    /// Maximum degree.
    pub fn max_degree(&self) -> usize {
        self.nmax
    }

    /// `C̄nm`.
    ///
    /// # Panics
    /// If `m > n` or `n > max_degree()` (also for [`s`](Self::s) and [`set`](Self::set)).
    #[track_caller]
    pub fn c(&self, n: usize, m: usize) -> f64 {
        or_panic(self.try_c(n, m))
    }

    /// [`c`](Self::c), refused instead of a panic.
    pub fn try_c(&self, n: usize, m: usize) -> Result<f64, Refusal> {
        models::coefficient_c(self, n, m)
    }

    /// `S̄nm`.
    #[track_caller]
    pub fn s(&self, n: usize, m: usize) -> f64 {
        or_panic(self.try_s(n, m))
    }

    /// [`s`](Self::s), refused instead of a panic.
    pub fn try_s(&self, n: usize, m: usize) -> Result<f64, Refusal> {
        models::coefficient_s(self, n, m)
    }

    /// Set `C̄nm` and `S̄nm`.
    #[track_caller]
    pub fn set(&mut self, n: usize, m: usize, c: f64, s: f64) {
        or_panic(self.try_set(n, m, c, s))
    }

    /// [`set`](Self::set), refused instead of a panic.
    pub fn try_set(&mut self, n: usize, m: usize, c: f64, s: f64) -> Result<(), Refusal> {
        models::set(self, n, m, c, s)
    }

    /// Degree variances `c_n = Σ_m (C̄nm² + S̄nm²)`, for `n = 0..=max_degree()`. The per-coefficient
    /// degree RMS is `√(c_n / (2n+1))`.
    pub fn degree_variances(&self) -> Vec<f64> {
        let [_, _, out] = or_panic(lengths::degree_variances(self.nmax));
        let mut variances = vec![0.0; out];
        or_panic(models::degree_variances(self, &mut variances));
        variances
    }

    /// Degree amplitudes `|κ_n|·√c_n` of a functional on the reference sphere (`r = R`), e.g.
    /// geoid-height signal or error per degree. The cumulative curve is the running
    /// root-sum-square of these.
    ///
    /// # Panics
    /// For [`Functional::WaterHeight`], if `love` has no entry for a degree of the field.
    #[track_caller]
    pub fn degree_amplitudes(&self, functional: &Functional) -> Vec<f64> {
        or_panic(self.try_degree_amplitudes(functional))
    }

    /// [`degree_amplitudes`](Self::degree_amplitudes), refused instead of a panic.
    pub fn try_degree_amplitudes(&self, functional: &Functional) -> Result<Vec<f64>, Refusal> {
        let [_, _, _, out] = lengths::degree_amplitudes(self.nmax)?;
        let mut amplitudes = vec![0.0; out];
        models::degree_amplitudes(self, functional, &mut amplitudes)?;
        Ok(amplitudes)
    }

    /// The field cut to degree `nmax` (or unchanged if it is already at or below it). Tide system and date are kept. Cutting at A and
    /// then at B is cutting at the smaller: head, date and every bit.
    pub fn truncated(&self, nmax: usize) -> Coefficients {
        let [_, _, c, s] = or_panic(lengths::truncated(self.nmax, nmax));
        let mut out = Self::with_lists(self.gm, self.radius, self.nmax, c, s);
        (out.tide_system, out.date) = (self.tide_system, self.date);
        or_panic(models::truncated(self, nmax, &mut out));
        out
    }

    /// The same field expressed with another `GM` and reference radius:
    /// `C̄'nm = C̄nm · (GM/GM') · (R/R')^n`, so that the synthesized potential is unchanged. Tide system and date are kept.
    pub fn rescaled(&self, gm: f64, radius: f64) -> Coefficients {
        let [_, _, c, s] = or_panic(lengths::rescaled(self.nmax));
        let mut out = Self::with_lists(gm, radius, self.nmax, c, s);
        (out.tide_system, out.date) = (self.tide_system, self.date);
        or_panic(models::rescaled(self, &mut out));
        out
    }
}
