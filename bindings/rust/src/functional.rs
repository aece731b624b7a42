use crate::calls::models;
use crate::refusal::{Refusal, or_panic};

/// Mean density of the Earth used by Wahr et al. (1998), kg/m³. gravity-toolkit instead derives
/// it from `GM` (≈5.51e3), which changes water heights by about 0.1%.
pub const RHO_EARTH: f64 = 5517.0;

/// Density of fresh water, kg/m³.
pub const RHO_WATER: f64 = 1000.0;

/// A quantity that is a per-degree multiple of the harmonic sum
/// `Σ_m P̄nm(sin φ)(C̄nm cos mλ + S̄nm sin mλ)` (spherical approximation).
///
/// For the geoid, gravity disturbance, anomaly and gradient, pass disturbing-potential
/// coefficients (model minus normal field) or a difference of two fields such as one GRACE month
/// minus a mean.
#[derive(Clone, Copy, Debug)]
pub enum Functional<'a> {
    /// Gravitational potential `V`, m²/s².
    Potential,
    /// Geoid height / height anomaly by Bruns' formula with `γ = GM/r²`, m, and no zero-degree
    /// term.
    GeoidHeight,
    /// Gravity disturbance `−∂T/∂r`, m/s² (×1e5 for mGal).
    GravityDisturbance,
    /// Gravity anomaly `−∂T/∂r − 2T/r`, m/s².
    GravityAnomaly,
    /// Radial gravity gradient `∂²T/∂r²`, s⁻² (×1e9 for Eötvös).
    RadialGradient,
    /// Equivalent water height on the reference sphere (Wahr et al. 1998, eq. 14 divided by
    /// `ρ_w`), m. `love` holds the load Love numbers `k'_n`, indexed by degree; `r` is ignored.
    WaterHeight {
        /// Load Love numbers `k'_n` for every degree used.
        love: &'a [f64],
    },
}

impl Functional<'_> {
    /// The factor `κ_n` multiplying the degree-`n` harmonic sum, at radius `r`, for a field with
    /// the given `gm` and reference `radius`.
    ///
    /// # Panics
    /// For [`Functional::WaterHeight`], if `love` has no entry for degree `n`; for any, if
    /// `n > MAX_DEGREE`.
    #[track_caller]
    pub fn factor(&self, n: usize, gm: f64, radius: f64, r: f64) -> f64 {
        or_panic(self.try_factor(n, gm, radius, r))
    }

    /// [`factor`](Self::factor), refused instead of a panic.
    pub fn try_factor(&self, n: usize, gm: f64, radius: f64, r: f64) -> Result<f64, Refusal> {
        models::factor(self, n, gm, radius, r)
    }

    /// The functional's number and its Love numbers, as the library is lent them.
    pub(crate) fn lent(&self) -> (u32, &[f64]) {
        match self {
            Functional::Potential => (0, &[]),
            Functional::GeoidHeight => (1, &[]),
            Functional::GravityDisturbance => (2, &[]),
            Functional::GravityAnomaly => (3, &[]),
            Functional::RadialGradient => (4, &[]),
            Functional::WaterHeight { love } => (5, love),
        }
    }
}
