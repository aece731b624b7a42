//! The normal gravity field: the field of a level ellipsoid, from its four defining constants
//! (Heiskanen & Moritz 1967, §2.7–2.10; Moritz 2000). Names and formulas are those of `normal.rs` in
//! FusionVault/physica (MIT), but for the series in `fifteenth`.

use geopotential::Coefficients;

use crate::error::Error;

/// A level ellipsoid of revolution.
#[derive(Clone, Copy, Debug, PartialEq)]
pub struct NormalGravity {
    /// Its name in a map's title.
    pub name: &'static str,
    /// Semi-major axis `a`, m.
    pub a: f64,
    /// Flattening `f`.
    pub f: f64,
    /// Geocentric gravitational constant `GM`, m³/s².
    pub gm: f64,
    /// Angular velocity `ω`, rad/s.
    pub omega: f64,
}

/// The Geodetic Reference System 1980 (Moritz 2000).
pub const GRS80: NormalGravity = NormalGravity { name: "GRS80", a: 6378137.0, f: 1.0 / 298.257222101, gm: 3.986005e14, omega: 7.292115e-5 };

/// WGS84 (NIMA TR8350.2).
pub const WGS84: NormalGravity =
    NormalGravity { name: "WGS84", a: 6378137.0, f: 1.0 / 298.257223563, gm: 3.986004418e14, omega: 7.292115e-5 };

impl NormalGravity {
    /// The ellipsoid that an option's value names.
    pub fn named(text: &str) -> Option<NormalGravity> {
        [GRS80, WGS84].into_iter().find(|normal| normal.name.eq_ignore_ascii_case(text))
    }

    /// The ellipsoid of an option's value.
    pub fn of_option(option: &str, text: &str, expected: &str) -> Result<NormalGravity, Error> {
        Self::named(text).ok_or_else(|| Error::usage(format!("{option} is '{text}'; expected {expected}")))
    }

    /// The semi-minor axis `b = a(1 − f)`, m.
    pub fn b(&self) -> f64 {
        self.a * (1.0 - self.f)
    }

    /// The first eccentricity squared, `e² = f(2 − f)`.
    pub fn e2(&self) -> f64 {
        self.f * (2.0 - self.f)
    }

    /// `m = ω²a²b/GM`, the centrifugal-to-gravitational ratio at the equator.
    pub fn m(&self) -> f64 {
        self.omega * self.omega * self.a * self.a * self.b() / self.gm
    }

    /// The second eccentricity squared, `e′² = e²/(1 − e²)`.
    fn second_e2(&self) -> f64 {
        self.e2() / (1.0 - self.e2())
    }

    /// `Σ (−1)ⁿ⁺¹ w(n) e′²ⁿ/((2n+1)(2n+3))`, n from 1: `q₀/(2e′)` with w(n) = n and `q₀′/6` with w(n) = 1, whose
    /// closed forms lose ten digits to cancellation.
    fn series(&self, weight: fn(f64) -> f64) -> f64 {
        let square = self.second_e2();
        let mut power = square; // e′²ⁿ
        let mut sum = 0.0;
        for n in 1..=12 {
            let nf = n as f64;
            let term = weight(nf) * power / ((2.0 * nf + 1.0) * (2.0 * nf + 3.0));
            sum += if n % 2 == 1 { term } else { -term };
            power *= square;
        }
        sum
    }

    /// `2e′/(15q₀)`.
    fn fifteenth(&self) -> f64 {
        1.0 / (15.0 * self.series(|n| n))
    }

    /// Normal gravity at the equator and at the poles, m/s² (Heiskanen & Moritz, §2.8).
    pub fn equator_and_pole(&self) -> (f64, f64) {
        let third = self.m() * self.series(|_| 1.0) / self.series(|n| n); // m e′q₀′/(3q₀)
        let equator = self.gm / (self.a * self.b()) * (1.0 - self.m() - third / 2.0);
        (equator, self.gm / (self.a * self.a) * (1.0 + third))
    }

    /// Normal gravity on the ellipsoid at geodetic latitude `lat` (rad), m/s²: Somigliana's formula.
    pub fn surface_gravity(&self, lat: f64) -> f64 {
        let (sin, cos) = lat.sin_cos();
        let (equator, pole) = self.equator_and_pole();
        let (a, b) = (self.a, self.b());
        (a * equator * cos * cos + b * pole * sin * sin) / (a * a * cos * cos + b * b * sin * sin).sqrt()
    }

    /// The normal potential on the ellipsoid, `U₀ = (GM/E) arctan e′ + ω²a²/3`, m²/s².
    pub fn u0(&self) -> f64 {
        let distance = self.a * self.e2().sqrt(); // E
        self.gm / distance * self.second_e2().sqrt().atan() + self.omega * self.omega * self.a * self.a / 3.0
    }

    /// The dynamical form factor `J₂ = (e²/3)(1 − 2me′/(15q₀))`.
    pub fn j2(&self) -> f64 {
        self.e2() / 3.0 * (1.0 - self.m() * self.fifteenth())
    }

    /// The zonal harmonic `J₂ₙ = (−1)ⁿ⁺¹ 3e²ⁿ/((2n+1)(2n+3)) · (1 − n + 5nJ₂/e²)` for n from 1 (Heiskanen &
    /// Moritz, Eq. 2-92). The power is a plain product, so that every machine should get the same bits.
    pub fn zonal(&self, n: usize) -> f64 {
        let (e2, nf) = (self.e2(), n as f64);
        let power: f64 = std::iter::repeat_n(e2, n).product();
        let size = 3.0 * power / ((2.0 * nf + 1.0) * (2.0 * nf + 3.0)) * (1.0 - nf + 5.0 * nf * self.j2() / e2);
        if n % 2 == 1 { size } else { -size }
    }

    /// The normal potential as fully normalized coefficients: `C̄₀₀ = 1`, `C̄₂ₙ,₀ = −J₂ₙ/√(4n+1)`.
    pub fn coefficients(&self, max_degree: usize) -> Result<Coefficients, Error> {
        let mut field = Coefficients::try_zeros(self.gm, self.a, max_degree)?;
        field.try_set(0, 0, 1.0, 0.0)?;
        for n in 1..=max_degree / 2 {
            field.try_set(2 * n, 0, -self.zonal(n) / (4.0 * n as f64 + 1.0).sqrt(), 0.0)?;
        }
        Ok(field)
    }

    /// What a field has beyond this normal field, which is first expressed with the field's own `GM` and
    /// radius. Degree 0 keeps `C̄₀₀ − GM₀/GM`.
    pub fn taken_from(&self, field: &Coefficients) -> Result<Coefficients, Error> {
        let normal = self.coefficients(field.max_degree())?.rescaled(field.gm, field.radius);
        let mut rest = field.clone();
        for n in (0..=field.max_degree()).step_by(2) {
            rest.try_set(n, 0, field.try_c(n, 0)? - normal.try_c(n, 0)?, field.try_s(n, 0)?)?;
        }
        Ok(rest)
    }

    /// Geocentric latitude (rad) and radius (m) of the point of the ellipsoid at geodetic latitude `lat` (rad).
    pub fn geocentric(&self, lat: f64) -> (f64, f64) {
        self.geocentric_above(lat, 0.0)
    }

    /// Geodetic latitude (rad) of the point of the ellipsoid at geocentric latitude `lat` (rad): `tan φ = tan φ′/(1 − e²)`.
    pub fn geodetic(&self, lat: f64) -> f64 {
        let (sin, cos) = lat.sin_cos();
        sin.atan2((1.0 - self.e2()) * cos)
    }

    /// Geocentric latitude and radius of the point `height` metres above the ellipsoid at geodetic latitude `lat` (rad).
    pub fn geocentric_above(&self, lat: f64, height: f64) -> (f64, f64) {
        let (sin, cos) = lat.sin_cos();
        let n = self.a / (1.0 - self.e2() * sin * sin).sqrt();
        let (p, z) = ((n + height) * cos, (n * (1.0 - self.e2()) + height) * sin);
        (z.atan2(p), p.hypot(z))
    }
}
