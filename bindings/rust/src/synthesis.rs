use crate::calls::fields::{Places, Quadrature};
use crate::calls::points::Points;
use crate::calls::{fields, lengths, points};
use crate::coefficients::Coefficients;
use crate::functional::Functional;
use crate::legendre::try_gauss_legendre;
use crate::refusal::{Refusal, or_panic};
use crate::trigonometry::{put_circle, put_latitudes, put_longitudes};
use crate::workspace;

/// The gravitational potential and its first partial derivatives at one point.
#[derive(Clone, Copy, Debug, PartialEq)]
pub struct Partials {
    /// `V`, m²/s².
    pub v: f64,
    /// `∂V/∂r`, m/s².
    pub dr: f64,
    /// `∂V/∂φ` (geocentric latitude), m²/s² per radian.
    pub dlat: f64,
    /// `∂V/∂λ`, m²/s² per radian.
    pub dlon: f64,
}

impl Partials {
    /// The gravitational acceleration `∇V` in local (north, east, up) components, m/s². Undefined
    /// exactly at a pole, where east has no direction.
    pub fn acceleration_neu(&self, r: f64, lat: f64) -> [f64; 3] {
        or_panic(points::acceleration_neu(*self, r, lat.sin_cos()))
    }

    /// Gravity `∇W`, the acceleration plus the centrifugal term `ω²r cos φ` directed away from the
    /// axis, in local (north, east, up) components, m/s².
    pub fn gravity_neu(&self, r: f64, lat: f64, omega: f64) -> [f64; 3] {
        or_panic(points::gravity_neu(*self, r, lat.sin_cos(), omega))
    }

    /// From the four numbers of a point, as the library writes them.
    pub(crate) fn of(&[v, dr, dlat, dlon]: &[f64; 4]) -> Self {
        Partials { v, dr, dlat, dlon }
    }
}

/// The potential with its first and second partial derivatives in `(r, φ, λ)` at one point: what
/// a gravity-gradient tensor is built from.
#[derive(Clone, Copy, Debug, PartialEq)]
pub struct SecondPartials {
    /// `V`, `∂V/∂r`, `∂V/∂φ`, `∂V/∂λ`.
    pub first: Partials,
    /// `∂²V/∂r²`.
    pub drr: f64,
    /// `∂²V/∂φ²`.
    pub dlatlat: f64,
    /// `∂²V/∂λ²`.
    pub dlonlon: f64,
    /// `∂²V/∂r∂φ`.
    pub drlat: f64,
    /// `∂²V/∂r∂λ`.
    pub drlon: f64,
    /// `∂²V/∂φ∂λ`.
    pub dlatlon: f64,
}

impl SecondPartials {
    /// The gravity-gradient (tidal) tensor `Γᵢⱼ = ∂²V/∂xᵢ∂xⱼ` in the local frame at geocentric
    /// radius `r` (m) and latitude `lat` (radians), s⁻², as the symmetric matrix
    /// `[[Γnn, Γne, Γnu], [Γne, Γee, Γeu], [Γnu, Γeu, Γuu]]` with x = north, y = east, z = up.
    /// Multiply by 1e9 for Eötvös. Its trace is meant to vanish but for rounding, as it does in free
    /// space (Laplace's equation). A gradiometer measures it directly: a rigid vehicle's own acceleration
    /// is common to both proof masses and cancels, leaving only this.
    ///
    /// For a point mass it is `diag(−GM/r³, −GM/r³, +2GM/r³)`. Undefined exactly at a pole; next to
    /// one `Γne` and `Γee` lose digits, since `cos φ` divides. `tan φ` is `sin φ/cos φ` here, where the
    /// published crate calls `tan`.
    ///
    /// ```
    /// let mut field = geopotential::Coefficients::zeros(8.0, 1.0, 0);
    /// field.set(0, 0, 1.0, 0.0);
    /// let tensor = field.second_partials(2.0, 0.3, 1.0).tensor_neu(2.0, 0.3);
    /// assert_eq!(tensor, [[-1.0, 0.0, 0.0], [0.0, -1.0, 0.0], [0.0, 0.0, 2.0]]);
    /// ```
    pub fn tensor_neu(&self, r: f64, lat: f64) -> [[f64; 3]; 3] {
        or_panic(points::tensor_neu(*self, r, lat.sin_cos()))
    }

    /// From the ten numbers of a point, as the library writes them.
    pub(crate) fn of(&[v, dr, dlat, dlon, drr, dlatlat, dlonlon, drlat, drlon, dlatlon]: &[f64; 10]) -> Self {
        let first = Partials { v, dr, dlat, dlon };
        SecondPartials { first, drr, dlatlat, dlonlon, drlat, drlon, dlatlon }
    }
}

/// A call of the library at one point: r, the sine and cosine of the latitude, trig, working numbers.
type AtPoint<P> = fn(&Coefficients, f64, (f64, f64), &[f64], &mut [f64]) -> Result<P, Refusal>;

/// A call of the library at many points: their lists, working numbers, the numbers of all points.
type AlongPoints = fn(&Coefficients, Points, &mut [f64], &mut [f64]) -> Result<(), Refusal>;

impl Coefficients {
    /// One call at a point `(r, lat, lon)`, with lists of the lengths that its entry tells: c, s, trig, work, out.
    fn at_point<P>(
        &self,
        lengths: fn(usize) -> Result<[usize; 5], Refusal>,
        call: AtPoint<P>,
        (r, lat, lon): (f64, f64, f64),
    ) -> Result<P, Refusal> {
        let [_, _, trig, work, _] = lengths(self.nmax)?;
        workspace::lend(|lists| {
            let (trig, work) = (lists.trig.front(trig), lists.work.front(work));
            put_longitudes(trig, [lon].into_iter(), self.nmax);
            call(self, r, lat.sin_cos(), trig, work)
        })
    }

    /// One call at many points, with lists of the lengths that its entry tells: c, s, radii, latitudes, trig, work, out. Each
    /// answer is made `of` the numbers of its point.
    fn along_points<const NUMBERS: usize, P>(
        &self,
        lengths: fn(usize, usize) -> Result<[usize; 7], Refusal>,
        call: AlongPoints,
        of: fn(&[f64; NUMBERS]) -> P,
        points: &[(f64, f64, f64)],
    ) -> Result<Vec<P>, Refusal> {
        let [_, _, radii, latitudes, trig, work, out] = lengths(self.nmax, points.len())?;
        workspace::lend(|lists| {
            let (radii, latitudes, trig) = (lists.radii.front(radii), lists.latitudes.front(latitudes), lists.trig.front(trig));
            let (work, out) = (lists.work.front(work), lists.numbers.front(out));
            radii.iter_mut().zip(points).for_each(|(radius, &(r, _, _))| *radius = r);
            put_latitudes(latitudes, points.iter().map(|&(_, lat, _)| lat));
            put_longitudes(trig, points.iter().map(|&(_, _, lon)| lon), self.nmax);
            call(self, Points { count: points.len(), radii, latitudes, trig }, work, out)?;
            Ok(out.as_chunks().0.iter().map(of).collect())
        })
    }

    /// `V` with its first and second partial derivatives at geocentric radius `r` (m), latitude
    /// `lat` and longitude `lon` (radians). No division by `cos φ`: at a pole the sums are what the
    /// recursion gives there. `first.v` and `first.dlat` have the bits of [`partials`](Self::partials);
    /// `first.dr` and `first.dlon` follow another order of operations and may differ by rounding.
    ///
    /// ```
    /// let mut field = geopotential::Coefficients::zeros(8.0, 1.0, 0);
    /// field.set(0, 0, 1.0, 0.0);
    /// let at = field.second_partials(2.0, 0.3, 1.0);
    /// assert_eq!((at.first.v, at.first.dr, at.drr), (4.0, -2.0, 2.0));
    /// ```
    pub fn second_partials(&self, r: f64, lat: f64, lon: f64) -> SecondPartials {
        or_panic(self.try_second_partials(r, lat, lon))
    }

    /// [`second_partials`](Self::second_partials) as a `Result`. No field that can be made is refused.
    pub fn try_second_partials(&self, r: f64, lat: f64, lon: f64) -> Result<SecondPartials, Refusal> {
        self.at_point(lengths::second_partials, points::second_partials, (r, lat, lon))
    }

    /// [`second_partials`](Self::second_partials) at many points `(r, lat, lon)`, with the recursion coefficients of the tables
    /// worked out once. Added: the published crate has no such call.
    ///
    /// ```
    /// let mut field = geopotential::Coefficients::zeros(8.0, 1.0, 2);
    /// field.set(2, 1, 1e-3, 2e-3);
    /// let orbit = [(2.0, 0.3, 1.0), (2.5, -0.4, 6.0)];
    /// let along = field.second_partials_along(&orbit);
    /// assert_eq!(along[1], field.second_partials(2.5, -0.4, 6.0));
    /// ```
    ///
    /// # Panics
    /// If there are more than 65,535 points.
    #[track_caller]
    pub fn second_partials_along(&self, points: &[(f64, f64, f64)]) -> Vec<SecondPartials> {
        or_panic(self.try_second_partials_along(points))
    }

    /// [`second_partials_along`](Self::second_partials_along), refused instead of a panic.
    pub fn try_second_partials_along(&self, points: &[(f64, f64, f64)]) -> Result<Vec<SecondPartials>, Refusal> {
        self.along_points(lengths::second_partials_along, points::second_partials_along, SecondPartials::of, points)
    }

    /// `V` and its partial derivatives at geocentric radius `r` (m), latitude `lat` and longitude
    /// `lon` (radians). No division by `cos φ`: at a pole the sums are what the recursion gives there.
    ///
    /// ```
    /// let mut field = geopotential::Coefficients::zeros(8.0, 1.0, 0);
    /// field.set(0, 0, 1.0, 0.0);
    /// let at = field.partials(2.0, 0.3, 1.0);
    /// assert_eq!((at.v, at.dr, at.dlat, at.dlon), (4.0, -2.0, 0.0, 0.0));
    /// assert_eq!(at.acceleration_neu(2.0, 0.3), [0.0, 0.0, -2.0]);
    /// ```
    pub fn partials(&self, r: f64, lat: f64, lon: f64) -> Partials {
        or_panic(self.at_point(lengths::partials, points::partials, (r, lat, lon)))
    }

    /// [`partials`](Self::partials) at many points `(r, lat, lon)`, with the recursion coefficients of the tables worked out
    /// once. Added: the published crate has no such call.
    ///
    /// ```
    /// let mut field = geopotential::Coefficients::zeros(8.0, 1.0, 2);
    /// field.set(2, 1, 1e-3, 2e-3);
    /// let orbit = [(2.0, 0.3, 1.0), (2.5, -0.4, 6.0)];
    /// let along = field.partials_along(&orbit);
    /// assert_eq!(along[1], field.partials(2.5, -0.4, 6.0));
    /// ```
    ///
    /// # Panics
    /// If there are more than 65,535 points.
    #[track_caller]
    pub fn partials_along(&self, points: &[(f64, f64, f64)]) -> Vec<Partials> {
        or_panic(self.try_partials_along(points))
    }

    /// [`partials_along`](Self::partials_along), refused instead of a panic.
    pub fn try_partials_along(&self, points: &[(f64, f64, f64)]) -> Result<Vec<Partials>, Refusal> {
        self.along_points(lengths::partials_along, points::partials_along, Partials::of, points)
    }

    /// A functional on the grid `lats × lons` (radians) at radius `r`, row-major by latitude:
    /// `out[i * lons.len() + j]` is at `(lats[i], lons[j])`.
    ///
    /// ```
    /// use geopotential::{Coefficients, Functional};
    ///
    /// let mut field = Coefficients::zeros(8.0, 1.0, 1);
    /// field.set(1, 1, 1.0, 0.0);
    /// let values = field.grid(&Functional::Potential, 1.0, &[-0.3, 0.3], &[0.0, 0.5]);
    /// assert!((values[1] - 8.0 * 3f64.sqrt() * 0.3f64.cos() * 0.5f64.cos()).abs() < 1e-14);
    /// assert_eq!(values[..2], values[2..]);
    /// ```
    ///
    /// # Panics
    /// If `lats` or `lons` has more than 65,535 entries, or, for [`Functional::WaterHeight`], if `love` has no entry for a
    /// degree of the field.
    #[track_caller]
    pub fn grid(&self, functional: &Functional, r: f64, lats: &[f64], lons: &[f64]) -> Vec<f64> {
        or_panic(self.try_grid(functional, r, lats, lons))
    }

    /// [`grid`](Self::grid), refused instead of a panic.
    pub fn try_grid(&self, functional: &Functional, r: f64, lats: &[f64], lons: &[f64]) -> Result<Vec<f64>, Refusal> {
        let (rows, longitudes) = (lats.len(), lons.len());
        let [_, _, _, latitudes, trig, work, out] = lengths::grid(self.nmax, rows, longitudes)?;
        let mut values = vec![0.0; out];
        workspace::lend(|lists| {
            let (latitudes, work) = (lists.latitudes.front(latitudes), lists.work.front(work));
            let trig = lists.longitudes.list(trig, lons, self.nmax);
            put_latitudes(latitudes, lats.iter().copied());
            fields::grid(self, functional, r, Places { rows, latitudes, longitudes, trig }, work, &mut values)
        })?;
        Ok(values)
    }
}

/// The grid that [`Coefficients::analysis`] reads to degree `nmax`: `nmax + 1` Gauss–Legendre
/// latitudes (radians, meant to run south to north) and `2·nmax + 2` longitudes `2πj/(2·nmax + 2)`.
/// The nodes are the library's; their `asin` and the longitudes are Rust alone, not proved.
///
/// # Panics
/// If `nmax > MAX_DEGREE`.
#[track_caller]
pub fn gauss_grid(nmax: usize) -> (Vec<f64>, Vec<f64>) {
    or_panic(try_gauss_grid(nmax))
}

/// [`gauss_grid`], refused instead of a panic.
pub fn try_gauss_grid(nmax: usize) -> Result<(Vec<f64>, Vec<f64>), Refusal> {
    let lats = try_gauss_legendre(nmax.saturating_add(1))?.0.iter().map(|x| x.asin()).collect();
    let nlon = longitudes(nmax);
    Ok((lats, (0..nlon).map(|j| core::f64::consts::TAU * j as f64 / nlon as f64).collect()))
}

/// How many longitudes [`gauss_grid`] has.
fn longitudes(nmax: usize) -> usize {
    2 * nmax + 2
}

impl Coefficients {
    /// The coefficients to degree `nmax` of a functional sampled on [`gauss_grid`]`(nmax)` at
    /// radius `r`, row-major by latitude as [`grid`](Self::grid) writes it, by quadrature. It is
    /// meant to undo `grid` for a field of that degree but for rounding: Gauss–Legendre quadrature
    /// over the latitudes is exact for the polynomial `P̄nm P̄n′m` of degree `n + n′ ≤ 2·nmax`, the
    /// longitude sum for orders up to `nmax`. A degree whose factor is zero, such as degree 1 of a
    /// gravity anomaly, is lost: it is left at zero.
    ///
    /// ```
    /// use geopotential::{Coefficients, Functional, gauss_grid};
    ///
    /// let mut field = Coefficients::zeros(8.0, 1.0, 3);
    /// field.set(3, 2, 0.5, -0.25);
    /// let (lats, lons) = gauss_grid(3);
    /// let values = field.grid(&Functional::GeoidHeight, 1.0, &lats, &lons);
    /// let again = Coefficients::analysis(&Functional::GeoidHeight, 1.0, &values, 3, 8.0, 1.0);
    /// assert!((again.c(3, 2) - 0.5).abs() < 1e-14 && (again.s(3, 2) + 0.25).abs() < 1e-14);
    /// ```
    ///
    /// # Panics
    /// If `values` is not one value per grid point, if `nmax > MAX_DEGREE`, or, for [`Functional::WaterHeight`], if `love` has
    /// no entry for a degree up to `nmax`.
    #[track_caller]
    pub fn analysis(functional: &Functional, r: f64, values: &[f64], nmax: usize, gm: f64, radius: f64) -> Coefficients {
        or_panic(Self::try_analysis(functional, r, values, nmax, gm, radius))
    }

    /// [`analysis`](Self::analysis), refused instead of a panic.
    pub fn try_analysis(
        functional: &Functional,
        r: f64,
        values: &[f64],
        nmax: usize,
        gm: f64,
        radius: f64,
    ) -> Result<Coefficients, Refusal> {
        let [_, _, _, latitudes, trig, work, c, s] = lengths::analysis(nmax)?;
        let mut out = Coefficients::with_lists(gm, radius, nmax, c, s);
        workspace::lend(|lists| {
            let (x, weights) = lists.gauss.rule(nmax + 1)?;
            let (latitudes, trig, work) = (lists.latitudes.front(latitudes), lists.trig.front(trig), lists.work.front(work));
            put_latitudes(latitudes, x.iter().map(|xi| xi.asin()));
            put_circle(trig, longitudes(nmax), nmax);
            fields::analysis(functional, r, values, Quadrature { weights, latitudes, trig }, work, &mut out)
        })?;
        Ok(out)
    }
}
