//! Geoid heights: what a potential is divided by, and the potential of the geoid.
//!
//! The library's height is `T/(GM/r²)`. By the normal gravity γ of an ellipsoid it is the library's times
//! `(GM/r²)/γ`; by a potential `W₀` of the geoid other than the ellipsoid's `U₀` it is less `(W₀ − U₀)/γ`
//! (Bruns' formula, Heiskanen & Moritz, §2.17). The margin is proved of the library's number where it is finite and
//! coefficients, cosines and sines are at most 1 in size, as the cosines and sines of `f64::sin_cos` should be.

use geopotential::Coefficients;

use crate::arguments::{Arguments, Opt};
use crate::error::Error;
use crate::normal::NormalGravity;
use crate::output::note;
use crate::quantity::Quantity;
use crate::reduction::ZERO_DEGREE;

pub const GAMMA: Opt = Opt {
    name: "--gamma",
    value: "sphere|ellipsoid",
    help: "what geoid heights divide the potential by: GM/r^2 (the library's own), or the normal gravity of\n--ellipsoid at the row's latitude; default ellipsoid with --ellipsoid, else sphere",
};

pub const W0: Opt = Opt {
    name: "--w0",
    value: "W",
    help: "the geoid's potential, m^2/s^2: (W - U0)/gamma is taken off geoid heights, U0 the normal field's\n(IHRS 62636853.4; default none: the geoid's potential is U0)",
};

/// How a geoid height is made from the library's.
#[derive(Clone, Copy, Debug, PartialEq)]
pub struct Heights {
    /// The ellipsoid whose normal gravity divides; none is `GM/r²`.
    pub gamma: Option<NormalGravity>,
    /// The geoid's potential, and the normal field whose `U₀` it is held against.
    datum: Option<(f64, NormalGravity)>,
}

impl Heights {
    /// What the options say; none for another quantity, which has no such options.
    pub fn chosen(
        arguments: &Arguments,
        quantity: Quantity,
        ellipsoid: Option<NormalGravity>,
        normal: Option<NormalGravity>,
    ) -> Result<Option<Self>, Error> {
        if !quantity.is_height() {
            return match [GAMMA.name, W0.name].into_iter().find(|name| arguments.has(name)) {
                Some(name) => Err(Error::usage(format!("{name} is for geoid-height; the functional is {}", quantity.name))),
                None => Ok(None),
            };
        }
        Self::of_height(arguments, ellipsoid, normal).map(Some)
    }

    /// What the options say of geoid heights.
    pub fn of_height(arguments: &Arguments, ellipsoid: Option<NormalGravity>, normal: Option<NormalGravity>) -> Result<Self, Error> {
        Ok(Heights { gamma: gamma(arguments, ellipsoid)?, datum: datum(arguments, normal)? })
    }

    /// By what the library's height is multiplied, and what is then taken off, at a geodetic latitude
    /// (degrees) and radius.
    pub fn factor_and_shift(&self, gm: f64, latitude: f64, radius: f64) -> (f64, f64) {
        let sphere = gm / (radius * radius);
        let gamma = self.gamma.map_or(sphere, |ellipsoid| ellipsoid.surface_gravity(latitude.to_radians()));
        (self.gamma.map_or(1.0, |_| sphere / gamma), self.shift() / gamma)
    }

    /// `W₀ − U₀`, which is taken off the potential; 0 where no option gives `W₀`.
    pub fn shift(&self) -> f64 {
        self.datum.map_or(0.0, |(w0, normal)| w0 - normal.u0())
    }

    /// What the potential is divided by, behind the name of the surface.
    pub fn gamma_line(&self) -> &'static str {
        if self.gamma.is_some() { "heights by its normal gravity" } else { "heights by GM/r²" }
    }

    /// The potential of the geoid, where an option gives one.
    pub fn datum_line(&self) -> Option<String> {
        self.datum.map(|(w0, normal)| format!("W0 {w0} against U0 {:.3} of {}", normal.u0(), normal.name))
    }

    /// Say on standard error how the heights of a grid are made of those of the library.
    pub fn tell(&self, arguments: &Arguments, rest: &Coefficients) -> Result<(), Error> {
        if let Some(ellipsoid) = self.gamma {
            note(&format!(
                "heights are the library's times one factor a row, (GM/r²)/γ with γ the normal gravity of {}: \
                 the margin is proved of the library's (finite; coefficients, cosines and sines up to 1 in size, as the tool's \
                 cosines and sines should be), and geoid average has no such factor (--gamma sphere)",
                ellipsoid.name
            ));
        }
        self.tell_points(arguments, rest)
    }

    /// Say it of the heights of points.
    pub fn tell_points(&self, arguments: &Arguments, rest: &Coefficients) -> Result<(), Error> {
        if let Some(line) = self.datum_line() {
            note(&format!("{line}: (W0 - U0)/γ is taken off every height"));
        }
        tell_zero_degree(arguments, rest)
    }
}

/// Say what degree 0 of a reduced field is of every height, where no option says whether it is kept.
fn tell_zero_degree(arguments: &Arguments, rest: &Coefficients) -> Result<(), Error> {
    let first = rest.try_c(0, 0)? * rest.radius;
    if first != 0.0 && !arguments.has(ZERO_DEGREE.name) {
        note(&format!("degree 0 is kept: about {first:.3} m of every height (--zero-degree drop leaves it out)"));
    }
    Ok(())
}

fn gamma(arguments: &Arguments, ellipsoid: Option<NormalGravity>) -> Result<Option<NormalGravity>, Error> {
    match (arguments.text(GAMMA.name)?, ellipsoid) {
        (Some("sphere"), _) => Ok(None),
        (Some("ellipsoid"), None) => Err(Error::usage("--gamma ellipsoid needs --ellipsoid, which says whose normal gravity")),
        (None | Some("ellipsoid"), ellipsoid) => Ok(ellipsoid),
        (Some(text), _) => Err(Error::usage(format!("--gamma is '{text}'; expected sphere or ellipsoid"))),
    }
}

/// A potential of the geoid differs from that of an ellipsoid by parts in ten million.
const DATUM: f64 = 1e-5;

fn datum(arguments: &Arguments, normal: Option<NormalGravity>) -> Result<Option<(f64, NormalGravity)>, Error> {
    let Some(w0) = arguments.number(W0.name)? else { return Ok(None) };
    let normal = normal.ok_or_else(|| Error::usage("--w0 needs a normal field, whose U0 it is held against; none is taken off"))?;
    if (w0 / normal.u0() - 1.0).abs() > DATUM {
        return Err(Error::usage(format!(
            "--w0 is {w0}; expected the geoid's potential in m²/s², near {:.3} (U0 of {})",
            normal.u0(),
            normal.name
        )));
    }
    Ok(Some((w0, normal)))
}

#[cfg(test)]
mod tests {
    use super::*;
    use crate::normal::GRS80;

    #[test]
    fn a_height_by_the_sphere_keeps_its_bits() {
        let heights = Heights { gamma: None, datum: None };
        assert_eq!(heights.factor_and_shift(GRS80.gm, 50.0, 6.37e6), (1.0, 0.0));
    }

    #[test]
    fn the_factor_is_the_ratio_of_the_two_gravities() {
        let heights = Heights { gamma: Some(GRS80), datum: None };
        let (factor, shift) = heights.factor_and_shift(GRS80.gm, 0.0, GRS80.a);
        assert!((factor - 3.986005e14 / (6378137.0 * 6378137.0) / 9.7803267715).abs() < 1e-10);
        assert_eq!(shift, 0.0);
    }

    #[test]
    fn the_potential_of_ihrs_raises_the_geoid() {
        // W0 - U0 is -7.450046 m²/s², worked out with 30 digits.
        let heights = Heights { gamma: Some(GRS80), datum: Some((62_636_853.4, GRS80)) };
        let (_, shift) = heights.factor_and_shift(GRS80.gm, 45.0, 6.367e6);
        assert!((shift + 0.759_728_202).abs() < 1e-8);
    }
}
