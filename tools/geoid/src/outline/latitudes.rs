//! The latitudes that an outline is drawn in, and those that it is wanted in.

use crate::arguments::{Arguments, Opt};
use crate::error::Error;
use crate::normal::NormalGravity;
use crate::output::note;

pub const OUTLINE_ELLIPSOID: Opt = Opt {
    name: "--outline-ellipsoid",
    value: "NAME",
    help: "grs80 or wgs84: the outline's latitudes are geodetic, of that ellipsoid, as those of\nGeoJSON are of wgs84; none (default): they are geocentric",
};

/// How an outline's latitudes are changed. They are geodetic of an ellipsoid or, where there is none, geocentric.
#[derive(Clone, Copy, Debug, PartialEq)]
pub struct Latitudes {
    drawn: Option<NormalGravity>,
    wanted: Option<NormalGravity>,
    /// Whether an option says what the outline is drawn in.
    said: bool,
}

impl Latitudes {
    /// What a command's option says of its outlines, wanted as the library takes them: geocentric.
    pub fn of(arguments: &Arguments) -> Result<Latitudes, Error> {
        let (drawn, said) = match arguments.text(OUTLINE_ELLIPSOID.name)? {
            None => (None, false),
            Some("none") => (None, true),
            Some(text) => (Some(NormalGravity::of_option(OUTLINE_ELLIPSOID.name, text, "grs80, wgs84 or none")?), true),
        };
        Ok(Latitudes { drawn, wanted: None, said })
    }

    /// The same outlines, wanted in the latitudes of a map's rows.
    pub fn on(self, wanted: Option<NormalGravity>) -> Latitudes {
        Latitudes { wanted, ..self }
    }

    /// Say what is taken where no option says it.
    pub fn tell(&self) {
        if !self.said {
            note("outline latitudes are taken as geocentric; --outline-ellipsoid wgs84 takes them as geodetic, as GeoJSON's are");
        }
    }

    /// A vertex' latitude as it is wanted, degrees. One that is not changed keeps its bits, and so do the poles, however the
    /// machine's arctangent is rounded.
    pub fn changed(&self, latitude: f64) -> f64 {
        if self.drawn == self.wanted || latitude.abs() == 90.0 {
            return latitude;
        }
        let drawn = latitude.to_radians();
        let geocentric = self.drawn.map_or(drawn, |ellipsoid| ellipsoid.geocentric(drawn).0);
        self.wanted.map_or(geocentric, |ellipsoid| ellipsoid.geodetic(geocentric)).to_degrees()
    }
}

#[cfg(test)]
mod tests {
    use super::*;
    use crate::normal::{GRS80, WGS84};

    const GEOCENTRIC: Latitudes = Latitudes { drawn: None, wanted: None, said: true };
    const GEODETIC: Latitudes = Latitudes { drawn: Some(WGS84), ..GEOCENTRIC };
    /// 45° less arctan(1 − e²) of WGS84, worked out with 50 digits.
    const AT_45: f64 = 0.192_423_215_981_962_71;

    #[test]
    fn the_equator_and_the_poles_stay() {
        for kind in [GEOCENTRIC, GEODETIC, GEOCENTRIC.on(Some(GRS80)), GEODETIC.on(Some(GRS80))] {
            for latitude in [0.0, -0.0, 90.0, -90.0] {
                assert_eq!(kind.changed(latitude).to_bits(), f64::to_bits(latitude), "{kind:?}");
            }
        }
    }

    #[test]
    fn geodetic_latitudes_have_their_closed_form() {
        // tan 45° is 1, so that the geocentric latitude is arctan(1 − e²).
        let e2 = WGS84.f * (2.0 - WGS84.f);
        for sign in [1.0, -1.0] {
            let geocentric = GEODETIC.changed(sign * 45.0);
            assert!((geocentric - sign * (1.0 - e2).atan().to_degrees()).abs() < 1e-13, "{geocentric}");
            assert!((geocentric - sign * (45.0 - AT_45)).abs() < 1e-12, "{geocentric}");
        }
        for tenths in -899..=899 {
            let latitude = f64::from(tenths) / 10.0;
            let expected = ((1.0 - e2) * latitude.to_radians().tan()).atan().to_degrees();
            let geocentric = GEODETIC.changed(latitude);
            assert!((geocentric - expected).abs() < 1e-13, "{latitude}: {geocentric}");
            let back = GEOCENTRIC.on(Some(WGS84)).changed(geocentric);
            assert!((back - latitude).abs() < 1e-13, "{latitude}: {back}");
        }
    }

    #[test]
    fn latitudes_as_they_are_wanted_keep_their_bits() {
        for latitude in [45.0, 0.1, -33.333333333333336, 89.99999999999999] {
            assert_eq!(GEOCENTRIC.changed(latitude), latitude);
            assert_eq!(GEODETIC.on(Some(WGS84)).changed(latitude), latitude);
        }
        // The two ellipsoids differ by far less than a map shows.
        let other = GEODETIC.on(Some(GRS80)).changed(45.0);
        assert!(other != 45.0 && (other - 45.0).abs() < 1e-8, "{other}");
    }
}
