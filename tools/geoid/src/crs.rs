//! The coordinate reference system of a grid, in the words of geographic information systems.

use crate::grid::Surface;
use crate::normal::{GRS80, NormalGravity, WGS84};

/// An ellipsoid's names: those of EPSG with their number, and ESRI's.
struct Names {
    ellipsoid: NormalGravity,
    system: &'static str,
    datum: &'static str,
    spheroid: &'static str,
    code: u32,
    esri: &'static str,
}

const NAMES: [Names; 2] = [
    Names { ellipsoid: WGS84, system: "WGS 84", datum: "WGS_1984", spheroid: "WGS 84", code: 4326, esri: "WGS_1984" },
    Names {
        ellipsoid: GRS80,
        system: "Unknown datum based upon the GRS 1980 ellipsoid",
        datum: "Not_specified_based_on_GRS_1980_ellipsoid",
        spheroid: "GRS 1980",
        code: 4019,
        esri: "GRS_1980",
    },
];

/// What stands behind a system's ellipsoid.
const MERIDIAN: &str = "PRIMEM[\"Greenwich\",0.0],UNIT[\"Degree\",0.0174532925199433]";

fn names(ellipsoid: &NormalGravity) -> &'static Names {
    NAMES.iter().find(|names| names.ellipsoid.name == ellipsoid.name).unwrap_or(&NAMES[0])
}

/// The system as well-known text, EPSG's where it has one. On a sphere the latitudes are geocentric.
pub fn well_known_text(surface: &Surface) -> String {
    match surface {
        Surface::Sphere(radius) => sphere(*radius),
        Surface::Ellipsoid(ellipsoid) => {
            let Names { system, datum, spheroid, code, .. } = names(ellipsoid);
            let shape = format!("SPHEROID[\"{spheroid}\",{},{}]", ellipsoid.a, 1.0 / ellipsoid.f);
            format!("GEOGCS[\"{system}\",DATUM[\"{datum}\",{shape}],{MERIDIAN},AUTHORITY[\"EPSG\",\"{code}\"]]")
        }
    }
}

/// The text of a `.prj` file, in ESRI's words.
pub fn esri_text(surface: &Surface) -> String {
    match surface {
        Surface::Sphere(radius) => sphere(*radius),
        Surface::Ellipsoid(ellipsoid) => {
            let name = names(ellipsoid).esri;
            let shape = format!("SPHEROID[\"{name}\",{:?},{}]", ellipsoid.a, 1.0 / ellipsoid.f);
            format!("GEOGCS[\"GCS_{name}\",DATUM[\"D_{name}\",{shape}],{MERIDIAN}]")
        }
    }
}

fn sphere(radius: f64) -> String {
    let shape = format!("SPHEROID[\"Sphere\",{radius:?},0.0]");
    format!("GEOGCS[\"Geocentric latitudes on a sphere\",DATUM[\"D_Sphere_of_the_field\",{shape}],{MERIDIAN}]")
}

/// What the latitudes are measured from.
pub fn latitude_name(surface: &Surface) -> &'static str {
    match surface {
        Surface::Sphere(_) => "geocentric latitude",
        Surface::Ellipsoid(_) => "geodetic latitude",
    }
}

#[cfg(test)]
mod tests {
    use super::*;

    #[test]
    fn systems_have_their_text() {
        assert_eq!(
            esri_text(&Surface::Ellipsoid(WGS84)),
            "GEOGCS[\"GCS_WGS_1984\",DATUM[\"D_WGS_1984\",SPHEROID[\"WGS_1984\",6378137.0,298.257223563]],\
             PRIMEM[\"Greenwich\",0.0],UNIT[\"Degree\",0.0174532925199433]]"
        );
        assert!(well_known_text(&Surface::Ellipsoid(GRS80)).ends_with("AUTHORITY[\"EPSG\",\"4019\"]]"));
        assert!(well_known_text(&Surface::Ellipsoid(GRS80)).contains("298.257222101"));
        assert!(esri_text(&Surface::Sphere(6378136.3)).contains("SPHEROID[\"Sphere\",6378136.3,0.0]"));
    }
}
