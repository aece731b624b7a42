//! The functionals of a field by their names on the command line.

use std::path::{Path, PathBuf};

use geopotential::Functional;

use crate::error::Error;
use crate::love;

/// A functional's name, and how a table or a map shows it. Text files have the library's own SI numbers.
#[derive(Clone, Copy)]
pub struct Quantity {
    pub name: &'static str,
    /// The title of a map.
    pub title: &'static str,
    /// The unit of the library's numbers.
    pub si_unit: &'static str,
    /// The unit that tables and maps show.
    pub unit: &'static str,
    /// How many of that unit make one SI unit.
    pub per_si: f64,
    /// The library's functional, given load Love numbers, which only water heights use.
    pub functional: fn(&[f64]) -> Functional<'_>,
}

/// In the order of the library's own list.
pub const QUANTITIES: [Quantity; 6] = [
    Quantity {
        name: "potential",
        title: "Gravitational potential",
        si_unit: "m²/s²",
        unit: "m²/s²",
        per_si: 1.0,
        functional: |_| Functional::Potential,
    },
    Quantity { name: GEOID_HEIGHT, title: "Geoid height", si_unit: "m", unit: "m", per_si: 1.0, functional: |_| Functional::GeoidHeight },
    Quantity {
        name: "gravity-disturbance",
        title: "Gravity disturbance",
        si_unit: "m/s²",
        unit: "mGal",
        per_si: 1e5,
        functional: |_| Functional::GravityDisturbance,
    },
    Quantity {
        name: "gravity-anomaly",
        title: "Gravity anomaly",
        si_unit: "m/s²",
        unit: "mGal",
        per_si: 1e5,
        functional: |_| Functional::GravityAnomaly,
    },
    Quantity {
        name: "radial-gradient",
        title: "Radial gravity gradient",
        si_unit: "1/s²",
        unit: "E",
        per_si: 1e9,
        functional: |_| Functional::RadialGradient,
    },
    Quantity {
        name: WATER_HEIGHT,
        title: "Equivalent water height",
        si_unit: "m",
        unit: "m",
        per_si: 1.0,
        functional: |love| Functional::WaterHeight { love },
    },
];

/// The one quantity that needs load Love numbers.
const WATER_HEIGHT: &str = "water-height";
/// The one quantity that divides by a gravity.
const GEOID_HEIGHT: &str = "geoid-height";

impl Quantity {
    /// The quantity of a name; none given is the geoid height.
    pub fn named(text: Option<&str>) -> Result<Quantity, Error> {
        let text = text.unwrap_or(GEOID_HEIGHT);
        QUANTITIES.into_iter().find(|quantity| quantity.name == text).ok_or_else(|| {
            let names = QUANTITIES.map(|quantity| quantity.name).join(", ");
            Error::usage(format!("unknown functional '{text}'; expected one of {names}"))
        })
    }

    pub fn is_water(&self) -> bool {
        self.name == WATER_HEIGHT
    }

    pub fn is_height(&self) -> bool {
        self.name == GEOID_HEIGHT
    }

    /// The unit of a table of averages, and how many of it make one SI unit: water is told in millimetres.
    pub fn table_unit(&self) -> (&'static str, f64) {
        if self.is_water() { ("mm of water", 1e3) } else { (self.si_unit, 1.0) }
    }

    /// The load Love numbers that this quantity needs: those of `path` for water heights, else none.
    pub fn love(&self, path: Option<&Path>) -> Result<Love, Error> {
        match path {
            _ if !self.is_water() => Ok(Love::default()),
            None => Err(Error::usage(format!("{WATER_HEIGHT} needs load Love numbers: --love FILE"))),
            Some(path) => Love::load(path),
        }
    }
}

/// The load Love numbers of a file; none for quantities that need none.
#[derive(Default)]
pub struct Love {
    pub numbers: Vec<f64>,
    path: Option<PathBuf>,
}

impl Love {
    /// Load the numbers; a water height divides by `1 + k'`, which is above 0.
    fn load(path: &Path) -> Result<Love, Error> {
        let numbers = love::load(path)?;
        match numbers.iter().position(|&k| k <= -1.0) {
            None => Ok(Love { numbers, path: Some(path.to_path_buf()) }),
            Some(degree) => Err(Error::in_file(path, below(degree, numbers[degree]))),
        }
    }

    /// Check that there is a number for each degree used.
    pub fn check(&self, max_degree: usize) -> Result<(), Error> {
        match &self.path {
            Some(path) if self.numbers.len() <= max_degree => Err(Error::failure(format!(
                "refused (5 LOVE): {} has {} load Love numbers; degree {max_degree} needs {}",
                path.display(),
                self.numbers.len(),
                max_degree + 1
            ))),
            _ => Ok(()),
        }
    }
}

fn below(degree: usize, k: f64) -> String {
    let why = match degree {
        1 if k == -1.0 => {
            "; -1 is k' of degree 1 where the origin is the whole Earth's centre of mass, in which degree 1 says nothing of water"
        }
        _ if k < -1.0 => "; h' has such numbers",
        _ => "",
    };
    format!("k' of degree {degree} is {k}; a water height divides by 1 + k', expected k' above -1{why}")
}
