//! What a grid's file says of its values: which they are, of which model, what was taken off, where, and by which command.

use crate::grid::Surface;
use crate::heights::Heights;
use crate::quantity::Quantity;
use crate::reduction::Reduction;

/// Where a grid's values come from.
pub struct Provenance {
    /// What the values are, in its SI unit.
    pub quantity: Quantity,
    pub title: String,
    /// The model's name, its file and degree, and the time that it is of.
    pub source: String,
    /// What was taken off the field.
    pub reduction: Reduction,
    /// How heights are made; none for another quantity.
    pub heights: Option<Heights>,
    pub surface: Surface,
    /// The program and its command line.
    pub history: String,
}

impl Provenance {
    /// The lines below a map's title: of what the values are, what was taken off, and where they are.
    pub fn lines(&self) -> [String; 3] {
        [self.source.clone(), self.taken(), self.place()]
    }

    /// What a file's comment says: what was taken off, and where the values are.
    pub fn comment(&self) -> String {
        format!("{}; {}", self.taken(), self.place())
    }

    fn taken(&self) -> String {
        let datum = self.heights.and_then(|heights| heights.datum_line()).map_or(String::new(), |line| format!("; {line}"));
        self.reduction.line() + &datum
    }

    fn place(&self) -> String {
        let gamma = self.heights.map_or(String::new(), |heights| format!(", {}", heights.gamma_line()));
        match self.surface {
            Surface::Sphere(radius) => format!("sphere r = {radius} m (geocentric latitudes){gamma}"),
            Surface::Ellipsoid(ellipsoid) => format!("ellipsoid {} (geodetic latitudes){gamma}", ellipsoid.name),
        }
    }

    /// The name of the values' variable.
    pub fn variable(&self) -> String {
        self.quantity.name.replace('-', "_")
    }

    /// The unit in the way that CF writes it.
    pub fn cf_unit(&self) -> &'static str {
        match self.quantity.si_unit {
            "m²/s²" => "m2 s-2",
            "m/s²" => "m s-2",
            "1/s²" => "s-2",
            unit => unit,
        }
    }

    /// CF's own name of the quantity, where it has one that says just this: geoid heights above an ellipsoid are those at its
    /// points, less its own normal field, by its own normal gravity. Without degree 0 the ellipsoid's size is left open.
    pub fn standard_name(&self) -> Option<&'static str> {
        let own = self.surface.ellipsoid()?;
        let of_its_own = self.reduction == Reduction { normal: Some(own), drop_zero: false };
        let by_its_own = self.heights.is_some_and(|heights| heights.gamma == Some(own));
        (of_its_own && by_its_own).then_some("geoid_height_above_reference_ellipsoid")
    }
}
