//! Outlines of basins in files: GeoJSON, well-known text, or a list of longitudes and latitudes.

mod csv;
mod geojson;
mod json;
mod latitudes;
mod ring;
mod scan;
mod wkt;

use std::path::Path;

pub use latitudes::{Latitudes, OUTLINE_ELLIPSOID};
pub use ring::Ring;

use crate::error::Error;
use crate::field_file::has_extension;
use crate::foreign;
use crate::output::{note, read_whole};
use crate::text::{Fault, decoded};

/// A vertex as a file has it: longitude and latitude, degrees.
pub type Position = (f64, f64);
/// A polygon as a file has it: its outer ring, then its holes.
type Polygon = Vec<Vec<Position>>;
type Reader = fn(&str) -> Result<Vec<Polygon>, Fault>;

/// How files are read, by their extensions.
const READERS: [(&str, Reader); 4] = [("geojson", geojson::read), ("json", geojson::read), ("wkt", wkt::read), ("csv", csv::read)];
/// An outline's file that is not read here.
const SHAPEFILE: &str = "shp";

/// A basin's outline: outer rings, whose insides are added, and holes, whose insides are taken off.
#[derive(Clone, Debug, PartialEq)]
pub struct Outline {
    pub rings: Vec<Ring>,
}

/// Whether a file's name is an outline's.
pub fn is_outline(path: &Path) -> bool {
    has_extension(path, SHAPEFILE) || reader(path).is_some()
}

fn reader(path: &Path) -> Option<Reader> {
    READERS.into_iter().find(|(extension, _)| has_extension(path, extension)).map(|(_, reader)| reader)
}

/// Load an outline, in the format that its file's name says, each vertex at the latitude that is wanted; longitudes that were
/// shifted are a note on standard error.
pub fn load(path: &Path, latitudes: Latitudes) -> Result<Outline, Error> {
    let Some(read) = reader(path) else { return Err(no_reader(path)) };
    let bytes = read_whole(path)?;
    if let Some(kind) = foreign::by_signature(&bytes) {
        return Err(Error::in_file(path, format!("looks like {kind}; expected an outline as text")));
    }
    let polygons = read(&decoded(&bytes)).map_err(|fault| fault.in_file(path))?;
    let outline = Outline::new(polygons).map_err(|what| Error::in_file(path, what))?;
    let shifted = outline.rings.iter().filter(|ring| ring.shifted).count();
    if shifted > 0 {
        note(&format!(
            "{}: {shifted} of {} rings cross 180 degrees (or the circle's other end): longitudes are shifted by 360 degrees there, \
             since only their differences matter; edges go the shorter way round",
            path.display(),
            outline.rings.len()
        ));
    }
    Ok(Outline { rings: outline.rings.into_iter().map(|ring| ring.changed(latitudes)).collect() })
}

fn no_reader(path: &Path) -> Error {
    let convert = format!("ogr2ogr -f GeoJSON -t_srs EPSG:4326 {} {}", path.with_extension("geojson").display(), path.display());
    match has_extension(path, SHAPEFILE) {
        true => Error::in_file(path, format!("a shapefile is not read here; convert it: {convert}")),
        false => Error::usage(format!(
            "'{}' is no outline's name; expected one that ends with .geojson, .json, .wkt or .csv (others: {convert})",
            path.display()
        )),
    }
}

impl Outline {
    /// The outline of a file's polygons: the first ring of each is the outer one, whichever way round it goes.
    fn new(polygons: Vec<Polygon>) -> Result<Outline, String> {
        let rings = polygons.into_iter().flat_map(|polygon| polygon.into_iter().enumerate());
        let ring = |(number, (place, positions)): (usize, (usize, Vec<Position>))| {
            let name = if place == 0 { "" } else { " (a hole)" };
            Ring::new(positions, place > 0).map_err(|what| format!("ring {number}{name}: {what}"))
        };
        let rings: Vec<Ring> = (1..).zip(rings).map(ring).collect::<Result<_, _>>()?;
        if rings.is_empty() { Err("no ring; expected a polygon's vertices".into()) } else { Ok(Outline { rings }) }
    }
}
