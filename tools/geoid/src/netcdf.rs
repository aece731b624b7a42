//! Grids as NetCDF-3 files with the names of the CF conventions (1.8), 64-bit numbers.
//!
//! A file has its dimensions, its own attributes and its variables, each with attributes and the place of its numbers; then the
//! numbers. Everything is big-endian, names and texts are filled up to four bytes.

use std::io::{self, Write};

use crate::crs::{latitude_name, well_known_text};
use crate::grid::{Nodes, Surface};
use crate::provenance::Provenance;

/// Tags of lists, and types of numbers.
const DIMENSIONS: u32 = 10;
const VARIABLES: u32 = 11;
const ATTRIBUTES: u32 = 12;
const CHAR: u32 = 2;
const INT: u32 = 4;
const DOUBLE: u32 = 6;
/// Places below this have 32 bits, in the classic variant of the format; others have 64.
const CLASSIC: u64 = 1 << 31;
/// The numbers of the dimensions.
const LAT: u32 = 0;
const LON: u32 = 1;

/// An attribute: a text, or one number.
enum Value {
    Text(String),
    Number(f64),
}

type Attribute = (&'static str, Value);

struct Variable<'a> {
    name: String,
    dimensions: &'a [u32],
    attributes: Vec<Attribute>,
    kind: u32,
    /// Bytes of its numbers.
    size: u64,
}

/// Write a grid. Values that are no numbers stay as they are, NaN is the mark of a missing one.
pub fn write(nodes: &Nodes, values: &[f64], about: &Provenance, out: &mut dyn Write) -> io::Result<()> {
    out.write_all(&head(nodes, about))?;
    // The system's variable has attributes and no number of its own.
    out.write_all(&0u32.to_be_bytes())?;
    for numbers in [&nodes.latitudes[..], &nodes.longitudes, values] {
        for number in numbers {
            out.write_all(&number.to_be_bytes())?;
        }
    }
    Ok(())
}

/// Everything before the numbers. The places of the numbers depend on its length, which does not depend on them.
fn head(nodes: &Nodes, about: &Provenance) -> Vec<u8> {
    let variables = variables(nodes, about);
    let numbers: u64 = variables.iter().map(|variable| variable.size).sum();
    let wide = encoded(nodes, about, &variables, 0, true).len() as u64 + numbers > CLASSIC;
    let start = encoded(nodes, about, &variables, 0, wide).len() as u64;
    encoded(nodes, about, &variables, start, wide)
}

fn encoded(nodes: &Nodes, about: &Provenance, variables: &[Variable], start: u64, wide: bool) -> Vec<u8> {
    let mut bytes = vec![b'C', b'D', b'F', if wide { 2 } else { 1 }];
    put(&mut bytes, 0); // no records
    put(&mut bytes, DIMENSIONS);
    put(&mut bytes, 2);
    for (name, length) in [("lat", nodes.latitudes.len()), ("lon", nodes.longitudes.len())] {
        put_text(&mut bytes, name);
        put(&mut bytes, length as u32);
    }
    put_attributes(&mut bytes, &global(about));
    put(&mut bytes, VARIABLES);
    put(&mut bytes, variables.len() as u32);
    let mut place = start;
    for variable in variables {
        put_variable(&mut bytes, variable, place, wide);
        place += variable.size;
    }
    bytes
}

fn put(bytes: &mut Vec<u8>, number: u32) {
    bytes.extend(number.to_be_bytes());
}

/// A text behind its length, filled up with zeros.
fn put_text(bytes: &mut Vec<u8>, text: &str) {
    put(bytes, text.len() as u32);
    bytes.extend(text.as_bytes());
    bytes.resize(bytes.len().next_multiple_of(4), 0);
}

fn put_attributes(bytes: &mut Vec<u8>, attributes: &[Attribute]) {
    put(bytes, ATTRIBUTES);
    put(bytes, attributes.len() as u32);
    for (name, value) in attributes {
        put_text(bytes, name);
        match value {
            Value::Text(text) => {
                put(bytes, CHAR);
                put_text(bytes, text);
            }
            Value::Number(number) => {
                put(bytes, DOUBLE);
                put(bytes, 1);
                bytes.extend(number.to_be_bytes());
            }
        }
    }
}

fn put_variable(bytes: &mut Vec<u8>, variable: &Variable, place: u64, wide: bool) {
    put_text(bytes, &variable.name);
    put(bytes, variable.dimensions.len() as u32);
    variable.dimensions.iter().for_each(|&dimension| put(bytes, dimension));
    put_attributes(bytes, &variable.attributes);
    put(bytes, variable.kind);
    put(bytes, u32::try_from(variable.size).unwrap_or(u32::MAX));
    if wide { bytes.extend(place.to_be_bytes()) } else { put(bytes, place as u32) }
}

fn text(name: &'static str, text: impl Into<String>) -> Attribute {
    (name, Value::Text(text.into()))
}

fn global(about: &Provenance) -> Vec<Attribute> {
    vec![
        text("Conventions", "CF-1.8"),
        text("title", &about.title),
        text("source", &about.source),
        text("comment", about.comment()),
        text("history", &about.history),
    ]
}

fn variables<'a>(nodes: &Nodes, about: &Provenance) -> Vec<Variable<'a>> {
    let (rows, columns) = (nodes.latitudes.len() as u64, nodes.longitudes.len() as u64);
    let axis = |name: &str, dimensions: &'a [u32], size: u64, attributes: Vec<Attribute>| Variable {
        name: name.to_string(),
        dimensions,
        attributes,
        kind: DOUBLE,
        size: 8 * size,
    };
    let latitude = [("long_name", latitude_name(&about.surface)), ("standard_name", "latitude"), ("units", "degrees_north"), ("axis", "Y")];
    let longitude = [("long_name", "longitude"), ("standard_name", "longitude"), ("units", "degrees_east"), ("axis", "X")];
    let texts = |pairs: [(&'static str, &'static str); 4]| Vec::from(pairs.map(|(name, value)| text(name, value)));
    vec![
        Variable { name: "crs".to_string(), dimensions: &[], attributes: system(&about.surface), kind: INT, size: 4 },
        axis("lat", &[LAT], rows, texts(latitude)),
        axis("lon", &[LON], columns, texts(longitude)),
        axis(&about.variable(), &[LAT, LON], rows * columns, described(about)),
    ]
}

/// The attributes of the grid mapping.
fn system(surface: &Surface) -> Vec<Attribute> {
    let mut attributes = vec![text("grid_mapping_name", "latitude_longitude")];
    match surface {
        Surface::Sphere(radius) => attributes.push(("earth_radius", Value::Number(*radius))),
        Surface::Ellipsoid(ellipsoid) => {
            attributes.push(("semi_major_axis", Value::Number(ellipsoid.a)));
            attributes.push(("inverse_flattening", Value::Number(1.0 / ellipsoid.f)));
        }
    }
    attributes.push(("longitude_of_prime_meridian", Value::Number(0.0)));
    attributes.push(text("crs_wkt", well_known_text(surface)));
    attributes
}

/// The attributes of the values.
fn described(about: &Provenance) -> Vec<Attribute> {
    let mut attributes = vec![text("long_name", about.quantity.title), text("units", about.cf_unit())];
    attributes.extend(about.standard_name().map(|name| text("standard_name", name)));
    attributes.push(text("grid_mapping", "crs"));
    attributes.push(("_FillValue", Value::Number(f64::NAN)));
    attributes
}

#[cfg(test)]
mod tests {
    use super::*;
    use crate::grid::Region;
    use crate::quantity::Quantity;
    use crate::reduction::Reduction;

    /// The head of a square grid of so many nodes a side.
    fn head_of(nodes: usize) -> Vec<u8> {
        let axis: Vec<f64> = (0..nodes).map(|k| k as f64).collect();
        let region = Region { west: 0.0, east: 1.0, south: 0.0, north: 1.0 };
        let about = Provenance {
            quantity: Quantity::named(None).unwrap(),
            title: "t".into(),
            source: "s".into(),
            reduction: Reduction { normal: None, drop_zero: false },
            heights: None,
            surface: Surface::Sphere(1.0),
            history: "h".into(),
        };
        head(&Nodes { region, step: 1.0, latitudes: axis.clone(), longitudes: axis }, &about)
    }

    #[test]
    fn places_are_wide_where_they_must_be() {
        let (small, large) = (head_of(3), head_of(1 << 14));
        assert_eq!((&small[..4], &large[..4]), (&b"CDF\x01"[..], &b"CDF\x02"[..]));
        // Four variables, whose places have four bytes more each.
        assert_eq!(large.len(), small.len() + 16);
        let last = |head: &[u8], bytes: usize| head[head.len() - bytes..].iter().fold(0u64, |place, &byte| place << 8 | u64::from(byte));
        assert_eq!(last(&small, 4), small.len() as u64 + 4 + 2 * 3 * 8);
        assert_eq!(last(&large, 8), large.len() as u64 + 4 + 2 * (1 << 14) * 8);
    }
}
