//! GeoJSON (RFC 7946): the polygons of one basin.

use super::json::{self, Value};
use super::{Polygon, Position};
use crate::text::Fault;

const EXPECTED: &str = "expected a Polygon or a MultiPolygon, or one Feature with one of them";

/// The polygons of a text.
pub fn read(text: &str) -> Result<Vec<Polygon>, Fault> {
    of_value(&json::parse(text)?).map_err(Fault::whole)
}

fn of_value(value: &Value) -> Result<Vec<Polygon>, String> {
    match text(value, "type")? {
        "FeatureCollection" => match list(member(value, "features")?)? {
            [feature] => of_value(feature),
            features => Err(format!(
                "a collection of {} features; expected one, a file a basin (ogr2ogr -f GeoJSON -where picks one of several, \
                 a dissolve makes one MultiPolygon of them)",
                features.len()
            )),
        },
        "Feature" => match member(value, "geometry")? {
            Value::Word("null") => Err(format!("a Feature without a geometry; {EXPECTED}")),
            geometry => of_geometry(geometry),
        },
        _ => of_geometry(value),
    }
}

fn of_geometry(value: &Value) -> Result<Vec<Polygon>, String> {
    match text(value, "type")? {
        "Polygon" => Ok(vec![polygon(member(value, "coordinates")?)?]),
        "MultiPolygon" => list(member(value, "coordinates")?)?.iter().map(polygon).collect(),
        kind => Err(format!("its type is '{kind}'; {EXPECTED}")),
    }
}

fn polygon(coordinates: &Value) -> Result<Polygon, String> {
    let ring = |ring: &Value| list(ring)?.iter().map(position).collect();
    list(coordinates)?.iter().map(ring).collect()
}

/// A position; a height behind longitude and latitude is not used.
fn position(value: &Value) -> Result<Position, String> {
    match list(value)? {
        [Value::Number(longitude), Value::Number(latitude), ..] => Ok((*longitude, *latitude)),
        _ => Err("a position has not two numbers in front; expected [longitude, latitude]".into()),
    }
}

fn member<'a>(value: &'a Value, name: &str) -> Result<&'a Value, String> {
    match value {
        Value::Object(members) => members.get(name).ok_or_else(|| format!("an object has no '{name}'; {EXPECTED}")),
        _ => Err(format!("a value stands where an object was due; {EXPECTED}")),
    }
}

fn text<'a>(value: &'a Value, name: &str) -> Result<&'a str, String> {
    match member(value, name)? {
        Value::Text(text) => Ok(text),
        _ => Err(format!("'{name}' is no text; {EXPECTED}")),
    }
}

fn list(value: &Value) -> Result<&[Value], String> {
    match value {
        Value::List(items) => Ok(items),
        _ => Err("a value stands where a list was due; expected coordinates in lists of lists, as in GeoJSON".into()),
    }
}
