//! Lists of points in text files: a line of names, then a line a point, with commas between.

use std::path::Path;

use geopotential::Coefficients;

use crate::error::Error;
use crate::normal::NormalGravity;
use crate::output::read_whole;
use crate::text::{Fault, decoded};

/// What a list has beside latitude and longitude.
#[derive(Clone, Copy, Debug, PartialEq)]
pub enum Vertical {
    /// Geodetic latitudes, and metres above the ellipsoid.
    Height,
    /// Geocentric latitudes, and metres from the centre.
    Radius,
}

/// A list of points.
#[derive(Debug)]
pub struct PointList {
    /// The line of names as it stands in the file.
    pub heading: String,
    pub vertical: Vertical,
    pub points: Vec<Point>,
}

/// A point as it stands in the file.
#[derive(Clone, Debug, PartialEq)]
pub struct Point {
    /// Its line's number, from 1, and its text.
    pub number: usize,
    pub line: String,
    /// Degrees.
    pub latitude: f64,
    pub longitude: f64,
    /// Height or radius, m.
    pub vertical: f64,
}

/// Where a point is for the library, and how its directions turn.
#[derive(Clone, Copy, Debug)]
pub struct Place {
    pub radius: f64,
    /// Geocentric, rad.
    pub latitude: f64,
    /// rad.
    pub longitude: f64,
    /// Latitude of the list less the geocentric one, rad.
    pub tilt: f64,
}

impl Point {
    /// The place of a point whose heights are above an ellipsoid.
    pub fn place(&self, vertical: Vertical, ellipsoid: NormalGravity) -> Place {
        let given = self.latitude.to_radians();
        let (latitude, radius) = match vertical {
            Vertical::Height => ellipsoid.geocentric_above(given, self.vertical),
            Vertical::Radius => (given, self.vertical),
        };
        Place { radius, latitude, longitude: self.longitude.to_radians(), tilt: given - latitude }
    }
}

impl Place {
    /// A vector's components north, east and up along the radius as those by the list's latitudes: north and up turn about east.
    pub fn turned(&self, [north, east, up]: [f64; 3]) -> [f64; 3] {
        if self.tilt == 0.0 {
            return [north, east, up];
        }
        let (sin, cos) = self.tilt.sin_cos();
        [north * cos - up * sin, east, north * sin + up * cos]
    }
}

/// Load a list.
pub fn load(path: &Path) -> Result<PointList, Error> {
    parse(&decoded(&read_whole(path)?)).map_err(|fault| fault.in_file(path))
}

/// Check that no point lies deep inside a field's body.
pub fn check_radii(path: &Path, points: &[Point], places: &[Place], field: &Coefficients) -> Result<(), Error> {
    match points.iter().zip(places).find(|(_, place)| place.radius < crate::body::INSIDE * field.radius) {
        None => Ok(()),
        Some((point, place)) => {
            let what = format!(
                "{} m from the centre, deep below the field's radius {} (metres expected); --any-body takes it as it is",
                place.radius.round(),
                field.radius
            );
            Err(Fault::at(point.number, what).in_file(path))
        }
    }
}

/// The places of the three columns.
struct Columns {
    latitude: usize,
    longitude: usize,
    vertical: usize,
    count: usize,
}

fn parse(text: &str) -> Result<PointList, Fault> {
    let mut lines = (1..).zip(text.lines()).filter(|(_, line)| !is_comment(line));
    let (number, heading) = lines.next().ok_or_else(|| Fault::at(1, "the list is empty; expected a line of names"))?;
    let (columns, vertical) = columns(heading).map_err(|what| Fault::at(number, what))?;
    let points: Result<Vec<Point>, Fault> =
        lines.map(|(number, line)| point(number, line, &columns).map_err(|what| Fault::at(number, what))).collect();
    Ok(PointList { heading: heading.trim_end().to_string(), vertical, points: points? })
}

/// Whether a line is blank or begins with a `#`.
pub fn is_comment(line: &str) -> bool {
    line.trim().is_empty() || line.starts_with('#')
}

fn columns(heading: &str) -> Result<(Columns, Vertical), String> {
    let names: Vec<String> = fields(heading).iter().map(|name| name.trim().to_ascii_lowercase()).collect();
    let find = |wanted: &[&str]| names.iter().position(|name| wanted.contains(&name.as_str()));
    let expected = |what: &str| format!("no column {what} in '{}'; expected names such as latitude,longitude,height", heading.trim());
    let latitude = find(&["latitude", "lat"]).ok_or_else(|| expected("latitude"))?;
    let longitude = find(&["longitude", "lon"]).ok_or_else(|| expected("longitude"))?;
    let (vertical, kind) = match (find(&["height", "h"]), find(&["radius", "r"])) {
        (Some(column), None) => (column, Vertical::Height),
        (None, Some(column)) => (column, Vertical::Radius),
        (Some(_), Some(_)) => return Err("columns height and radius are both there; expected one of them".into()),
        (None, None) => return Err(expected("height (above the ellipsoid) or radius (from the centre)")),
    };
    Ok((Columns { latitude, longitude, vertical, count: names.len() }, kind))
}

fn point(number: usize, line: &str, columns: &Columns) -> Result<Point, String> {
    let fields = fields(line);
    if fields.len() != columns.count {
        return Err(format!("{} fields; expected {}, as in the line of names", fields.len(), columns.count));
    }
    let value = |column: usize, name: &str, largest: f64| match fields[column].trim().parse::<f64>() {
        Ok(value) if value.abs() <= largest => Ok(value),
        _ => Err(format!("{name} is '{}'; expected a number from -{largest} to {largest}", fields[column].trim())),
    };
    Ok(Point {
        number,
        line: line.trim_end().to_string(),
        latitude: value(columns.latitude, "latitude", 90.0)?,
        longitude: value(columns.longitude, "longitude", 360.0)?,
        vertical: value(columns.vertical, "height or radius", 1e12)?,
    })
}

/// The fields of a line; a comma between quotation marks is no end of a field.
pub fn fields(line: &str) -> Vec<String> {
    let mut fields = vec![String::new()];
    let mut quoted = false;
    for character in line.chars() {
        match character {
            '"' => quoted = !quoted,
            ',' if !quoted => fields.push(String::new()),
            _ => fields.last_mut().expect("there is a first one").push(character),
        }
    }
    fields
}

#[cfg(test)]
mod tests {
    use super::*;

    #[test]
    fn columns_are_known_by_their_names() {
        let list = parse("# stations\nname,Lon,LAT,h\n\n\"Ob, mouth\", 73.5 ,66.5,12\r\n").unwrap();
        assert_eq!((list.heading.as_str(), list.vertical), ("name,Lon,LAT,h", Vertical::Height));
        let expected = Point { number: 4, line: "\"Ob, mouth\", 73.5 ,66.5,12".into(), latitude: 66.5, longitude: 73.5, vertical: 12.0 };
        assert_eq!(list.points, [expected]);
        assert_eq!(parse("lat,lon,radius\n").unwrap().vertical, Vertical::Radius);
    }

    #[test]
    fn each_mistake_has_its_line() {
        let refused = |text: &str| parse(text).unwrap_err().in_file(Path::new("list")).to_string();
        assert_eq!(refused(""), "list: line 1: the list is empty; expected a line of names");
        assert!(refused("lat,lon\n").contains("line 1: no column height (above the ellipsoid) or radius"));
        assert!(refused("50,10,0\n").contains("line 1: no column latitude in '50,10,0'"));
        assert!(refused("lat,lon,height,radius\n").contains("both there"));
        assert_eq!(refused("lat,lon,h\n1,2,3\n1,2\n"), "list: line 3: 2 fields; expected 3, as in the line of names");
        assert_eq!(refused("lat,lon,h\n91,2,3\n"), "list: line 2: latitude is '91'; expected a number from -90 to 90");
        assert_eq!(refused("lat,lon,h\n1,nan,3\n"), "list: line 2: longitude is 'nan'; expected a number from -360 to 360");
    }
}
