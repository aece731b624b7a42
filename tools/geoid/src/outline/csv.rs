//! A list of an outline's vertices: lines `longitude,latitude`, with or without a line of names in front.

use super::{Polygon, Position};
use crate::point_list::{fields, is_comment};
use crate::text::Fault;

const LONGITUDE: [&str; 3] = ["lon", "longitude", "x"];
const LATITUDE: [&str; 3] = ["lat", "latitude", "y"];

/// The one ring of a text.
pub fn read(text: &str) -> Result<Vec<Polygon>, Fault> {
    let mut lines = (1..).zip(text.lines()).filter(|(_, line)| !is_comment(line)).peekable();
    let Some(&(number, first)) = lines.peek() else { return Err(Fault::at(1, "the list is empty; expected lines longitude,latitude")) };
    let named = names(first).map_err(|what| Fault::at(number, what))?;
    lines.next_if(|_| named.is_some());
    let swapped = named.unwrap_or(false);
    let ring = lines.map(|(number, line)| position(line, swapped).map_err(|what| Fault::at(number, what)));
    Ok(vec![vec![ring.collect::<Result<_, _>>()?]])
}

/// Whether a line of names has the latitude first; none where the line has numbers.
fn names(line: &str) -> Result<Option<bool>, String> {
    let names: Vec<String> = fields(line).iter().map(|name| name.trim().to_ascii_lowercase()).collect();
    if names.iter().all(|name| name.parse::<f64>().is_ok()) {
        return Ok(None);
    }
    match [names.first(), names.get(1)].map(|name| name.map_or("", String::as_str)) {
        [first, second] if names.len() == 2 && LONGITUDE.contains(&first) && LATITUDE.contains(&second) => Ok(Some(false)),
        [first, second] if names.len() == 2 && LATITUDE.contains(&first) && LONGITUDE.contains(&second) => Ok(Some(true)),
        _ => Err(format!("'{}'; expected the names lon,lat, or two numbers, longitude and latitude", line.trim())),
    }
}

fn position(line: &str, swapped: bool) -> Result<Position, String> {
    let fields = fields(line);
    let numbers: Option<Vec<f64>> = fields.iter().map(|field| field.trim().parse().ok()).collect();
    match numbers.as_deref() {
        Some(&[first, second]) => Ok(if swapped { (second, first) } else { (first, second) }),
        _ => Err(format!("'{}'; expected two numbers with a comma between, longitude and latitude", line.trim())),
    }
}
