//! Well-known text (ISO 19125): POLYGON or MULTIPOLYGON.

use super::scan::Scan;
use super::{Polygon, Position};
use crate::text::Fault;

/// The polygons of a text.
pub fn read(text: &str) -> Result<Vec<Polygon>, Fault> {
    let mut scan = Scan::new(text);
    scan.skip_blank();
    let start = scan;
    let polygons = match word(&mut scan).as_str() {
        "POLYGON" => {
            dimensions(&mut scan)?;
            vec![polygon(&mut scan)?]
        }
        "MULTIPOLYGON" => {
            dimensions(&mut scan)?;
            list(&mut scan, polygon)?
        }
        _ => return Err(start.expected("POLYGON ((..)) or MULTIPOLYGON (((..)), ..)")),
    };
    scan.end("nothing behind the last parenthesis: a file has one basin")?;
    Ok(polygons)
}

fn word(scan: &mut Scan) -> String {
    scan.skip_blank();
    scan.take_while(|next| next.is_ascii_alphabetic()).to_ascii_uppercase()
}

/// A mark of positions with heights or measures; those are not used.
fn dimensions(scan: &mut Scan) -> Result<(), Fault> {
    match word(scan).as_str() {
        "" | "Z" | "M" | "ZM" => Ok(()),
        "EMPTY" => Err(scan.fault("the polygon is EMPTY; expected vertices")),
        _ => Err(scan.fault("a word stands behind the kind; expected Z, M, ZM or a parenthesis")),
    }
}

fn polygon(scan: &mut Scan) -> Result<Polygon, Fault> {
    list(scan, |scan| list(scan, position))
}

/// Items in parentheses, with commas between.
fn list<T>(scan: &mut Scan, item: impl Fn(&mut Scan) -> Result<T, Fault>) -> Result<Vec<T>, Fault> {
    if !scan.eat('(') {
        return Err(scan.expected("'('"));
    }
    let mut items = vec![item(scan)?];
    while scan.eat(',') {
        items.push(item(scan)?);
    }
    if scan.eat(')') { Ok(items) } else { Err(scan.expected("',' or ')'")) }
}

/// Longitude, latitude, and up to two numbers that are not used.
fn position(scan: &mut Scan) -> Result<Position, Fault> {
    let (longitude, latitude) = (number(scan)?, number(scan)?);
    for _ in 0..2 {
        scan.skip_blank();
        if !matches!(scan.peek(), Some(',' | ')') | None) {
            number(scan)?;
        }
    }
    Ok((longitude, latitude))
}

fn number(scan: &mut Scan) -> Result<f64, Fault> {
    scan.skip_blank();
    let start = *scan;
    let digits = scan.take_while(|next| matches!(next, '0'..='9' | '+' | '-' | '.' | 'e' | 'E'));
    digits.parse().map_err(|_| start.expected("a number: longitude and latitude with a blank between"))
}
