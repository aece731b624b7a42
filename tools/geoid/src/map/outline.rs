//! Outlines of basins over a map's field.

use crate::canvas::{Area, Canvas};
use crate::colours::OUTLINE;
use crate::grid::Region;
use crate::outline::{Position, Ring};

/// How many pixels a line is thick.
const THICKNESS: isize = 2;

/// Draw rings into the area of a region. A ring stands wherever the region has its longitudes, on both sides of the date line.
pub fn draw(canvas: &mut Canvas, area: Area, region: Region, rings: &[Ring]) {
    for ring in rings {
        for circles in copies(ring, region) {
            let moved = |&(longitude, latitude): &Position| (longitude + 360.0 * circles, latitude);
            let vertices: Vec<Position> = ring.vertices.iter().map(moved).collect();
            for (&from, &to) in vertices.iter().zip(vertices.iter().cycle().skip(1)) {
                if let Some(ends) = clipped(region, from, to) {
                    line(canvas, area, ends.map(|end| pixel(end, region, area)));
                }
            }
        }
    }
}

/// The whole circles by which a ring may be moved so that a part of it can lie in a region.
fn copies(ring: &Ring, region: Region) -> impl Iterator<Item = f64> + use<> {
    let longitudes = || ring.vertices.iter().map(|vertex| vertex.0);
    let (west, east) = (longitudes().fold(f64::INFINITY, f64::min), longitudes().fold(f64::NEG_INFINITY, f64::max));
    let (first, last) = (((region.west - east) / 360.0).ceil(), ((region.east - west) / 360.0).floor());
    (first as i32..=last as i32).map(f64::from)
}

/// The part of an edge that lies in a region (Liang and Barsky).
fn clipped(region: Region, from: Position, to: Position) -> Option<[Position; 2]> {
    let (dx, dy) = (to.0 - from.0, to.1 - from.1);
    let sides = [(-dx, from.0 - region.west), (dx, region.east - from.0), (-dy, from.1 - region.south), (dy, region.north - from.1)];
    let (mut enters, mut leaves): (f64, f64) = (0.0, 1.0);
    for (way, room) in sides {
        if way < 0.0 {
            enters = enters.max(room / way);
        } else if way > 0.0 {
            leaves = leaves.min(room / way);
        } else if room < 0.0 {
            return None;
        }
    }
    let at = |part: f64| (from.0 + part * dx, from.1 + part * dy);
    (enters <= leaves).then(|| [at(enters), at(leaves)])
}

/// The pixel in which a point of the region lies.
fn pixel((longitude, latitude): Position, region: Region, area: Area) -> (isize, isize) {
    let place = |share: f64, pixels: usize| ((share * pixels as f64) as isize).min(pixels as isize - 1);
    let x = place((longitude - region.west) / (region.east - region.west), area.width);
    let y = place((region.north - latitude) / (region.north - region.south), area.height);
    (x, y)
}

/// A straight line from one pixel of the area to another, both drawn.
fn line(canvas: &mut Canvas, area: Area, [from, to]: [(isize, isize); 2]) {
    let (dx, dy) = (to.0 - from.0, to.1 - from.1);
    let steps = dx.abs().max(dy.abs());
    for step in 0..=steps {
        let part = step as f64 / steps.max(1) as f64;
        dot(canvas, area, from.0 + (part * dx as f64).round() as isize, from.1 + (part * dy as f64).round() as isize);
    }
}

/// A line's thickness at a pixel of the area, outside of which nothing is drawn.
fn dot(canvas: &mut Canvas, area: Area, x: isize, y: isize) {
    let (width, height) = (area.width as isize, area.height as isize);
    for y in y..(y + THICKNESS).min(height) {
        for x in x..(x + THICKNESS).min(width) {
            canvas.set(area.left as isize + x, area.top as isize + y, OUTLINE);
        }
    }
}
