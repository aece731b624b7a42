//! The frame of a map: black and white lengths between graticule lines, with their labels.

use super::LABEL;
use crate::canvas::{Align, Area, Canvas};
use crate::colours::{BLACK, WHITE};
use crate::font::HEIGHT;
use crate::grid::Region;
use crate::scale::ticks;

/// Thickness of the frame, and the room between it and a label.
const BAND: usize = 7;
const ROOM: usize = 8;
/// Steps between graticule lines, degrees.
const STEPS: [f64; 14] = [0.01, 0.02, 0.05, 0.1, 0.2, 0.5, 1.0, 2.0, 5.0, 10.0, 15.0, 30.0, 45.0, 60.0];
/// The least pixels between two meridians of the graticule, and between two parallels.
const MERIDIANS: usize = 110;
const PARALLELS: usize = 80;

/// The lines of one kind: their step, those on the edge too, and those inside.
pub struct Lines {
    pub step: f64,
    pub all: Vec<f64>,
    pub inside: Vec<f64>,
}

/// The meridians and the parallels of a region that is drawn into an area.
pub fn graticule(region: Region, area: Area) -> (Lines, Lines) {
    (lines(region.west, region.east, area.width / MERIDIANS), lines(region.south, region.north, area.height / PARALLELS))
}

fn lines(low: f64, high: f64, parts: usize) -> Lines {
    let step = STEPS.into_iter().find(|step| (high - low) / step <= parts.max(1) as f64).unwrap_or(90.0);
    let all = ticks(low, high, step);
    let inside = all.iter().copied().filter(|&line| line > low && line < high).collect();
    Lines { step, all, inside }
}

/// The pixel of a coordinate along a side.
pub fn place_of(value: f64, from: f64, to: f64, pixels: usize) -> usize {
    ((value - from) / (to - from) * pixels as f64).round() as usize
}

/// Draw the frame around the field, and the labels of the graticule.
pub fn draw(canvas: &mut Canvas, area: Area, region: Region) {
    let (meridians, parallels) = graticule(region, area);
    canvas.outline(area, BAND, WHITE);
    for (from, to) in lengths(&meridians, region.west, region.east, area.width) {
        let length = Area { left: area.left + from, width: to - from, top: area.top - BAND, height: BAND };
        canvas.fill(length, BLACK);
        canvas.fill(Area { top: area.top + area.height, ..length }, BLACK);
    }
    for (from, to) in lengths(&parallels, region.north, region.south, area.height) {
        let length = Area { left: area.left - BAND, width: BAND, top: area.top + from, height: to - from };
        canvas.fill(length, BLACK);
        canvas.fill(Area { left: area.left + area.width, ..length }, BLACK);
    }
    canvas.outline(area, 1, BLACK);
    canvas.outline(area.grown(BAND), 1, BLACK);
    labels(canvas, area, region, &meridians, &parallels);
}

/// Every other length of a side, as pixels from and to; lengths are counted from a fixed line, so
/// that opposite maps meet.
fn lengths(lines: &Lines, from: f64, to: f64, pixels: usize) -> Vec<(usize, usize)> {
    let mut cuts = vec![from.min(to)];
    cuts.extend(&lines.inside);
    cuts.push(from.max(to));
    let black = |low: f64, high: f64| ((low + high) / 2.0 / lines.step).floor().rem_euclid(2.0) == 0.0;
    cuts.windows(2)
        .filter(|pair| black(pair[0], pair[1]))
        .map(|pair| {
            let ends = [pair[0], pair[1]].map(|value| place_of(value, from, to, pixels));
            (ends[0].min(ends[1]), ends[0].max(ends[1]))
        })
        .collect()
}

fn labels(canvas: &mut Canvas, area: Area, region: Region, meridians: &Lines, parallels: &Lines) {
    let below = area.top + area.height + BAND + ROOM;
    for &longitude in &meridians.all {
        let x = area.left + place_of(longitude, region.west, region.east, area.width);
        canvas.text((x, below), Align::Centre, &longitude_name(longitude, meridians.step), LABEL, BLACK);
    }
    let beside = area.left - BAND - ROOM;
    for &latitude in &parallels.all {
        let y = area.top + place_of(latitude, region.north, region.south, area.height);
        canvas.text((beside, y - HEIGHT), Align::Right, &latitude_name(latitude, parallels.step), LABEL, BLACK);
    }
}

/// A point's latitude and longitude, with the decimals that a step needs.
pub fn position(latitude: f64, longitude: f64, step: f64) -> String {
    format!("{} {}", latitude_name(latitude, step), longitude_name(longitude, step))
}

fn latitude_name(degrees: f64, step: f64) -> String {
    named(degrees, step, if degrees > 0.0 { "N" } else { "S" }, degrees == 0.0)
}

fn longitude_name(degrees: f64, step: f64) -> String {
    let east = (degrees + 180.0).rem_euclid(360.0) - 180.0;
    named(east, step, if east > 0.0 { "E" } else { "W" }, east == 0.0 || east == -180.0)
}

fn named(degrees: f64, step: f64, side: &str, bare: bool) -> String {
    let decimals = (0..4).find(|&k| is_whole(step * 10f64.powi(k))).unwrap_or(4) as usize;
    format!("{:.decimals$}°{}", degrees.abs(), if bare { "" } else { side })
}

fn is_whole(x: f64) -> bool {
    (x - x.round()).abs() < 1e-6
}

#[cfg(test)]
mod tests {
    use super::*;
    use crate::grid::GLOBE;

    const AREA: Area = Area { left: 0, top: 0, width: 1440, height: 720 };

    #[test]
    fn the_globe_has_lines_every_thirty_degrees() {
        let (meridians, parallels) = graticule(GLOBE, AREA);
        assert_eq!((meridians.all.len(), meridians.inside.len()), (13, 11));
        assert_eq!(parallels.all, [-90.0, -60.0, -30.0, 0.0, 30.0, 60.0, 90.0]);
    }

    #[test]
    fn positions_have_their_side() {
        assert_eq!(position(-12.5, 190.0, 0.5), "12.5°S 170.0°W");
        assert_eq!(position(0.0, -180.0, 30.0), "0° 180°");
        assert_eq!(position(45.25, 0.0, 0.25), "45.25°N 0.00°");
    }

    #[test]
    fn lengths_alternate() {
        let (_, parallels) = graticule(GLOBE, AREA);
        assert_eq!(lengths(&parallels, 90.0, -90.0, 180), [(120, 150), (60, 90), (0, 30)]);
    }
}
