//! The field's colours, its contours and the graticule over it.

use super::Map;
use super::frame::{graticule, place_of};
use super::labels::{self, Pixels};
use crate::canvas::{Area, Canvas};
use crate::colours::{Colours, darker};

/// Contours are left out where more than this share of the pixels would be theirs.
const CROWDED: f64 = 0.12;
/// A graticule line is dotted: two pixels of five.
const DASH: usize = 5;
const INK: usize = 2;

/// Draw the field into its area; says whether it has contours.
pub fn draw(canvas: &mut Canvas, area: Area, map: &Map, colours: &Colours) -> bool {
    let values = resampled(map, area);
    for (y, row) in values.chunks(area.width).enumerate() {
        let start = (area.top + y) * canvas.width + area.left;
        for (pixel, &value) in canvas.pixels[start..].iter_mut().zip(row) {
            *pixel = colours.place(value);
        }
    }
    let lines = contours(&values, area.width, colours.step);
    let apart = (lines.len() as f64) < CROWDED * values.len() as f64;
    if apart {
        for place in lines {
            darken(canvas, area.left + place % area.width, area.top + place / area.width);
        }
    }
    draw_graticule(canvas, area, map);
    if apart {
        labels::draw(canvas, area, &Pixels { values: &values, width: area.width, height: area.height }, colours);
    }
    apart
}

fn darken(canvas: &mut Canvas, x: usize, y: usize) {
    if let Some(pixel) = canvas.pixel(x as isize, y as isize) {
        *pixel = darker(*pixel);
    }
}

/// The value of every pixel: bilinear between the four nodes about its centre.
fn resampled(map: &Map, area: Area) -> Vec<f64> {
    let (rows, columns) = (map.nodes.latitudes.len(), map.nodes.longitudes.len());
    let xs: Vec<(usize, f64)> = (0..area.width).map(|x| neighbour(x, area.width, columns)).collect();
    let mut values = Vec::with_capacity(area.width * area.height);
    for y in 0..area.height {
        let (i, down) = neighbour(y, area.height, rows);
        let (upper, lower) = (&map.values[i * columns..], &map.values[(i + 1) * columns..]);
        values.extend(xs.iter().map(|&(j, right)| {
            let above = upper[j] * (1.0 - right) + upper[j + 1] * right;
            let below = lower[j] * (1.0 - right) + lower[j + 1] * right;
            above * (1.0 - down) + below * down
        }));
    }
    values
}

/// The node before a pixel's centre, and how far the centre lies on the way to the next one.
fn neighbour(pixel: usize, pixels: usize, nodes: usize) -> (usize, f64) {
    let way = (pixel as f64 + 0.5) / pixels as f64 * (nodes - 1) as f64;
    let node = (way as usize).min(nodes - 2);
    (node, way - node as f64)
}

/// The places where a multiple of the step lies between a pixel and the next one, right or below.
fn contours(values: &[f64], width: usize, step: f64) -> Vec<usize> {
    let band = |place: usize| (values[place] / step).floor();
    // Beside what is no number there is no contour.
    let differ = |a: f64, b: f64| a.is_finite() && b.is_finite() && a != b;
    let crossed = |&place: &usize| {
        let right = (place + 1) % width != 0 && differ(band(place), band(place + 1));
        let below = place + width < values.len() && differ(band(place), band(place + width));
        right || below
    };
    (0..values.len()).filter(crossed).collect()
}

fn draw_graticule(canvas: &mut Canvas, area: Area, map: &Map) {
    let region = map.nodes.region;
    let (meridians, parallels) = graticule(region, area);
    for longitude in meridians.inside {
        let x = place_of(longitude, region.west, region.east, area.width);
        for y in (0..area.height).filter(|y| y % DASH < INK) {
            darken(canvas, area.left + x.min(area.width - 1), area.top + y);
        }
    }
    for latitude in parallels.inside {
        let y = place_of(latitude, region.north, region.south, area.height);
        for x in (0..area.width).filter(|x| x % DASH < INK) {
            darken(canvas, area.left + x, area.top + y.min(area.height - 1));
        }
    }
}
