//! The labels of contours: each stands on its line where that is nearly level, and where there is room.

use super::LABEL;
use crate::canvas::{Align, Area, Canvas};
use crate::colours::{BLACK, Colours, WHITE};
use crate::font;
use crate::scale;

/// About one label in a part of the map of this size.
const PART_WIDTH: usize = 260;
const PART_HEIGHT: usize = 150;
/// The room between a label and the map's edge, other labels and its own box.
const EDGE: usize = 12;
const APART: usize = 30;
const PAD: usize = 3;
/// A colour that is less bright than this, of 255, is dark.
const DARK: u32 = 95;
/// Candidates are tried at every so many pixels.
const STRIDE: usize = 3;

/// The values of a map's pixels.
pub struct Pixels<'a> {
    pub values: &'a [f64],
    pub width: usize,
    pub height: usize,
}

/// A label and the box that is kept free for it, in the map's own pixels.
#[derive(Debug)]
struct Label {
    level: f64,
    text: String,
    room: Area,
}

impl Pixels<'_> {
    fn at(&self, x: usize, y: usize) -> f64 {
        self.values[y * self.width + x]
    }

    /// The contour between a pixel and the one below it.
    fn level(&self, x: usize, y: usize, step: f64) -> Option<f64> {
        let (above, below) = ((self.at(x, y) / step).floor(), (self.at(x, y + 1) / step).floor());
        ((above - below).abs() == 1.0).then_some(above.max(below) * step)
    }

    /// Whether a contour runs through a box from its left side to its right, and no other does.
    fn is_level(&self, room: Area, level: f64, step: f64) -> bool {
        let (right, bottom) = (room.left + room.width - 1, room.top + room.height - 1);
        let ends = |x: usize| (self.at(x, room.top), self.at(x, bottom));
        let crosses = |(above, below): (f64, f64)| (above - level) * (below - level) < 0.0;
        let near = |(above, below): (f64, f64)| (above - level).abs() < step && (below - level).abs() < step;
        let middle = room.left + room.width / 2;
        [room.left, middle, right].into_iter().map(ends).all(|pair| crosses(pair) && near(pair))
    }
}

/// Draw the labels of the contours at a step into the map's area.
pub fn draw(canvas: &mut Canvas, area: Area, pixels: &Pixels, colours: &Colours) {
    let palette = colours.palette();
    for label in labels(pixels, colours.step) {
        let room = label.room;
        for y in room.top..room.top + room.height {
            for x in room.left..room.left + room.width {
                canvas.set((area.left + x) as isize, (area.top + y) as isize, colours.place(pixels.at(x, y)));
            }
        }
        let place = (area.left + room.left + room.width / 2, area.top + room.top + PAD);
        let ground = palette[usize::from(colours.place(label.level))];
        canvas.text(place, Align::Centre, &label.text, LABEL, if is_dark(ground) { WHITE } else { BLACK });
    }
}

/// Whether white can be read better than black on a colour (the weights of ITU-R BT.601).
fn is_dark([red, green, blue]: [u8; 3]) -> bool {
    299 * u32::from(red) + 587 * u32::from(green) + 114 * u32::from(blue) < DARK * 1000
}

/// In each part of the map the label nearest to its middle, if there is one.
fn labels(pixels: &Pixels, step: f64) -> Vec<Label> {
    let offsets = offsets();
    let mut found: Vec<Label> = Vec::new();
    for y in (PART_HEIGHT / 2..pixels.height + PART_HEIGHT / 2).step_by(PART_HEIGHT) {
        for x in (PART_WIDTH / 2..pixels.width + PART_WIDTH / 2).step_by(PART_WIDTH) {
            let places = offsets.iter().filter_map(|&(dx, dy)| Some((x.checked_add_signed(dx)?, y.checked_add_signed(dy)?)));
            let label = places.filter_map(|place| label(pixels, place, step, &found)).next();
            found.extend(label);
        }
    }
    found
}

/// Some places about the middle of a part, the nearest first.
fn offsets() -> Vec<(isize, isize)> {
    let (width, height) = (PART_WIDTH as isize / 2, PART_HEIGHT as isize / 2);
    let columns = (-width..width).step_by(STRIDE);
    let mut all: Vec<(isize, isize)> = columns.flat_map(|dx| (-height..height).map(move |dy| (dx, dy))).collect();
    all.sort_by_key(|&(dx, dy)| dx * dx + dy * dy);
    all
}

/// The label at a pixel, if a contour lies there with room for one.
fn label(pixels: &Pixels, (x, y): (usize, usize), step: f64, others: &[Label]) -> Option<Label> {
    if x >= pixels.width || y + 1 >= pixels.height {
        return None;
    }
    let level = pixels.level(x, y, step)?;
    let text = scale::label(level, step);
    let line = font::line(&text, LABEL);
    let (width, height) = (line.width + 2 * PAD, line.height + 2 * PAD);
    let room = Area { left: x.checked_sub(width / 2)?, top: y.checked_sub(height / 2)?, width, height };
    let inside = room.left >= EDGE
        && room.top >= EDGE
        && room.left + room.width + EDGE <= pixels.width
        && room.top + room.height + EDGE <= pixels.height;
    let free = others.iter().all(|other| !overlap(room, other.room));
    (inside && free && pixels.is_level(room, level, step)).then_some(Label { level, text, room })
}

/// Whether two boxes are nearer to each other than labels may be.
fn overlap(a: Area, b: Area) -> bool {
    let near = |from: usize, size: usize, other: usize, other_size: usize| from < other + other_size + APART && other < from + size + APART;
    near(a.left, a.width, b.left, b.width) && near(a.top, a.height, b.top, b.height)
}

#[cfg(test)]
mod tests {
    use super::*;

    fn found(value: impl Fn(usize, usize) -> f64) -> Vec<Label> {
        let (width, height) = (600, 400);
        let values: Vec<f64> = (0..width * height).map(|place| value(place % width, place / width)).collect();
        labels(&Pixels { values: &values, width, height }, 10.0)
    }

    #[test]
    fn labels_stand_on_their_contours() {
        let labels = found(|x, y| y as f64 / 5.0 + x as f64 / 200.0 - 31.0);
        assert!(labels.len() >= 6, "{}", labels.len());
        for label in &labels {
            let (x, y) = (label.room.left + label.room.width / 2, label.room.top + label.room.height / 2);
            let value = y as f64 / 5.0 + x as f64 / 200.0 - 31.0;
            assert!((value - label.level).abs() < 1.0, "{} at {value}", label.text);
            assert_eq!(label.text, format!("{}", label.level));
        }
        for (k, label) in labels.iter().enumerate() {
            assert!(labels[..k].iter().all(|other| !overlap(label.room, other.room)));
        }
    }

    #[test]
    fn there_is_no_label_where_there_is_no_room() {
        // Upright contours, contours too close together, no contour, no number.
        assert!(found(|x, _| x as f64 / 5.0).is_empty());
        assert!(found(|_, y| y as f64 * 2.0).is_empty());
        assert!(found(|_, _| 3.0).is_empty());
        assert!(found(|_, _| f64::NAN).is_empty());
    }
}
