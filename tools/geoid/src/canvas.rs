//! Drawing into a picture of palette places.

use crate::font;

/// Where a text stands beside its point.
#[derive(Clone, Copy)]
pub enum Align {
    Left,
    Centre,
    Right,
}

/// A picture under work.
pub struct Canvas {
    pub width: usize,
    pub height: usize,
    pub pixels: Vec<u8>,
}

impl Canvas {
    /// A picture of one colour.
    pub fn new(width: usize, height: usize, colour: u8) -> Self {
        Canvas { width, height, pixels: vec![colour; width * height] }
    }

    /// Set a pixel; outside there are none.
    pub fn set(&mut self, x: isize, y: isize, colour: u8) {
        if let Some(pixel) = self.pixel(x, y) {
            *pixel = colour;
        }
    }

    /// A pixel to change, where there is one.
    pub fn pixel(&mut self, x: isize, y: isize) -> Option<&mut u8> {
        let inside = (0..self.width as isize).contains(&x) && (0..self.height as isize).contains(&y);
        inside.then(|| &mut self.pixels[y as usize * self.width + x as usize])
    }

    /// Fill a rectangle.
    pub fn fill(&mut self, area: Area, colour: u8) {
        for y in area.top..area.top + area.height {
            for x in area.left..area.left + area.width {
                self.set(x as isize, y as isize, colour);
            }
        }
    }

    /// Draw the outline of a rectangle, `thickness` pixels around it.
    pub fn outline(&mut self, area: Area, thickness: usize, colour: u8) {
        let outer = area.grown(thickness);
        self.fill(Area { height: thickness, ..outer }, colour);
        self.fill(Area { top: area.top + area.height, height: thickness, ..outer }, colour);
        self.fill(Area { width: thickness, ..outer }, colour);
        self.fill(Area { left: area.left + area.width, width: thickness, ..outer }, colour);
    }

    /// Write a line of text, its top at `y`, doubled some times.
    pub fn text(&mut self, (x, y): (usize, usize), align: Align, text: &str, doublings: usize, colour: u8) {
        let line = font::line(text, doublings);
        let left = x as isize
            - match align {
                Align::Left => 0,
                Align::Centre => line.width as isize / 2,
                Align::Right => line.width as isize,
            };
        for row in 0..line.height as isize {
            for column in 0..line.width as isize {
                if line.dot(column, row) {
                    self.set(left + column, y as isize + row - line.above as isize, colour);
                }
            }
        }
    }
}

/// A rectangle of pixels.
#[derive(Clone, Copy, Debug, PartialEq)]
pub struct Area {
    pub left: usize,
    pub top: usize,
    pub width: usize,
    pub height: usize,
}

impl Area {
    /// The same with a border of some pixels around it.
    pub fn grown(self, by: usize) -> Area {
        Area { left: self.left - by, top: self.top - by, width: self.width + 2 * by, height: self.height + 2 * by }
    }
}
