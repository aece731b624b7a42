//! A grid as a printed map: title, coloured field with labelled contours and graticule, frame, colour bar.

mod bar;
mod frame;
mod labels;
mod outline;
mod raster;
mod statistics;

use bar::Reach;

use crate::canvas::{Align, Area, Canvas};
use crate::colours::{BLACK, Colours, WHITE};
use crate::error::Error;
use crate::font;
use crate::grid::Nodes;
use crate::outline::Ring;
use crate::png::Image;
use crate::scale;

/// The largest size of the field itself, and the least width of the whole picture.
const LARGEST_WIDTH: f64 = 1440.0;
const LARGEST_HEIGHT: f64 = 900.0;
const LEAST_WIDTH: usize = 1060;
/// What stands around the field: title above, colour bar below, labels of latitudes at its left.
const TOP: usize = 174;
const BOTTOM: usize = 170;
const SIDE: usize = 100;
/// Text sizes, in doublings of the font: a title's and everything else's.
const TITLE: usize = 2;
const LABEL: usize = 1;

/// What a map shows.
pub struct Map<'a> {
    pub nodes: &'a Nodes,
    /// The values at the nodes, in `unit`.
    pub values: &'a [f64],
    pub unit: &'a str,
    pub title: &'a str,
    /// The lines below the title.
    pub subtitle: [&'a str; 3],
}

/// Draw a map.
pub fn draw(map: &Map) -> Result<Image, Error> {
    draw_with(map, &[])
}

/// Draw a map with the outlines of a basin over its field.
pub fn draw_with(map: &Map, rings: &[Ring]) -> Result<Image, Error> {
    if map.nodes.latitudes.len() < 2 || map.nodes.longitudes.len() < 2 {
        return Err(Error::failure("a map needs two rows and two columns at least; expected a larger region or a smaller step"));
    }
    let statistics = statistics::of(map.nodes, map.values);
    let colours = statistics.as_ref().map_or(Colours::of_range(0.0, 0.0, 0.0), |all| Colours::of_range(all.least, all.largest, all.rms));
    let (width, height) = field_size(map.nodes);
    let page = (width + 2 * SIDE).max(LEAST_WIDTH);
    let mut canvas = Canvas::new(page, height + TOP + BOTTOM, WHITE);
    let field = Area { left: (page - width) / 2, top: TOP, width, height };
    let contours = raster::draw(&mut canvas, field, map, &colours).then(|| contour_note(&colours, map.unit));
    outline::draw(&mut canvas, field, map.nodes.region, rings);
    heading(&mut canvas, map, &contours.unwrap_or_default());
    frame::draw(&mut canvas, field, map.nodes.region);
    if let Some(all) = &statistics {
        bar::draw(&mut canvas, field, &colours, &Reach { unit: map.unit, least: all.least, largest: all.largest });
    }
    let line = statistics.map_or(statistics::NOTHING.to_string(), |all| all.line(map.unit));
    let foot = field.top + field.height + BOTTOM - 36;
    canvas.text((page / 2, foot), Align::Centre, &fitting(&line, LABEL, page), LABEL, BLACK);
    Ok(Image { width: canvas.width, height: canvas.height, palette: colours.palette(), pixels: canvas.pixels })
}

/// The field's size in pixels: an equidistant cylindrical map that is true along the middle latitude.
fn field_size(nodes: &Nodes) -> (usize, usize) {
    let region = nodes.region;
    let middle = ((region.north + region.south) / 2.0).to_radians();
    let (width, height) = ((region.east - region.west) * middle.cos().max(0.1), region.north - region.south);
    let scale = (LARGEST_WIDTH / width).min(LARGEST_HEIGHT / height);
    let pixels = |side: f64| ((side * scale).round() as usize).max(2);
    (pixels(width), pixels(height))
}

/// What is said of contours behind the last line of the heading.
fn contour_note(colours: &Colours, unit: &str) -> String {
    format!("; contours every {} {unit}", scale::label(colours.step, colours.step))
}

/// The title and the lines below it, cut where they are wider than the page.
fn heading(canvas: &mut Canvas, map: &Map, note: &str) {
    let (middle, room) = (canvas.width / 2, canvas.width - SIDE / 2);
    let title = format!("{} ({})", map.title, map.unit);
    canvas.text((middle, 22), Align::Centre, &fitting(&title, TITLE, room), TITLE, BLACK);
    let [source, taken, place] = map.subtitle.map(str::to_string);
    let lines = [source, taken, place + note];
    for (row, line) in lines.iter().enumerate() {
        canvas.text((middle, 70 + 24 * row), Align::Centre, &fitting(line, LABEL, room), LABEL, BLACK);
    }
}

/// As much of a line's front as fits into some pixels.
fn fitting(text: &str, doublings: usize, room: usize) -> String {
    if font::line(text, doublings).width <= room {
        return text.to_string();
    }
    let mut front: String = text.chars().take(room).collect();
    while font::line(&format!("{front}..."), doublings).width > room && front.pop().is_some() {}
    front + "..."
}
