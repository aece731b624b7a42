//! The colour bar below a map.

use super::LABEL;
use crate::canvas::{Align, Area, Canvas};
use crate::colours::{BLACK, Colours};
use crate::font;
use crate::scale::label;

/// Below the field: room for the labels of its meridians.
const BELOW: usize = 56;
const HEIGHT: usize = 22;
/// The bar's share of the page.
const SHARE: f64 = 0.62;
const TICK: usize = 6;
/// The least room between two labels.
const APART: usize = 16;

/// What the bar must tell of the values: their unit, and how far they go.
pub struct Reach<'a> {
    pub unit: &'a str,
    pub least: f64,
    pub largest: f64,
}

/// Draw the bar, its ticks at round values, and the unit at its end.
pub fn draw(canvas: &mut Canvas, field: Area, colours: &Colours, reach: &Reach) {
    let width = (canvas.width as f64 * SHARE) as usize;
    let bar = Area { left: (canvas.width - width) / 2, top: field.top + field.height + BELOW, width, height: HEIGHT };
    let value = |x: usize| colours.low + (colours.high - colours.low) * (x as f64 + 0.5) / width as f64;
    for x in 0..width {
        canvas.fill(Area { left: bar.left + x, width: 1, ..bar }, colours.place(value(x)));
    }
    canvas.outline(bar, 1, BLACK);
    if reach.least < colours.low {
        point(canvas, bar, bar.left as isize - 1, -1, colours.place(colours.low));
    }
    if reach.largest > colours.high {
        point(canvas, bar, (bar.left + width) as isize, 1, colours.place(colours.high));
    }
    ticks(canvas, bar, colours);
    canvas.text((bar.left + width + HEIGHT, bar.top + 3), Align::Left, reach.unit, LABEL, BLACK);
}

/// A pointed end, from `x` to one side: some values lie beyond the bar.
fn point(canvas: &mut Canvas, bar: Area, x: isize, side: isize, colour: u8) {
    let half = bar.height as isize / 2;
    let middle = bar.top as isize + half;
    for out in 0..=half {
        for y in middle - half + out..=middle + half - out {
            let edge = (y - middle).abs() == half - out;
            canvas.set(x + side * out, y - isize::from(y > middle), if edge { BLACK } else { colour });
        }
    }
}

/// The ticks, each with its label or, where the labels would touch, every second or fifth one.
fn ticks(canvas: &mut Canvas, bar: Area, colours: &Colours) {
    let ticks = colours.ticks();
    let widest = ticks.iter().map(|&tick| font::line(&label(tick, colours.step), LABEL).width).max().unwrap_or(0);
    let spacing = colours.step / (colours.high - colours.low) * bar.width as f64;
    let every = [1, 2, 5, 10].into_iter().find(|&k| f64::from(k) * spacing >= (widest + APART) as f64).unwrap_or(20);
    for tick in ticks {
        let share = (tick - colours.low) / (colours.high - colours.low);
        let x = bar.left + (share * (bar.width - 1) as f64).round() as usize;
        canvas.fill(Area { left: x, width: 1, top: bar.top + HEIGHT, height: TICK }, BLACK);
        if (tick / colours.step).round() as i64 % i64::from(every) == 0 {
            canvas.text((x, bar.top + HEIGHT + TICK + 5), Align::Centre, &label(tick, colours.step), LABEL, BLACK);
        }
    }
}
