//! The palette of a map, and which colour a value has.

use crate::scale::{round_step, ticks};

/// Places of the palette that are no values.
pub const WHITE: u8 = 0;
pub const BLACK: u8 = 1;
/// Where there is no number.
pub const MISSING: u8 = 2;
/// Outlines, in a colour that no value has.
pub const OUTLINE: u8 = 3;
/// Colours of values begin here; behind them stands a darker copy of each, for lines on the map.
const FIRST: u8 = 4;
/// How many colours values have.
pub const LEVELS: u8 = 120;
/// How bright a darker copy is.
const DARKER: f64 = 0.62;
/// The most parts that ticks cut a colour bar into, and the parts of a step at which the bar may end.
const PARTS: usize = 12;
const ENDS: f64 = 5.0;
/// Signed values beyond this many times their root mean square get the colours of the bar's ends, so
/// that a few peaks don't take the colours from everything else.
const PEAKS: f64 = 4.5;

type Rgb = [u8; 3];

/// Blue below zero, near white about it, red above; both sides get darker evenly.
const DIVERGING: [Rgb; 9] = [
    [16, 38, 102],
    [38, 92, 172],
    [96, 160, 212],
    [182, 214, 235],
    [248, 248, 244],
    [250, 212, 176],
    [238, 146, 98],
    [200, 66, 56],
    [112, 14, 40],
];

/// From dark blue to light yellow, ever brighter.
const RISING: [Rgb; 6] = [[24, 28, 84], [34, 84, 136], [36, 136, 142], [84, 184, 120], [178, 220, 98], [252, 244, 168]];

/// The range of values that colours stand for, and the round numbers in it.
pub struct Colours {
    pub low: f64,
    pub high: f64,
    pub step: f64,
    anchors: &'static [Rgb],
}

impl Colours {
    /// The colours of values from `least` to `largest` with the root mean square `rms`: with both signs
    /// among them the range is symmetric about zero.
    pub fn of_range(least: f64, largest: f64, rms: f64) -> Self {
        if least < 0.0 && largest > 0.0 || least == largest {
            let size = least.abs().max(largest.abs()).min(PEAKS * rms);
            let size = if size > 0.0 { size } else { 1.0 };
            let step = round_step(2.0 * size, PARTS);
            let high = outwards(size, step / ENDS);
            Colours { low: -high, high, step, anchors: &DIVERGING }
        } else {
            let step = round_step(largest - least, PARTS);
            let (low, high) = (-outwards(-least, step / ENDS), outwards(largest, step / ENDS));
            Colours { low, high, step, anchors: &RISING }
        }
    }

    /// The round numbers of the range.
    pub fn ticks(&self) -> Vec<f64> {
        ticks(self.low, self.high, self.step)
    }

    /// The palette's place of a value.
    pub fn place(&self, value: f64) -> u8 {
        if !value.is_finite() {
            return MISSING;
        }
        let level = (value - self.low) / (self.high - self.low) * f64::from(LEVELS);
        FIRST + level.clamp(0.0, f64::from(LEVELS - 1)) as u8
    }

    /// All colours, in the order of their places.
    pub fn palette(&self) -> Vec<Rgb> {
        let colour = |level| blend(self.anchors, (f64::from(level) + 0.5) / f64::from(LEVELS));
        let mut palette = vec![[255; 3], [0; 3], [170; 3], [226, 0, 190]];
        palette.extend((0..LEVELS).map(colour));
        palette.extend((0..LEVELS).map(|level| colour(level).map(|part| (f64::from(part) * DARKER) as u8)));
        palette
    }
}

/// The next multiple of a unit from a value up.
fn outwards(value: f64, unit: f64) -> f64 {
    unit * (value / unit - 1e-9).ceil()
}

/// The darker copy of a value's colour; other places stay as they are.
pub fn darker(place: u8) -> u8 {
    if (FIRST..FIRST + LEVELS).contains(&place) { place + LEVELS } else { place }
}

/// The colour at a share of the way through some colours at equal distances.
fn blend(anchors: &[Rgb], share: f64) -> Rgb {
    let way = share * (anchors.len() - 1) as f64;
    let first = (way as usize).min(anchors.len() - 2);
    let part = way - first as f64;
    let (from, to) = (anchors[first], anchors[first + 1]);
    std::array::from_fn(|k| (f64::from(from[k]) * (1.0 - part) + f64::from(to[k]) * part).round() as u8)
}

#[cfg(test)]
mod tests {
    use super::*;

    #[test]
    fn signed_values_are_centred_at_zero() {
        let colours = Colours::of_range(-101.0, 60.0, 40.0);
        assert_eq!((colours.low, colours.high, colours.step), (-104.0, 104.0, 20.0));
        assert_eq!((colours.place(-104.0), colours.place(0.0), colours.place(104.0)), (4, 64, 123));
        assert_eq!((colours.place(f64::NAN), colours.place(1e9)), (MISSING, 123));
    }

    #[test]
    fn peaks_do_not_stretch_the_bar() {
        let colours = Colours::of_range(-300.0, 900.0, 20.0);
        assert_eq!((colours.low, colours.high, colours.step), (-92.0, 92.0, 20.0));
    }

    #[test]
    fn other_values_fill_the_bar() {
        let colours = Colours::of_range(10.0, 21.0, 15.0);
        assert_eq!((colours.low, colours.high), (10.0, 21.0));
        let nothing = Colours::of_range(0.0, 0.0, 0.0);
        assert_eq!((nothing.low, nothing.high), (-1.0, 1.0));
    }

    #[test]
    fn palettes_fit() {
        let palette = Colours::of_range(-1.0, 1.0, 0.5).palette();
        assert_eq!(palette.len(), 244);
        assert_eq!(darker(4), 124);
        assert_eq!(darker(BLACK), BLACK);
    }
}
