//! What the line below the colour bar tells.

use super::frame::position;
use crate::finite::strange;
use crate::grid::Nodes;

/// A grid's extremes, where they are, and its mean and root mean square weighted by area.
pub struct Statistics {
    pub least: f64,
    pub largest: f64,
    least_at: String,
    largest_at: String,
    mean: f64,
    pub rms: f64,
    /// How many values are not finite, where some are.
    strange: Option<String>,
}

/// What the line says where there is nothing to tell.
pub const NOTHING: &str = "no finite value";

/// The statistics of the finite values, where there are any.
pub fn of(nodes: &Nodes, values: &[f64]) -> Option<Statistics> {
    let columns = nodes.longitudes.len();
    let finite = || values.iter().enumerate().filter(|(_, value)| value.is_finite());
    let name = |place: usize| position(nodes.latitudes[place / columns], nodes.longitudes[place % columns], nodes.step);
    let least = finite().min_by(|a, b| a.1.total_cmp(b.1))?;
    let largest = finite().max_by(|a, b| a.1.total_cmp(b.1))?;
    let (mut area, mut sum, mut squares) = (0.0, 0.0, 0.0);
    for (place, value) in finite() {
        let weight = nodes.latitudes[place / columns].to_radians().cos();
        area += weight;
        sum += weight * value;
        squares += weight * value * value;
    }
    // The cosine is above 0 even at a pole, as its angle is rounded.
    let share = |total: f64| total / area;
    Some(Statistics {
        least: *least.1,
        largest: *largest.1,
        least_at: name(least.0),
        largest_at: name(largest.0),
        mean: share(sum),
        rms: share(squares).sqrt(),
        strange: strange(values),
    })
}

impl Statistics {
    /// The line, with four or five digits a number.
    pub fn line(&self, unit: &str) -> String {
        let [least, largest, mean, rms] = [self.least, self.largest, self.mean, self.rms].map(short);
        let strange = self.strange.iter().map(|text| format!("{text}    ")).collect::<String>();
        format!("{strange}min {least} at {}    max {largest} at {}    mean {mean}    rms {rms} {unit}", self.least_at, self.largest_at)
    }
}

/// A number with about five digits.
fn short(value: f64) -> String {
    match value.abs() {
        0.0 => "0".into(),
        size if !(1e-3..1e9).contains(&size) => format!("{value:.3e}"),
        size if size >= 1000.0 => format!("{value:.0}"),
        size if size >= 1.0 => format!("{value:.2}"),
        _ => format!("{value:.4}"),
    }
}

#[cfg(test)]
mod tests {
    use super::*;
    use crate::grid::GLOBE;

    #[test]
    fn statistics_of_nothing_are_none() {
        let nodes = Nodes::new(GLOBE, 90.0).unwrap();
        assert!(of(&nodes, &[f64::NAN; 15]).is_none());
        let mut values = [f64::NAN; 15];
        values[0] = f64::INFINITY;
        values[7] = 0.0;
        let line = of(&nodes, &values).unwrap().line("m");
        assert!(line.starts_with("14 of 15 values are not finite (13 NaN, 1 infinite)    min 0 at 0° 0°    max 0 at 0° 0°"), "{line}");
        assert!(of(&nodes, &[1.0; 15]).unwrap().line("m").starts_with("min 1.00 at 90°N 180°"));
    }
}
