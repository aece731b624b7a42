//! A small plot of degree amplitudes for a terminal.

use std::fmt::Write;

/// The most columns of bars, and the most lines.
const COLUMNS: usize = 66;
const LINES: usize = 16;
/// Eighths of a line, from nothing to all of it.
const EIGHTHS: [char; 9] = [' ', '▁', '▂', '▃', '▄', '▅', '▆', '▇', '█'];
/// A bar that goes on above the plot.
const BEYOND: char = '▲';

/// The decades that the plot shows, `10^low` to `10^high`, and the lines of one decade.
struct Decades {
    low: i32,
    high: i32,
    lines: usize,
}

/// Bars on a logarithmic scale, one for each degree or, for a large field, for some degrees together
/// (their root mean square). Degrees 0 and 1 have bars of their own but no part in the scale: in most
/// fields they are far above the others, or zero.
pub fn bars(amplitudes: &[f64], unit: &str) -> String {
    let Some(decades) = decades(amplitudes) else { return "(nothing to plot: no amplitude above 0)\n".into() };
    let (heights, width) = columns(amplitudes);
    let lines = (decades.high - decades.low) as usize * decades.lines;
    let mut text = String::new();
    for line in (0..lines).rev() {
        let axis = if (line + 1) % decades.lines == 0 {
            format!("1e{}", decades.low + ((line + 1) / decades.lines) as i32)
        } else {
            String::new()
        };
        let bars: String = heights.iter().flat_map(|&height| std::iter::repeat_n(cell(height, line, lines, &decades), width)).collect();
        let _ = writeln!(text, "{axis:>7} ┤{}", bars.trim_end());
    }
    let _ = writeln!(text, "{:>7} └{}", format!("1e{}", decades.low), "─".repeat(heights.len() * width));
    text.push_str(&axis(amplitudes.len() - 1, heights.len(), width));
    let _ = writeln!(text, "{:9}degree; amplitude in {unit}, logarithmic", "");
    text
}

/// The decades that hold the amplitudes from degree 2, or of all degrees in a field without those.
fn decades(amplitudes: &[f64]) -> Option<Decades> {
    let positive = |from: usize| amplitudes.iter().skip(from).copied().filter(|a| a.is_finite() && *a > 0.0).collect::<Vec<f64>>();
    let scale = [positive(2), positive(0)].into_iter().find(|found| !found.is_empty())?;
    let largest = scale.iter().copied().fold(0.0, f64::max);
    let least = scale.iter().copied().fold(f64::INFINITY, f64::min);
    let high = largest.log10().ceil() as i32;
    let low = (least.log10().floor() as i32).clamp(high - LINES as i32, high - 1);
    Some(Decades { low, high, lines: LINES / (high - low) as usize })
}

/// The amplitude of each bar and how many characters wide it is.
fn columns(amplitudes: &[f64]) -> (Vec<f64>, usize) {
    if amplitudes.len() <= COLUMNS {
        return (amplitudes.to_vec(), (COLUMNS / amplitudes.len()).min(3));
    }
    let (front, rest) = amplitudes.split_at(2);
    let bins = COLUMNS - 2;
    let together = |bin: usize| {
        let part = &rest[bin * rest.len() / bins..(bin + 1) * rest.len() / bins];
        (part.iter().map(|a| a * a).sum::<f64>() / part.len() as f64).sqrt()
    };
    (front.iter().copied().chain((0..bins).map(together)).collect(), 1)
}

/// The character of a bar in a line counted from below.
fn cell(amplitude: f64, line: usize, lines: usize, decades: &Decades) -> char {
    if !(amplitude.is_finite() && amplitude > 0.0) {
        return ' ';
    }
    let height = (amplitude.log10() - f64::from(decades.low)) * decades.lines as f64;
    if height > lines as f64 && line + 1 == lines {
        return BEYOND;
    }
    EIGHTHS[((height - line as f64) * 8.0).round().clamp(0.0, 8.0) as usize]
}

/// The degrees below the bars: the first, the last, and some between.
fn axis(last: usize, bars: usize, width: usize) -> String {
    let labels = 6.min(last);
    let mut line = String::new();
    for k in 0..=labels {
        let bar = (k * (bars - 1)).checked_div(labels).unwrap_or(0);
        let degree = degree_of(bar, last, bars);
        let column = 9 + bar * width;
        if column >= line.len() || line.is_empty() {
            let _ = write!(line, "{:1$}{degree}", "", column - line.len());
        }
    }
    line + "\n"
}

/// The first degree of a bar.
fn degree_of(bar: usize, last: usize, bars: usize) -> usize {
    if bar < 2 || bars > last { bar } else { 2 + (bar - 2) * (last - 1) / (bars - 2) }
}

#[cfg(test)]
mod tests {
    use super::*;

    #[test]
    fn plots_fit_a_terminal() {
        for last in [0, 1, 2, 5, 36, 65, 66, 96, 2700] {
            let amplitudes: Vec<f64> = (0..=last).map(|n| if n == 0 { 6e6 } else { 60.0 / (n * n) as f64 }).collect();
            let plot = bars(&amplitudes, "m");
            assert!(plot.lines().all(|line| line.chars().count() <= 80), "{plot}");
            assert!(plot.lines().count() <= 20, "{plot}");
        }
    }

    #[test]
    fn degree_zero_has_no_part_in_the_scale() {
        let plot = bars(&[6e6, 0.0, 50.0, 5.0], "m");
        assert!(plot.starts_with("    1e2 ┤▲▲▲"), "{plot}");
    }

    #[test]
    fn strange_amplitudes_are_left_out() {
        assert!(bars(&[0.0; 5], "m").starts_with("(nothing"));
        assert!(bars(&[f64::NAN, 1.0, f64::INFINITY, 2.0], "m").contains('█'));
    }
}
