//! Round numbers for axes and colour bars.

/// A step of 1, 2 or 5 times a power of ten that divides a span into at most `parts` parts.
pub fn round_step(span: f64, parts: usize) -> f64 {
    let raw = span / parts.max(1) as f64;
    let power = 10f64.powf(raw.log10().floor());
    [1.0, 2.0, 5.0, 10.0].into_iter().map(|k| k * power).find(|&step| step >= raw * (1.0 - 1e-9)).unwrap_or(raw)
}

/// The multiples of a step from `low` to `high`.
pub fn ticks(low: f64, high: f64, step: f64) -> Vec<f64> {
    let (first, last) = ((low / step - 1e-9).ceil() as i64, (high / step + 1e-9).floor() as i64);
    (first..=last).map(|k| k as f64 * step).collect()
}

/// A tick's label: as many decimals as its step needs, an exponent for very large or small steps.
pub fn label(value: f64, step: f64) -> String {
    let decimals = -(step.log10() + 1e-9).floor();
    if value.abs() < step / 2.0 {
        "0".into()
    } else if !(-6.0..=4.0).contains(&decimals) {
        format!("{:.1e}", value)
    } else {
        format!("{value:.*}", decimals.max(0.0) as usize)
    }
}

#[cfg(test)]
mod tests {
    use super::*;

    #[test]
    fn steps_are_round() {
        assert_eq!(round_step(200.0, 10), 20.0);
        assert_eq!(round_step(230.0, 10), 50.0);
        assert!((round_step(0.09, 10) - 0.01).abs() < 1e-15);
    }

    #[test]
    fn ticks_hold_both_ends() {
        assert_eq!(ticks(-100.0, 100.0, 50.0), [-100.0, -50.0, 0.0, 50.0, 100.0]);
        assert_eq!(ticks(0.5, 2.5, 1.0), [1.0, 2.0]);
    }

    #[test]
    fn labels_have_the_decimals_of_their_step() {
        assert_eq!(label(-20.0, 20.0), "-20");
        assert_eq!(label(0.30000000000000004, 0.1), "0.3");
        assert_eq!(label(-0.0, 0.5), "0");
        assert_eq!(label(2e-6, 1e-6), "2.0e-6");
    }
}
