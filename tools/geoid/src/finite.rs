//! Values that are no finite numbers: how many there are.

/// What is said of values of which some are no finite numbers.
pub fn strange(values: &[f64]) -> Option<String> {
    let nan = values.iter().filter(|value| value.is_nan()).count();
    let infinite = values.iter().filter(|value| value.is_infinite()).count();
    match nan + infinite {
        0 => None,
        count => Some(format!("{count} of {} values are not finite ({nan} NaN, {infinite} infinite)", values.len())),
    }
}
