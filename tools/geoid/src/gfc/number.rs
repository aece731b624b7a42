//! Numbers as ICGEM files have them.

use std::borrow::Cow;

/// A finite number, with `e`, `E` or Fortran's `d`, `D` before the exponent. The standard parser
/// rounds once, so a number written with its shortest digits comes back to the same bits.
pub fn number(text: &str) -> Result<f64, String> {
    let ordinary = text.bytes().all(|byte| byte.is_ascii_digit() || b"+-.eEdD".contains(&byte));
    match with_e(text).parse::<f64>() {
        Ok(value) if ordinary && value.is_finite() => Ok(value),
        Ok(_) if ordinary => Err(format!("'{text}' is too large for a double; expected a finite number")),
        _ => Err(format!("'{text}' is no number; expected one such as -4.84165D-04")),
    }
}

fn with_e(text: &str) -> Cow<'_, str> {
    if text.contains(['d', 'D']) { text.replace(['d', 'D'], "e").into() } else { text.into() }
}

/// A whole number from 0.
pub fn whole(text: &str) -> Result<usize, String> {
    let digits = text.bytes().all(|byte| byte.is_ascii_digit());
    text.parse().ok().filter(|_| digits).ok_or_else(|| format!("'{text}' is no whole number; expected one from 0"))
}
