//! What a field or a kernel must be before a number is worked out from it.

use std::path::Path;

use geopotential::Coefficients;

use crate::arguments::Opt;
use crate::error::Error;
use crate::normal::WGS84;

pub const ANY_BODY: Opt =
    Opt { name: "--any-body", value: "", help: "take a GM or radius that is more than 1 % from the Earth's, or a kernel's head" };

/// How far the constants of an Earth model may lie from WGS84's, relatively.
const EARTH: f64 = 0.01;
/// The least radius at which a field is taken, in its own radius.
pub const INSIDE: f64 = 0.9;
/// A kernel's share of the sphere may exceed 1 by rounding only.
pub const ROUNDING: f64 = 1e-9;
/// A first coefficient as near to 1 as this, in a head of the Earth, is a field's.
const FIELD: f64 = 1e-3;

/// Check the head of a field: a body's, and the Earth's unless `any_body`.
pub fn check_field(path: &Path, field: &Coefficients, any_body: bool) -> Result<(), Error> {
    if is_kernel_head(field) && !any_body {
        return Err(Error::in_file(
            path,
            "its head has GM 1 and radius 1: a kernel's or a region function's, not a field's (FIELD stands before KERNEL; --any-body takes it as a field)",
        ));
    }
    check_head(path, field, any_body)
}

/// Check the head of what may be a field or a kernel.
pub fn check_either(path: &Path, field: &Coefficients, any_body: bool) -> Result<(), Error> {
    if is_kernel_head(field) { Ok(()) } else { check_head(path, field, any_body) }
}

/// Check the radius at which a field is taken: deep inside the body the terms of its sum grow without sense.
pub fn check_radius(radius: f64, field: &Coefficients, any_body: bool) -> Result<(), Error> {
    if any_body || radius >= INSIDE * field.radius {
        return Ok(());
    }
    let guess = kilometres(radius, "radius");
    Err(Error::usage(format!(
        "--radius is {radius:?} m{guess}, deep below the field's own {:?}; --any-body takes it as it is",
        field.radius
    )))
}

/// Check a kernel: its first coefficient is the share of the sphere that it covers, which an average
/// divides by. Its GM and radius are not used.
pub fn check_kernel(path: &Path, kernel: &Coefficients) -> Result<(), Error> {
    let share = kernel.try_c(0, 0)?;
    if !is_kernel_head(kernel) && is_earth(kernel) && (share - 1.0).abs() < FIELD {
        return Err(Error::in_file(
            path,
            format!("its GM is {:e} and its C(0,0) {share}: a field's, not a kernel's (FIELD stands before KERNEL)", kernel.gm),
        ));
    }
    if share == 0.0 {
        return Err(Error::in_file(
            path,
            "its C(0,0) is 0: a kernel that covers nothing has no average (C(0,0) is its share of the sphere)",
        ));
    }
    if !(share > 0.0 && share <= 1.0 + ROUNDING) {
        return Err(Error::in_file(path, format!("its C(0,0) is {share}; a kernel's is its share of the sphere, above 0 to 1")));
    }
    Ok(())
}

/// Whether C(0,0) is about 0: a difference of fields has no mass of its own.
pub fn is_difference(field: &Coefficients) -> Result<bool, Error> {
    Ok(field.try_c(0, 0)?.abs() < 0.5)
}

/// Kernels and region functions have GM 1 and radius 1, here as in the published crate.
fn is_kernel_head(field: &Coefficients) -> bool {
    field.gm == 1.0 && field.radius == 1.0
}

fn check_head(path: &Path, field: &Coefficients, any_body: bool) -> Result<(), Error> {
    for (name, value) in [("GM", field.gm), ("radius", field.radius)] {
        if !(value > 0.0 && value.is_finite()) {
            return Err(Error::in_file(path, format!("its {name} is {value}; expected a number above 0")));
        }
    }
    if any_body || is_earth(field) {
        return Ok(());
    }
    let (name, value, unit, earth) = match near(field.gm, WGS84.gm) {
        false => ("GM", field.gm, "m³/s²", WGS84.gm),
        true => ("radius", field.radius, "m", WGS84.a),
    };
    let guess = kilometres(value, name);
    Err(Error::in_file(
        path,
        format!("its {name} is {value:?} {unit}{guess}, more than 1 % from the Earth's {earth:?}; --any-body takes it as it is"),
    ))
}

/// What is said where a constant is the Earth's in kilometres.
fn kilometres(value: f64, name: &str) -> &'static str {
    match name {
        "GM" if near(value * 1e9, WGS84.gm) => " (given in km³/s²?)",
        "radius" if near(value * 1e3, WGS84.a) => " (given in km?)",
        _ => "",
    }
}

/// Whether GM and radius are the Earth's, to a hundredth.
pub fn is_earth(field: &Coefficients) -> bool {
    near(field.gm, WGS84.gm) && near(field.radius, WGS84.a)
}

fn near(value: f64, earth: f64) -> bool {
    (value / earth - 1.0).abs() <= EARTH
}

#[cfg(test)]
mod tests {
    use super::*;

    fn field(gm: f64, radius: f64, first: f64) -> Coefficients {
        let mut field = Coefficients::zeros(gm, radius, 2);
        field.set(0, 0, first, 0.0);
        field
    }

    fn refused(gm: f64, radius: f64, any_body: bool) -> String {
        check_field(Path::new("x"), &field(gm, radius, 1.0), any_body).unwrap_err().to_string()
    }

    #[test]
    fn heads_of_the_earth_pass() {
        for (gm, radius) in [(3.986004415e14, 6378136.3), (3.986005e14, 6378137.0), (3.986004418e14, 6371000.0)] {
            assert_eq!(check_field(Path::new("x"), &field(gm, radius, 1.0), false), Ok(()));
        }
    }

    #[test]
    fn nonsense_in_a_head_is_told() {
        assert!(refused(3.986004415e14, 6378.1363, false).contains("its radius is 6378.1363 m (given in km?), more than 1 %"));
        assert!(refused(398600.4415, 6378136.3, false).contains("its GM is 398600.4415 m³/s² (given in km³/s²?)"));
        assert!(refused(1.0, 1.0, false).contains("a kernel's or a region function's, not a field's"));
        for any_body in [false, true] {
            assert_eq!(refused(3.986004415e14, -6378136.3, any_body), "x: its radius is -6378136.3; expected a number above 0");
            assert_eq!(refused(0.0, 6378136.3, any_body), "x: its GM is 0; expected a number above 0");
            assert_eq!(refused(f64::NAN, 6378136.3, any_body), "x: its GM is NaN; expected a number above 0");
        }
    }

    #[test]
    fn the_moon_is_another_body() {
        let moon = field(4.902800222e12, 1738000.0, 1.0);
        assert!(check_field(Path::new("x"), &moon, false).unwrap_err().to_string().ends_with("--any-body takes it as it is"));
        assert_eq!(check_field(Path::new("x"), &moon, true), Ok(()));
    }

    #[test]
    fn kernels_cover_a_share_of_the_sphere() {
        let check = |gm, radius, first| check_kernel(Path::new("k"), &field(gm, radius, first)).map_err(|error| error.to_string());
        assert_eq!(check(1.0, 1.0, 1.0), Ok(()));
        assert_eq!(check(3.986004415e14, 6378136.3, 0.71), Ok(()));
        assert!(check(1.0, 1.0, 0.0).unwrap_err().contains("covers nothing"));
        assert!(check(1.0, 1.0, -0.1).unwrap_err().ends_with("above 0 to 1"));
        assert!(check(1.0, 1.0, f64::NAN).unwrap_err().ends_with("above 0 to 1"));
        assert!(check(1.0, 1.0, 1.5).unwrap_err().ends_with("above 0 to 1"));
        assert!(check(3.986004415e14, 6378136.3, 1.0).unwrap_err().contains("a field's, not a kernel's"));
    }
}
