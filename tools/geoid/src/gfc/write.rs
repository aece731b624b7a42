//! Writing a field as ICGEM text.

use std::fmt::Write;

use geopotential::{Coefficients, TideSystem};

use crate::dating::shown;
use crate::error::Error;

/// The text of a field: numbers have the shortest digits that read back to the same bits, each pair
/// has one line. A number that is not finite has no place in the format and is an error. A date has no key:
/// it stands in the free text before the head.
pub fn write(name: &str, field: &Coefficients) -> Result<String, Error> {
    finite("earth_gravity_constant", field.gm)?;
    finite("radius", field.radius)?;
    let mut text = field.date.map_or(String::new(), comment) + &head(name, field);
    for n in 0..=field.max_degree() {
        for m in 0..=n {
            let (c, s) = (field.try_c(n, m)?, field.try_s(n, m)?);
            finite(&format_args!("C of the pair ({n}, {m})"), c)?;
            finite(&format_args!("S of the pair ({n}, {m})"), s)?;
            // Writing to a String cannot fail.
            let _ = writeln!(text, "gfc {n:4} {m:4} {c:e} {s:e}");
        }
    }
    Ok(text)
}

fn finite(what: &(impl std::fmt::Display + ?Sized), value: f64) -> Result<(), Error> {
    if value.is_finite() { Ok(()) } else { Err(Error::failure(format!("{what} is {value}; a .gfc file has finite numbers only"))) }
}

/// The free text of a date, and the line that ends free text.
fn comment(date: i32) -> String {
    format!(
        "comment: the field of {} (day {date} from 2000-01-01)\n\
         begin_of_head ==================================\n",
        shown(date)
    )
}

fn head(name: &str, field: &Coefficients) -> String {
    let name = name.replace(|c: char| c.is_whitespace() || c.is_control(), "_");
    format!(
        "product_type            gravity_field\n\
         modelname               {name}\n\
         earth_gravity_constant  {:e}\n\
         radius                  {:e}\n\
         max_degree              {}\n\
         errors                  no\n\
         norm                    fully_normalized\n\
         tide_system             {}\n\
         \n\
         key    n    m C S\n\
         end_of_head ====================================\n",
        field.gm,
        field.radius,
        field.max_degree(),
        tide_word(field.tide_system),
    )
}

/// The word of a tide system in the head.
fn tide_word(tide_system: TideSystem) -> &'static str {
    match tide_system {
        TideSystem::TideFree => "tide_free",
        TideSystem::ZeroTide => "zero_tide",
        TideSystem::MeanTide => "mean_tide",
        TideSystem::Unknown => "unknown",
    }
}
