//! `geoid convert`: texts to the model file, and any field to ICGEM text.

use geopotential::{Coefficients, MAX_DEGREE};

use super::{ABSENT_AS_ZERO, Command, EPOCH, field_or_kernel};
use crate::arguments::{Arguments, Opt};
use crate::body::{ANY_BODY, check_either};
use crate::dating;
use crate::error::Error;
use crate::field_file::{save, summary};

pub const COMMAND: Command = Command {
    name: "convert",
    summary: "ICGEM or monthly GRACE text to a model file, or a field to ICGEM text (.gfc)",
    usage: "IN OUT [OPTIONS]",
    operands: &["IN", "OUT"],
    options: &[
        Opt { name: "--degree", value: "N", help: "cut the field to degree N" },
        Opt { name: "--gm", value: "G", help: "express the field with another GM, m^3/s^2" },
        Opt { name: "--radius", value: "R", help: "express the field with another radius, m" },
        dating::option("the date that OUT states, or none; default that of IN, see below"),
        ABSENT_AS_ZERO,
        EPOCH,
        ANY_BODY,
    ],
    details: "IN is known by its content, OUT by its extension: .gfc is ICGEM text, anything else a model file.\n\
              Every finite number keeps its bits. A text must have all its pairs, each with as many standard deviations as\n\
              its key 'errors' says, and a line break at its end; a whole model of the Earth may leave out C(0,0), which is\n\
              then 1, and degree 1, which is then 0. Standard deviations are not kept. The cut and the other\n\
              constants are the library's: C(n,m) times (GM/G) (radius/R)^n, so that the potential stays the same.\n\
              The date of IN is what a model file states, the day in the middle of a monthly text's span, or the day of\n\
              --epoch where ICGEM coefficients change with time; ICGEM text itself has none. In .gfc the date is a comment.\n",
    run,
};

fn run(arguments: &Arguments) -> Result<String, Error> {
    let (from, to) = (arguments.operand(0), arguments.operand(1));
    let date = dating::wished(arguments)?;
    let field = expressed(arguments, field_or_kernel(arguments, from, date)?)?;
    check_either(to, &field, arguments.has(ANY_BODY.name))?;
    save(to, &field)?;
    Ok(format!("{}: {}\n", to.display(), summary(&field)))
}

/// The field, cut and with the constants that the options name.
fn expressed(arguments: &Arguments, field: Coefficients) -> Result<Coefficients, Error> {
    let (gm, radius) = (arguments.positive("--gm")?, arguments.positive("--radius")?);
    let field = match arguments.count("--degree", MAX_DEGREE)? {
        Some(degree) => field.truncated(degree),
        None => field,
    };
    if gm.is_none() && radius.is_none() {
        return Ok(field);
    }
    Ok(field.rescaled(gm.unwrap_or(field.gm), radius.unwrap_or(field.radius)))
}
