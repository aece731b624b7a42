//! `geoid sample`: a field to try the other commands with.

use geopotential::MAX_DEGREE;

use super::Command;
use crate::arguments::{Arguments, Opt};
use crate::error::Error;
use crate::field_file::save;
use crate::sample::sample;

pub const COMMAND: Command = Command {
    name: "sample",
    summary: "a synthetic field to try things with; no model of the Earth",
    usage: "OUT [OPTIONS]",
    operands: &["OUT"],
    options: &[
        Opt { name: "--degree", value: "N", help: "its largest degree, 0 to 2700; default 96" },
        Opt { name: "--seed", value: "S", help: "a whole number; default 1" },
    ],
    details: "The even zonals of GRS80's normal field, and on top of them random coefficients from degree 2: SplitMix64,\n\
              twelve uniform numbers added to a nearly normal one, standard deviation 1e-5/n^2 (Kaula's rule). A seed\n\
              should give the same bits on every machine. OUT is ICGEM text where it ends with .gfc, else a model file.\n",
    run,
};

fn run(arguments: &Arguments) -> Result<String, Error> {
    let degree = arguments.count("--degree", MAX_DEGREE)?.unwrap_or(96);
    let seed = arguments.whole("--seed")?.unwrap_or(1);
    let out = arguments.operand(0);
    save(out, &sample(degree, seed)?)?;
    Ok(format!(
        "{}: synthetic, no model of the Earth: GRS80's even zonals and a random field by Kaula's rule (degree {degree}, seed {seed})\n",
        out.display()
    ))
}
