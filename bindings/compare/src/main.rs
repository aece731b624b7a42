//! Holds the Rust bindings, which take radians, against the oracle lent the same sines and cosines, bit for bit, but that a mirrored zero
//! may have either sign; then against the published crate itself, its files unchanged, where differences are told and not asserted.

mod basins;
mod fields;
mod inputs;
mod matrices;
mod models;
mod points;
#[allow(dead_code, reason = "the comparison of the C entries uses the rest of these files")]
mod shared;
mod tables;
mod unchanged;

use shared::{cases, lent, refusal, sizes, tally};

use std::process::ExitCode;
use std::time::{SystemTime, UNIX_EPOCH};

use tally::Report;

const USAGE: &str = "usage: compare-bindings [--seed NUMBER] [--quick]";

/// The seed, and what every count of inputs is divided by.
fn options() -> Option<(u64, u64)> {
    let (mut seed, mut divisor) = (SystemTime::now().duration_since(UNIX_EPOCH).map_or(1, |d| d.as_nanos() as u64), 1);
    let mut arguments = std::env::args().skip(1);
    while let Some(argument) = arguments.next() {
        match argument.as_str() {
            "--seed" => seed = parse(&arguments.next()?)?,
            "--quick" => divisor = 50,
            _ => return None,
        }
    }
    Some((seed, divisor))
}

/// A number in decimal, or in hexadecimal after 0x.
fn parse(text: &str) -> Option<u64> {
    text.strip_prefix("0x").map_or_else(|| text.parse(), |digits| u64::from_str_radix(digits, 16)).ok()
}

fn main() -> ExitCode {
    let Some((seed, divisor)) = options() else {
        eprintln!("{USAGE}");
        return ExitCode::from(2);
    };
    println!("seed {seed:#x}; against the oracle, every bit but the signs of mirrored zeros");
    let mut report = Report::new(seed, divisor);
    models::compare(&mut report);
    tables::compare(&mut report);
    fields::compare(&mut report);
    points::compare(&mut report);
    matrices::compare(&mut report);
    basins::compare(&mut report);
    println!("against the unchanged published crate: differences are told, and change no exit status");
    unchanged::compare(&mut Report::new(seed, divisor));
    if report.all_same() { ExitCode::SUCCESS } else { ExitCode::FAILURE }
}
