//! Holds the proved library against the oracle, the published Rust with document 01's stand-ins.

mod analysis;
mod basin_kernel;
mod cases;
mod coefficients;
mod constants;
mod ended;
mod entries;
mod functional;
mod guarded;
mod legendre;
mod lengths;
mod lent;
mod linalg;
mod margins;
mod model_file;
mod number;
mod oracle_check;
mod partials;
mod points;
mod polygon;
mod refusal;
mod refusals;
mod second_partials;
mod sizes;
mod slepian;
mod synthesis;
mod table_entry;
mod tally;
mod timing;

use std::process::ExitCode;
use std::time::{SystemTime, UNIX_EPOCH};

use tally::Report;

const USAGE: &str = "\
usage: compare [--seed NUMBER] [--quick] [SUBJECT...]   same bits as the oracle, on every subject or on those named
       compare oracle                                   only check that the oracle itself works
       compare bench [SUBJECT...]                       ours, the Rust's, their ratio
       compare replay SUBJECT FILE                      write the oracle's answers as Rattle constants
       compare margins FILE [COUNT [SEED]]              write values and their sums' numbers, for margins.py
subjects: number, functional, coefficients, model_file, legendre, synthesis, partials, second_partials, analysis, linalg, slepian, polygon,
          basin_kernel, lengths;
          for replay also mirror, refusals, refusals_files, refusals_fields, refusals_points, refusals_c, regions, refusals_regions,
          refusals_basins, values_c, solvers_c";

/// One crate of the library: what can be done with it here.
struct Subject {
    name: &'static str,
    compare: fn(&mut Report),
    bench: Option<fn()>,
    replay: Option<fn() -> String>,
}

const SUBJECTS: &[Subject] = &[
    Subject { name: "number", compare: number::compare, bench: Some(number::bench::bench), replay: Some(number::replay::replay) },
    Subject {
        name: "functional",
        compare: functional::compare,
        bench: Some(functional::bench::bench),
        replay: Some(functional::replay::replay),
    },
    Subject {
        name: "coefficients",
        compare: coefficients::compare,
        bench: Some(coefficients::bench::bench),
        replay: Some(coefficients::replay::replay),
    },
    Subject {
        name: "model_file",
        compare: model_file::compare,
        bench: Some(model_file::bench::bench),
        replay: Some(model_file::replay::replay),
    },
    Subject { name: "legendre", compare: legendre::compare, bench: Some(legendre::bench::bench), replay: Some(legendre::replay::replay) },
    Subject {
        name: "synthesis",
        compare: synthesis::compare,
        bench: Some(synthesis::bench::bench),
        replay: Some(synthesis::replay::replay),
    },
    Subject { name: "partials", compare: partials::compare, bench: Some(partials::bench::bench), replay: Some(partials::replay::replay) },
    Subject {
        name: "second_partials",
        compare: second_partials::compare,
        bench: Some(second_partials::bench::bench),
        replay: Some(second_partials::replay::replay),
    },
    Subject { name: "analysis", compare: analysis::compare, bench: Some(analysis::bench::bench), replay: Some(analysis::replay::replay) },
    Subject { name: "linalg", compare: linalg::compare, bench: Some(linalg::bench::bench), replay: Some(linalg::replay::replay) },
    Subject { name: "slepian", compare: slepian::compare, bench: Some(slepian::bench::bench), replay: Some(slepian::replay::replay) },
    Subject { name: "polygon", compare: polygon::compare, bench: Some(polygon::bench::bench), replay: Some(polygon::replay::replay) },
    Subject {
        name: "basin_kernel",
        compare: basin_kernel::compare,
        bench: Some(basin_kernel::bench::bench),
        replay: Some(basin_kernel::replay::replay),
    },
    Subject { name: "lengths", compare: lengths::compare, bench: None, replay: None },
    Subject { name: "refusals", compare: |_| (), bench: None, replay: Some(refusals::models::replay) },
    Subject { name: "refusals_files", compare: |_| (), bench: None, replay: Some(refusals::files::replay) },
    Subject { name: "refusals_fields", compare: |_| (), bench: None, replay: Some(refusals::fields::replay) },
    Subject { name: "refusals_points", compare: |_| (), bench: None, replay: Some(refusals::points::replay) },
    Subject { name: "refusals_c", compare: |_| (), bench: None, replay: Some(refusals::entries::replay) },
    Subject { name: "mirror", compare: |_| (), bench: None, replay: Some(legendre::mirror_replay::replay) },
    Subject { name: "regions", compare: |_| (), bench: None, replay: Some(slepian::region_replay::replay) },
    Subject { name: "refusals_regions", compare: |_| (), bench: None, replay: Some(refusals::regions::replay) },
    Subject { name: "refusals_basins", compare: |_| (), bench: None, replay: Some(refusals::basins::replay) },
    Subject { name: "values_c", compare: |_| (), bench: None, replay: Some(refusals::values::replay) },
    Subject { name: "solvers_c", compare: |_| (), bench: None, replay: Some(refusals::solvers::replay) },
];

fn subject(name: &str) -> Result<&'static Subject, String> {
    SUBJECTS.iter().find(|s| s.name == name).ok_or_else(|| format!("no subject or option {name}\n{USAGE}"))
}

/// The named subjects, or all where none is named.
fn subjects(names: &[&str]) -> Result<Vec<&'static Subject>, String> {
    if names.is_empty() { Ok(SUBJECTS.iter().collect()) } else { names.iter().map(|name| subject(name)).collect() }
}

/// A seed in decimal, or in hexadecimal after 0x.
fn parse_seed(text: &str) -> Result<u64, String> {
    text.strip_prefix("0x").map_or_else(|| text.parse(), |digits| u64::from_str_radix(digits, 16)).map_err(|e| format!("seed {text}: {e}"))
}

fn compare(arguments: &[&str]) -> Result<bool, String> {
    let mut seed = SystemTime::now().duration_since(UNIX_EPOCH).map_or(1, |d| d.as_nanos() as u64);
    let (mut quick, mut names) = (false, Vec::new());
    let mut rest = arguments.iter();
    while let Some(&argument) = rest.next() {
        match argument {
            "--seed" => seed = parse_seed(rest.next().ok_or(USAGE)?)?,
            "--quick" => quick = true,
            name => names.push(name),
        }
    }
    let chosen = subjects(&names)?;
    println!("seed {seed:#x}{}", if quick { ", quick" } else { "" });
    let mut report = Report::new(seed, if quick { 100 } else { 1 });
    oracle_check::check(&mut report);
    for subject in chosen {
        (subject.compare)(&mut report);
    }
    Ok(report.all_same())
}

fn dispatch(arguments: &[&str]) -> Result<bool, String> {
    match arguments {
        ["help" | "--help" | "-h"] => println!("{USAGE}"),
        ["oracle"] => {
            let mut report = Report::new(1, 1);
            oracle_check::check(&mut report);
            return Ok(report.all_same());
        }
        ["bench", names @ ..] => {
            let chosen = subjects(names)?;
            timing::header();
            chosen.iter().filter_map(|subject| subject.bench).for_each(|bench| bench());
        }
        ["replay", name, file] => {
            let replay = subject(name)?.replay.ok_or_else(|| format!("{name} has no answers to replay"))?;
            std::fs::write(file, replay()).map_err(|e| format!("{file}: {e}"))?;
        }
        ["margins", file, rest @ ..] => {
            let count = rest.first().map_or(Ok(20_000), |text| text.parse().map_err(|e| format!("count {text}: {e}")))?;
            let seed = rest.get(1).map_or(Ok(1), |text| parse_seed(text))?;
            std::fs::write(file, margins::lines(seed, count)).map_err(|e| format!("{file}: {e}"))?;
        }
        ["replay" | "margins", ..] => return Err(USAGE.to_string()),
        _ => return compare(arguments),
    }
    Ok(true)
}

fn main() -> ExitCode {
    let arguments: Vec<String> = std::env::args().skip(1).collect();
    match dispatch(&arguments.iter().map(String::as_str).collect::<Vec<_>>()) {
        Ok(true) => ExitCode::SUCCESS,
        Ok(false) => ExitCode::FAILURE,
        Err(message) => {
            eprintln!("{message}");
            ExitCode::from(2)
        }
    }
}
