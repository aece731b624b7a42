//! `geoid region`: the functions best concentrated within a drawn basin.

use std::fmt::Write;

use geopotential::Coefficients;
use geopotential::linalg::Convergence;
use geopotential::slepian::{Nodes, RegionSlepian};

use super::Command;
use super::caps::{SWEPT_ROWS, share};
use crate::arguments::{Arguments, Opt};
use crate::basin::check_share;
use crate::drawn::{Drawn, Fineness, NODES};
use crate::error::Error;
use crate::outline::{self, Latitudes, OUTLINE_ELLIPSOID};
use crate::text::counted;

/// The library's limit.
const LARGEST_DEGREE: usize = 21;
/// How many functions are listed where `--best` does not say.
const SHOWN: usize = 20;

pub const COMMAND: Command = Command {
    name: "region",
    summary: "the functions best concentrated within a drawn basin, ranked",
    usage: "OUTLINE --degree L [OPTIONS]",
    operands: &["OUTLINE"],
    options: &[
        Opt { name: "--degree", value: "L", help: "their largest degree, 0 to 21" },
        Opt { name: "--best", value: "N", help: "only the N best; default 20" },
        OUTLINE_ELLIPSOID,
        NODES,
    ],
    details: "OUTLINE is that of geoid kernel, and so is --outline-ellipsoid. Several rings make one region: at each latitude the intervals of outlines are added\n\
              and those of holes taken off. The Shannon number is about how many functions are well concentrated.\n\
              The lines under the table say whether the eigenvalue solver settled, after how many sweeps (a matrix of up to 32\n\
              rows, to degree 4) or rounds, and the residual: the largest length of D g - lambda g over the functions listed, with\n\
              D the region's concentration matrix and lambda the concentration of g. From degree 10 on a solver that did not settle is\n\
              ordinary: eigenvalues that cluster at 0 keep its test from passing. Degree 21 has a matrix of 484 rows.\n",
    run,
};

fn run(arguments: &Arguments) -> Result<String, Error> {
    let missing = || Error::usage("--degree L is missing; see geoid region --help");
    let degree = arguments.count("--degree", LARGEST_DEGREE)?.ok_or_else(missing)?;
    let best = arguments.count("--best", usize::MAX)?.unwrap_or(SHOWN);
    let fineness = Fineness::of(arguments)?;
    let latitudes = Latitudes::of(arguments)?;
    let path = arguments.operand(0);
    let drawn = Drawn::joined(&outline::load(path, latitudes)?)?;
    latitudes.tell();
    let a_panel = drawn.nodes(degree, fineness).map_err(|what| Error::in_file(path, what))?;
    let nodes = Nodes::try_new(degree, &*drawn.intervals, &drawn.breaks, a_panel)?;
    let matrix = nodes.try_concentration_matrix()?;
    check_share(path, matrix[0])?;
    let (functions, end) = nodes.try_region_with()?;
    let shown = &functions[..best.min(functions.len())];
    let panels = counted(drawn.panels(), "panel");
    let head = format!("share of the sphere {:?}\n{panels}, {} ({a_panel} a panel)\n", matrix[0], counted(nodes.len(), "node"));
    Ok(head + &table(&functions, shown, matrix[0]) + &ending(functions.len(), end) + "\n" + &residual_line(&matrix, shown)?)
}

fn table(all: &[RegionSlepian], shown: &[RegionSlepian], area: f64) -> String {
    let sum: f64 = all.iter().map(|function| function.concentration).sum();
    let mut text = format!(
        "{} functions, Shannon number {:.6} (concentrations add up to {sum:.6})\n\n  rank  concentration\n",
        all.len(),
        all.len() as f64 * area
    );
    for (rank, function) in (1..).zip(shown) {
        let _ = writeln!(text, "{rank:>6}  {}", share(function.concentration));
    }
    text
}

fn ending(rows: usize, end: Convergence) -> String {
    let count = counted(end.count, if rows > SWEPT_ROWS { "round" } else { "sweep" });
    format!("the solver {} ({count})", if end.settled { "settled" } else { "did not settle" })
}

fn residual_line(matrix: &[f64], functions: &[RegionSlepian]) -> Result<String, Error> {
    let mut largest: f64 = 0.0;
    for function in functions {
        largest = largest.max(residual(matrix, &vector(&function.coefficients)?, function.concentration));
    }
    Ok(format!("|D g - lambda g| is at most {largest:.1e} over the functions listed\n"))
}

/// The length of D g - lambda g.
fn residual(matrix: &[f64], vector: &[f64], concentration: f64) -> f64 {
    let rest = |(row, g): (&[f64], &f64)| row.iter().zip(vector).map(|(d, g)| d * g).sum::<f64>() - concentration * g;
    matrix.chunks(vector.len()).zip(vector).map(rest).map(|rest| rest * rest).sum::<f64>().sqrt()
}

/// A function's coefficients in the order of the matrix: by degree, then order, cosine before sine.
fn vector(function: &Coefficients) -> Result<Vec<f64>, Error> {
    let mut numbers = Vec::new();
    for n in 0..=function.max_degree() {
        numbers.push(function.try_c(n, 0)?);
        for m in 1..=n {
            numbers.extend([function.try_c(n, m)?, function.try_s(n, m)?]);
        }
    }
    Ok(numbers)
}
