//! `geoid caps`: the Slepian functions of a polar cap.

use std::fmt::Write;

use geopotential::linalg::Convergence;
use geopotential::slepian::{Slepian, try_polar_cap_with};

use super::Command;
use crate::arguments::{Arguments, Opt};
use crate::error::Error;
use crate::output::write_whole;
use crate::text::counted;

/// The library's limit.
const LARGEST_DEGREE: usize = 180;
/// How many functions the table shows where `--top` does not say.
const SHOWN: usize = 20;
/// The most rows of a matrix that is solved by sweeps; above it there are rounds.
pub const SWEPT_ROWS: usize = 32;
/// How many orders that did not settle are named.
const NAMED: usize = 10;

pub const COMMAND: Command = Command {
    name: "caps",
    summary: "the functions best concentrated within a polar cap, ranked",
    usage: "--degree L --angle DEG [OPTIONS]",
    operands: &[],
    options: &[
        Opt { name: "--degree", value: "L", help: "their largest degree, 0 to 180" },
        Opt { name: "--angle", value: "DEG", help: "the cap's angle from the pole, above 0 to 180 degrees" },
        Opt { name: "--top", value: "K", help: "only the K best; default 20 in the table and all in the file" },
        Opt { name: "--out", value: "FILE.csv", help: "write the functions with their coefficients by degree" },
    ],
    details: "An order above 0 stands for two functions, with the cosine and the sine of the order times the longitude.\n\
              The Shannon number is about how many functions are well concentrated. Degree 180 takes some seconds.\n\
              Where twelve digits of a concentration would say 1, the table says 1 less what it lacks.\n\
              The line under the table says whether the eigenvalue solver settled for every order, shown or not, and after how many sweeps\n\
              (a matrix of up to 32 rows, L - order + 1) or rounds: no error bound, and an order that did not settle still has its functions.\n",
    run,
};

fn run(arguments: &Arguments) -> Result<String, Error> {
    let missing = |name: &str| Error::usage(format!("{name} is missing; see geoid caps --help"));
    let degree = arguments.count("--degree", LARGEST_DEGREE)?.ok_or_else(|| missing("--degree L"))?;
    let angle = arguments.positive("--angle")?.ok_or_else(|| missing("--angle DEG"))?;
    if angle > 180.0 {
        return Err(Error::usage(format!("--angle is {angle}; expected degrees above 0, at most 180")));
    }
    let top = arguments.count("--top", usize::MAX)?;
    let (functions, orders) = try_polar_cap_with(degree, angle.to_radians())?;
    let first = |count: usize| &functions[..count.min(functions.len())];
    let mut text = table(&functions, first(top.unwrap_or(SHOWN)), degree, angle) + &endings(&orders) + "\n";
    if let Some(path) = arguments.path("--out") {
        let listed = first(top.unwrap_or(usize::MAX));
        write_whole(path, csv(listed, degree).as_bytes())?;
        let _ = writeln!(text, "{}: {} functions", path.display(), listed.len());
    }
    Ok(text)
}

fn table(all: &[Slepian], shown: &[Slepian], degree: usize, angle: f64) -> String {
    let sphere = ((degree + 1) * (degree + 1)) as f64;
    let shannon = sphere * (1.0 - angle.to_radians().cos()) / 2.0;
    let sum: f64 = all.iter().map(|function| if function.m == 0 { 1.0 } else { 2.0 } * function.concentration).sum();
    let mut text = format!(
        "cap of {angle} degrees, degree {degree}: {} functions by order, {sphere} with cosines and sines apart\n\
         Shannon number {shannon:.6} (concentrations add up to {sum:.6})\n\n  rank  order  concentration\n",
        all.len()
    );
    for (rank, function) in (1..).zip(shown) {
        let _ = writeln!(text, "{rank:>6} {:>6}  {}", function.m, share(function.concentration));
    }
    text
}

/// How the solver ended for the orders from 0 to the degree, in one line.
fn endings(orders: &[Convergence]) -> String {
    // Order m has a matrix of `orders.len() - m` rows: those of more than 32 stand in front.
    let long = orders.len().saturating_sub(SWEPT_ROWS);
    let open = orders.iter().enumerate().filter(|(_, end)| !end.settled);
    let open: Vec<String> =
        open.map(|(m, end)| format!("{m} ({})", counted(end.count, if m < long { "round" } else { "sweep" }))).collect();
    if open.is_empty() {
        let (long, short) = orders.split_at(long);
        let most: Vec<String> = [most(short, "sweep"), most(long, "round")].into_iter().flatten().collect();
        let all = if orders.len() == 1 { "the one order".to_string() } else { format!("all {} orders", orders.len()) };
        return format!("{all} settled (at most {})", most.join(", "));
    }
    let (named, more) = open.split_at(open.len().min(NAMED));
    let more = if more.is_empty() { String::new() } else { format!(" and {} more", more.len()) };
    format!("orders that did not settle: {}{more}", named.join(", "))
}

/// The largest count of some orders, if there are any.
fn most(orders: &[Convergence], step: &str) -> Option<String> {
    orders.iter().map(|end| end.count).max().map(|count| counted(count, step))
}

/// A concentration with twelve digits or, where those would say 1, what it lacks of 1. Rounding may leave
/// a little above 1.
pub fn share(concentration: f64) -> String {
    let rest = 1.0 - concentration;
    match format!("{concentration:.12}") {
        digits if digits != "1.000000000000" => digits,
        _ if rest == 0.0 => "1 - 0".to_string(),
        _ if rest < 0.0 => format!("1 + {:.1e}", -rest),
        _ => format!("1 - {rest:.1e}"),
    }
}

/// One line a function; a degree below its order has an empty field.
fn csv(functions: &[Slepian], degree: usize) -> String {
    let names: Vec<String> = (0..=degree).map(|l| format!("c{l}")).collect();
    let mut text = format!("rank,order,concentration,{}\n", names.join(","));
    for (rank, function) in (1..).zip(functions) {
        let _ = write!(text, "{rank},{},{:?}{}", function.m, function.concentration, ",".repeat(function.m));
        for coefficient in &function.coefficients {
            let _ = write!(text, ",{coefficient:?}");
        }
        text.push('\n');
    }
    text
}

#[cfg(test)]
mod tests {
    use super::{Convergence, endings, share};

    /// The line of orders with these counts; the orders in `open` did not settle.
    fn line(counts: &[usize], open: &[usize]) -> String {
        let end = |(m, &count): (usize, &usize)| Convergence { settled: !open.contains(&m), count };
        endings(&counts.iter().enumerate().map(end).collect::<Vec<_>>())
    }

    #[test]
    fn orders_that_settled_are_counted() {
        assert_eq!(line(&[0], &[]), "the one order settled (at most 0 sweeps)");
        assert_eq!(line(&[1, 0], &[]), "all 2 orders settled (at most 1 sweep)");
        assert_eq!(line(&[7; 32], &[]), "all 32 orders settled (at most 7 sweeps)");
        // The order 0 of 33 has 33 rows, and those after it at most 32.
        assert_eq!(line(&[&[78][..], &[7; 32]].concat(), &[]), "all 33 orders settled (at most 7 sweeps, 78 rounds)");
        assert_eq!(line(&[&[131; 29][..], &[9; 32]].concat(), &[]), "all 61 orders settled (at most 9 sweeps, 131 rounds)");
    }

    #[test]
    fn orders_that_did_not_settle_are_named() {
        assert_eq!(line(&[7, 6, 5, 100, 3], &[3]), "orders that did not settle: 3 (100 sweeps)");
        let counts = [&[812; 41][..], &[100; 32]].concat();
        assert_eq!(line(&counts, &[3, 40, 41]), "orders that did not settle: 3 (812 rounds), 40 (812 rounds), 41 (100 sweeps)");
        let ten = (0..10).map(|m| format!("{m} (100 sweeps)")).collect::<Vec<_>>().join(", ");
        let all: Vec<usize> = (0..22).collect();
        assert_eq!(line(&[100; 22], &all[..10]), format!("orders that did not settle: {ten}"));
        assert_eq!(line(&[100; 22], &all), format!("orders that did not settle: {ten} and 12 more"));
    }

    #[test]
    fn what_rounds_to_one_says_what_it_lacks() {
        assert_eq!(share(0.999999999404), "0.999999999404");
        assert_eq!(share(0.9999999999994), "0.999999999999");
        assert_eq!(share(1.0 - 2f64.powi(-50)), "1 - 8.9e-16");
        assert_eq!(share(1.0), "1 - 0");
        assert_eq!(share(1.0 + 2f64.powi(-52)), "1 + 2.2e-16");
        assert_eq!(share(0.25), "0.250000000000");
    }
}
