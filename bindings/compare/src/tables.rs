//! Legendre tables and Gauss–Legendre rules.

use oracle::standins::tricomi;

use crate::cases::Cases;
use crate::inputs::{LARGE, angle, degrees, fault, unsigned};
use crate::lent::pair;
use crate::tally::{Report, Tally, shown};

/// The random tables of a call.
const COUNT: u64 = 4_000;

pub fn compare(report: &mut Report) {
    report.call("Legendre, p", |tally, cases| tables(tally, cases, made, table));
    report.call("Legendre, p and dp", |tally, cases| tables(tally, cases, made, table_with_derivative));
    report.call("Legendre grown, p", |tally, cases| tables(tally, cases, grown, table));
    report.call("Legendre grown, p and dp", |tally, cases| tables(tally, cases, grown, table_with_derivative));
    report.call("mirror, p", |tally, cases| tables(tally, cases, made, mirrored));
    report.call("mirror, p and dp", |tally, cases| tables(tally, cases, made, mirrored_with_derivative));
    report.call("mirror, grown, p", |tally, cases| tables(tally, cases, grown, mirrored));
    report.call("mirror, grown, p and dp", |tally, cases| tables(tally, cases, grown, mirrored_with_derivative));
    report.call("gauss_legendre", rules);
    report.call("gauss_grid", grids);
}

/// Our table of a degree; the oracle's is made at once.
type Table = fn(&mut Cases, usize) -> geopotential::Legendre;

/// A table's entries on both sides, at a latitude (radians).
type Tables = fn(&mut geopotential::Legendre, &mut oracle::Legendre, f64) -> Option<String>;

fn made(_: &mut Cases, nmax: usize) -> geopotential::Legendre {
    geopotential::Legendre::new(nmax)
}

/// A table of a lower degree that grows in steps, each by one degree or by several; some meet the numbers of a latitude, or those
/// mirrored.
fn grown(cases: &mut Cases, nmax: usize) -> geopotential::Legendre {
    let mut table = geopotential::Legendre::new(cases.below(nmax as u64 + 1) as usize);
    while table.max_degree() < nmax {
        match cases.below(4) {
            0 => table.compute(angle(cases)),
            1 => table.compute_with_derivative(angle(cases)),
            _ => {}
        }
        if cases.below(2) == 0 {
            table.mirror();
        }
        let left = (nmax - table.max_degree()) as u64;
        let step = if cases.below(2) == 0 { 1 } else { 1 + cases.below(left) };
        table.grow(table.max_degree() + step as usize);
    }
    table
}

fn tables(tally: &mut Tally, cases: &mut Cases, table: Table, call: Tables) {
    for nmax in degrees(cases, COUNT, &LARGE) {
        let (mut ours, mut oracle) = (table(cases, nmax), oracle::Legendre::new(nmax));
        // The second latitude meets the tables of the first.
        for _ in 0..2 {
            let lat = angle(cases);
            tally.call(call(&mut ours, &mut oracle, lat), || format!("N {nmax}, latitude {}", shown(lat)));
        }
    }
}

fn table(ours: &mut geopotential::Legendre, oracle: &mut oracle::Legendre, lat: f64) -> Option<String> {
    ours.compute(lat);
    oracle.compute(pair(lat));
    fault("p", &values(ours), &oracle.p)
}

fn table_with_derivative(ours: &mut geopotential::Legendre, oracle: &mut oracle::Legendre, lat: f64) -> Option<String> {
    ours.compute_with_derivative(lat);
    oracle.compute_with_derivative(pair(lat));
    fault("p", &values(ours), &oracle.p).or_else(|| fault("dp", &derivatives(ours), &oracle.dp))
}

/// Our table at a latitude, mirrored, and the oracle's at the negated latitude: equal numbers, whose zeros may have another sign.
fn mirrored(ours: &mut geopotential::Legendre, oracle: &mut oracle::Legendre, lat: f64) -> Option<String> {
    ours.compute(lat);
    ours.mirror();
    oracle.compute(pair(-lat));
    fault("p", &unsigned(&values(ours)), &unsigned(&oracle.p))
}

fn mirrored_with_derivative(ours: &mut geopotential::Legendre, oracle: &mut oracle::Legendre, lat: f64) -> Option<String> {
    ours.compute_with_derivative(lat);
    ours.mirror();
    oracle.compute_with_derivative(pair(-lat));
    fault("p", &unsigned(&values(ours)), &unsigned(&oracle.p)).or_else(|| fault("dp", &unsigned(&derivatives(ours)), &unsigned(&oracle.dp)))
}

fn values(table: &geopotential::Legendre) -> Vec<f64> {
    entries(table.max_degree(), |n, m| table.p(n, m))
}

fn derivatives(table: &geopotential::Legendre) -> Vec<f64> {
    entries(table.max_degree(), |n, m| table.dp(n, m))
}

/// The entries of a table along its storage.
fn entries(nmax: usize, entry: impl Fn(usize, usize) -> f64) -> Vec<f64> {
    (0..=nmax).flat_map(|n| (0..=n).map(move |m| (n, m))).map(|(n, m)| entry(n, m)).collect()
}

fn rules(tally: &mut Tally, _: &mut Cases) {
    for n in (0..=300).chain([512, 1000, 2701]) {
        let (ours, oracle) = (geopotential::gauss_legendre(n), oracle::gauss_legendre(n, &tricomi(n)));
        let fault = fault("x", &ours.0, &oracle.0).or_else(|| fault("w", &ours.1, &oracle.1));
        tally.call(fault, || format!("n {n}"));
    }
}

fn grids(tally: &mut Tally, _: &mut Cases) {
    for nmax in (0..=300).chain([512, 1000, 2700]) {
        let (ours, oracle) = (geopotential::gauss_grid(nmax), oracle::gauss_grid(nmax));
        let fault = fault("latitudes", &ours.0, &oracle.0).or_else(|| fault("longitudes", &ours.1, &oracle.1));
        tally.call(fault, || format!("N {nmax}"));
    }
}
