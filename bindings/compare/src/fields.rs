//! Grids, analyses and averages.

use oracle::standins::tricomi;

use crate::cases::Cases;
use crate::inputs::{Field, Functionals, LARGE, angles, degrees, fault, field_fault, love, radius};
use crate::lent::{analysis_orders, orders, pair};
use crate::tally::{Report, Tally};

pub fn compare(report: &mut Report) {
    report.call("grid", grids);
    report.call("analysis", analyses);
    report.call("basin_average", averages);
}

fn grids(tally: &mut Tally, cases: &mut Cases) {
    for nmax in degrees(cases, 8_000, &LARGE) {
        let field = Field::random(cases, nmax);
        let (rows, columns) = (cases.below(5) as usize, cases.below(10) as usize);
        let (lats, lons) = (angles(cases, rows), angles(cases, columns));
        let (love, r) = (love(cases, nmax), radius(cases, &field));
        let functional = Functionals::random(cases, &love);
        let ours = field.ours.grid(&functional.ours, r, &lats, &lons);
        let pairs: Vec<(f64, f64)> = lats.iter().map(|&lat| pair(lat)).collect();
        let trig: Vec<Vec<(f64, f64)>> = lons.iter().map(|&lon| orders(lon, nmax)).collect();
        let trig: Vec<&[(f64, f64)]> = trig.iter().map(Vec::as_slice).collect();
        let oracle = field.oracle.grid(&functional.oracle, r, &pairs, &trig);
        tally.call(fault("grid", &ours, &oracle), || format!("{:?}, N {nmax}, r {r:e}, {lats:?} x {lons:?}", functional.ours));
    }
}

fn analyses(tally: &mut Tally, cases: &mut Cases) {
    // At degree 2700 the oracle takes minutes.
    for nmax in degrees(cases, 2_000, &LARGE[..3]) {
        let field = Field::random(cases, nmax);
        let (gm, size, r) = (field.oracle.gm, field.oracle.radius, radius(cases, &field));
        let love = love(cases, nmax);
        let functional = Functionals::random(cases, &love);
        let (lats, lons) = geopotential::gauss_grid(nmax);
        let mut values = field.ours.grid(&functional.ours, r, &lats, &lons);
        if cases.below(4) == 0 {
            values.fill_with(|| cases.number());
        }
        let ours = geopotential::Coefficients::analysis(&functional.ours, r, &values, nmax, gm, size);
        let (x, w) = oracle::gauss_legendre(nmax + 1, &tricomi(nmax + 1));
        let pairs: Vec<(f64, f64)> = x.iter().map(|x| pair(x.asin())).collect();
        let oracle = oracle::Coefficients::analysis(&functional.oracle, r, &values, nmax, gm, size, &w, &pairs, &analysis_orders(nmax));
        tally.call(field_fault(&ours, &oracle, None), || format!("{:?}, N {nmax}, gm, radius, r {:?}", functional.ours, [gm, size, r]));
    }
}

fn averages(tally: &mut Tally, cases: &mut Cases) {
    for nmax in degrees(cases, 8_000, &LARGE) {
        let kmax = if cases.below(2) == 0 { nmax } else { cases.below(41) as usize };
        let (field, kernel) = (Field::random(cases, nmax), Field::random(cases, kmax));
        let (love, r) = (love(cases, nmax.min(kmax)), radius(cases, &field));
        let functional = Functionals::random(cases, &love);
        let ours = geopotential::slepian::basin_average(&field.ours, &kernel.ours, &functional.ours, r);
        let oracle = oracle::slepian::basin_average(&field.oracle, &kernel.oracle, &functional.oracle, r);
        tally.numbers(ours, oracle, || format!("{:?}, degrees {nmax} and {kmax}, r {r:e}", functional.ours));
    }
}
