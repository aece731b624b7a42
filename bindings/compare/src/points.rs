//! First and second partials at points, local accelerations and tensors.

use crate::cases::Cases;
use crate::inputs::{Field, LARGE, angle, degrees, fault, radius};
use crate::lent::{orders, pair};
use crate::tally::{Report, Tally};

pub fn compare(report: &mut Report) {
    report.call("partials", |tally, cases| one_point(tally, cases, |field, (r, lat, lon)| field.partials(r, lat, lon), partials_fault));
    report.call("partials_along", |tally, cases| many_points(tally, cases, geopotential::Coefficients::partials_along, partials_fault));
    report.call("acceleration, gravity", accelerations);
    report.call("second_partials", |tally, cases| {
        one_point(tally, cases, |field, (r, lat, lon)| field.second_partials(r, lat, lon), second_partials_fault)
    });
    report.call("second_partials_along", |tally, cases| {
        many_points(tally, cases, geopotential::Coefficients::second_partials_along, second_partials_fault)
    });
    report.call("tensor", tensors);
}

/// A point: r, latitude, longitude.
type Point = (f64, f64, f64);

/// What is wrong with our answer at a point.
type Fault<P> = fn(&Field, Point, P) -> Option<String>;

fn point(cases: &mut Cases, field: &Field) -> Point {
    (radius(cases, field), angle(cases), angle(cases))
}

fn partials_fault(field: &Field, (r, lat, lon): Point, ours: geopotential::Partials) -> Option<String> {
    let oracle = field.oracle.partials(r, pair(lat), &orders(lon, field.oracle.max_degree()));
    fault("partials", &[ours.v, ours.dr, ours.dlat, ours.dlon], &[oracle.v, oracle.dr, oracle.dlat, oracle.dlon])
}

fn second_partials_fault(field: &Field, (r, lat, lon): Point, ours: geopotential::SecondPartials) -> Option<String> {
    let oracle = field.oracle.second_partials(r, pair(lat), &orders(lon, field.oracle.max_degree()));
    let (first, due) = (ours.first, oracle.first);
    fault(
        "second partials",
        &[first.v, first.dr, first.dlat, first.dlon, ours.drr, ours.dlatlat, ours.dlonlon, ours.drlat, ours.drlon, ours.dlatlon],
        &[due.v, due.dr, due.dlat, due.dlon, oracle.drr, oracle.dlatlat, oracle.dlonlon, oracle.drlat, oracle.drlon, oracle.dlatlon],
    )
}

fn one_point<P>(tally: &mut Tally, cases: &mut Cases, call: fn(&geopotential::Coefficients, Point) -> P, fault: Fault<P>) {
    for nmax in degrees(cases, 8_000, &LARGE) {
        let field = Field::random(cases, nmax);
        let point = point(cases, &field);
        tally.call(fault(&field, point, call(&field.ours, point)), || format!("N {nmax}, {point:?}"));
    }
}

fn many_points<P>(tally: &mut Tally, cases: &mut Cases, call: fn(&geopotential::Coefficients, &[Point]) -> Vec<P>, fault: Fault<P>) {
    for nmax in degrees(cases, 2_000, &LARGE) {
        let field = Field::random(cases, nmax);
        let points: Vec<Point> = (0..cases.below(8)).map(|_| point(cases, &field)).collect();
        let ours = call(&field.ours, &points);
        let missing = (ours.len() != points.len()).then(|| format!("{} answers, due {}", ours.len(), points.len()));
        let fault = missing.or_else(|| points.iter().zip(ours).find_map(|(&point, ours)| fault(&field, point, ours)));
        tally.call(fault, || format!("N {nmax}, {points:?}"));
    }
}

fn accelerations(tally: &mut Tally, cases: &mut Cases) {
    for _ in cases.times(100_000) {
        let [v, dr, dlat, dlon] = [0; 4].map(|_| cases.number());
        let (r, lat, omega) = (cases.number(), angle(cases), cases.number());
        let (ours, oracle) = (geopotential::Partials { v, dr, dlat, dlon }, oracle::Partials { v, dr, dlat, dlon });
        let fault = fault("acceleration", &ours.acceleration_neu(r, lat), &oracle.acceleration_neu(r, pair(lat)))
            .or_else(|| fault("gravity", &ours.gravity_neu(r, lat, omega), &oracle.gravity_neu(r, pair(lat), omega)));
        tally.call(fault, || format!("{ours:?}, r, latitude, omega {:?}", [r, lat, omega]));
    }
}

fn tensors(tally: &mut Tally, cases: &mut Cases) {
    for _ in cases.times(100_000) {
        let [v, dr, dlat, dlon, drr, dlatlat, dlonlon, drlat, drlon, dlatlon] = [0; 10].map(|_| cases.number());
        let (r, lat) = (cases.number(), angle(cases));
        let first = geopotential::Partials { v, dr, dlat, dlon };
        let ours = geopotential::SecondPartials { first, drr, dlatlat, dlonlon, drlat, drlon, dlatlon };
        let first = oracle::Partials { v, dr, dlat, dlon };
        let oracle = oracle::SecondPartials { first, drr, dlatlat, dlonlon, drlat, drlon, dlatlon };
        let (ours_neu, oracle_neu) = (ours.tensor_neu(r, lat), oracle.tensor_neu(r, pair(lat)));
        tally.call(fault("tensor", ours_neu.as_flattened(), oracle_neu.as_flattened()), || format!("{ours:?}, r, latitude {:?}", [r, lat]));
    }
}
