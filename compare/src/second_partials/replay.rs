//! The oracle's second derivatives, and the tensors that they make, of fields of degree 0, 1, 2 and 4 at six points (both poles, r = 0 and one far out
//! among them), and at two points of a field of degree 130; and tensors of numbers that no field makes.

use oracle::{Coefficients, Partials, SecondPartials};

use super::ten;
use crate::coefficients::fields::fixed;
use crate::constants::{array, number};
use crate::lent::{flat, orders, pair};

const NMAX: usize = 4;
/// From degree 128 on the call's arrays are long ones.
const LARGE: usize = 130;
/// The field's own radius, and radii at which gm/r/r differs from gm/(r·r), and gm/r/(r·r) from gm/r/r/r.
const RADII: [f64; 6] = [6378244.1, 6924038.0, 6378136.3, 42173231.0, 0.0, 154500000001.0];

/// A field of degree 4, with strange numbers or without.
fn example(special: bool) -> Coefficients {
    let mut field = fixed(NMAX);
    if special {
        (field.c[1], field.c[3], field.s[4], field.s[8]) = (-0.0, 1e300, f64::from_bits(1), f64::INFINITY);
    }
    field
}

/// The field to a lower degree, which is the front of its lists.
fn front(field: &Coefficients, nmax: usize) -> Coefficients {
    let mut front = fixed(nmax);
    let pairs = front.c.len();
    (front.c, front.s) = (field.c[..pairs].to_vec(), field.s[..pairs].to_vec());
    front
}

fn list(comment: &str, name: &str, numbers: &[f64]) -> String {
    array(comment, name, &numbers.iter().map(|&x| number(x)).collect::<Vec<_>>())
}

/// A point: its radius, latitude and longitude.
type Point = (f64, (f64, f64), Vec<(f64, f64)>);

/// The poles, and latitudes at which t/u differs from t·(1/u); at the first and the third point the numbers of degree 4 show the order in which P, m and
/// the rest are multiplied.
fn points() -> Vec<Point> {
    let latitudes = [pair(0.69), (1.0, 0.0), pair(-0.52), (-1.0, 0.0), pair(0.88), pair(-0.44)];
    let longitudes = [1.9, 2.0, 5.9, 4.6, 2.7, 0.8];
    (0..6).map(|i| (RADII[i], latitudes[i], orders(longitudes[i], NMAX))).collect()
}

/// What is due of a field at some points.
fn answers(name: &str, field: &Coefficients, points: &[Point]) -> String {
    let at = |(r, lat, lon): &Point| field.second_partials(*r, *lat, lon);
    let numbers: Vec<f64> = points.iter().flat_map(|point| ten(&at(point))).collect();
    let tensors: Vec<f64> = points.iter().flat_map(|point| at(point).tensor_neu(point.0, point.1).concat()).collect();
    list("v, dr, dlat, dlon, drr, dlatlat, dlonlon, drlat, drlon, dlatlon at each point", &format!("{name}SECOND"), &numbers)
        + &list("the tensor there, row by row", &format!("{name}TENSOR"), &tensors)
}

/// Tensors of ten numbers that no field makes, so that few entries are NaN: at two places that show the order of the operations, at both poles, at r = 0,
/// and where r·r overflows.
fn tensors() -> String {
    let first = Partials { v: 0.7, dr: -1.3, dlat: 2.1, dlon: 3.7 };
    let at = SecondPartials { first, drr: -4.9, dlatlat: 5.3, dlonlon: 6.1, drlat: -7.9, drlon: 8.3, dlatlon: -9.7 };
    let (north, south) = (pair(0.77), pair(-0.46));
    let places = [(18.7, north), (4.7, south), (2.3, (1.0, 0.0)), (2.3, (-1.0, 0.0)), (0.0, north), (1e160, north)];
    let tensors: Vec<f64> = places.iter().flat_map(|&(r, lat)| at.tensor_neu(r, lat).concat()).collect();
    list("ten numbers", "NUMBERS", &ten(&at))
        + &list("radius, sine and cosine of six places", "PLACES", &places.map(|(r, (t, u))| [r, t, u]).concat())
        + &list("the tensor of these numbers at each, row by row", "TENSORS", &tensors)
}

/// A field of degree 130 at the first and the third point: every c, every s, and all cosines and sines are the same number, as the replaying program
/// has them. The sums are long, so that another order of operations gives other bits.
fn large() -> String {
    let mut field = fixed(LARGE);
    field.c.fill(0.7);
    field.s.fill(0.3);
    let points = points();
    let of = |i: usize| (points[i].0, points[i].1, vec![(0.6, 0.6); LARGE + 1]);
    answers("LARGE_", &field, &[of(0), of(2)])
}

pub fn replay() -> String {
    let mut text = String::from("// The oracle's answers for the crate second_partials, numbers as bit patterns.\n");
    text += "// Written by `compare/run replay second_partials FILE` (see compare/README.md), never by hand.\n";
    let points = points();
    text += &list("the radii of six points", "RADII", &RADII);
    text += &list("their latitudes, sine and cosine", "LATITUDES", &flat(&points.iter().map(|point| point.1).collect::<Vec<_>>()));
    let longitudes: Vec<(f64, f64)> = points.iter().flat_map(|point| point.2.clone()).collect();
    text += &list("their longitudes, cosine and sine of each order", "TRIG", &flat(&longitudes));
    for (prefix, special, degrees) in [("", false, &[0, 1, 2, 4][..]), ("SPECIAL_", true, &[2, 4])] {
        let field = example(special);
        text += &list("the c of a field of degree 4, gm 3.986004415e14, radius 6378136.3", &format!("{prefix}C"), &field.c);
        text += &list("its s", &format!("{prefix}S"), &field.s);
        for &nmax in degrees {
            text += &answers(&format!("{prefix}OF_{nmax}_"), &front(&field, nmax), &points);
        }
    }
    text + &tensors() + &large()
}
