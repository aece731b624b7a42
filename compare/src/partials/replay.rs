//! The oracle's partials of fields of degree 4 at five points (both poles and r = 0 among them), and the local accelerations there.

use oracle::Coefficients;

use super::four;
use crate::coefficients::fields::fixed;
use crate::constants::{array, number};
use crate::lent::{flat, orders, pair};

const NMAX: usize = 4;
const RADII: [f64; 5] = [6378200.0, 7000000.0, 6378136.3, 42164000.0, 0.0];
/// The Earth's rotation, rad/s.
const OMEGA: f64 = 7.292115e-5;

fn example(special: bool) -> Coefficients {
    let mut field = fixed(NMAX);
    if special {
        (field.c[1], field.s[4], field.c[6], field.s[8]) = (-0.0, f64::from_bits(1), 1e300, f64::INFINITY);
    }
    field
}

pub fn replay() -> String {
    let mut text = String::from("// The oracle's answers for the crate partials, numbers as bit patterns.\n");
    text += "// Written by `compare/run replay partials FILE` (see compare/README.md), never by hand.\n";
    let mut list = |comment: &str, name: &str, list: &[f64]| {
        text += &array(comment, name, &list.iter().map(|&x| number(x)).collect::<Vec<_>>());
    };
    let latitudes = [pair(0.3), (1.0, 0.0), pair(-1.1), (-1.0, 0.0), pair(0.9)];
    let longitudes: Vec<Vec<(f64, f64)>> = (0..5).map(|j| orders(1.3 * j as f64, NMAX)).collect();
    list("the radii of five points", "RADII", &RADII);
    list("their latitudes, sine and cosine", "LATITUDES", &flat(&latitudes));
    list("their longitudes, cosine and sine of each order", "TRIG", &flat(&longitudes.concat()));
    for (prefix, special) in [("", false), ("SPECIAL_", true)] {
        let field = example(special);
        list("the c of a field of degree 4, gm 3.986004415e14, radius 6378136.3", &format!("{prefix}C"), &field.c);
        list("its s", &format!("{prefix}S"), &field.s);
        let points: Vec<_> = (0..5).map(|i| field.partials(RADII[i], latitudes[i], &longitudes[i])).collect();
        list("v, dr, dlat, dlon at each point", &format!("{prefix}PARTIALS"), &points.iter().flat_map(four).collect::<Vec<_>>());
        let each = |i: usize| {
            let at = &points[i];
            [at.acceleration_neu(RADII[i], latitudes[i]), at.gravity_neu(RADII[i], latitudes[i], OMEGA)].concat()
        };
        list(
            "north, east, up of the acceleration, then of gravity with omega 7.292115e-5, at each point",
            &format!("{prefix}LOCAL"),
            &(0..5).flat_map(each).collect::<Vec<_>>(),
        );
    }
    text
}
