//! The oracle's grids of fields of degree 3: three rows (a pole among them), nine longitudes; and one of degree 130 with two longitudes.

use oracle::Coefficients;

use crate::coefficients::fields::fixed;
use crate::constants::{array, number};
use crate::functional::functional;
use crate::lent::{orders, pair, pattern};

const LOVE: [f64; 4] = [0.0, 0.021, -0.303, -0.194];
const NMAX: usize = 3;
const LARGE: usize = 130;

/// A field of degree 130, and cosines and sines of two longitudes that are none: exact numbers, which the replaying program makes too.
fn large() -> (Coefficients, Vec<Vec<(f64, f64)>>) {
    let mut field = Coefficients::zeros(3.986004415e14, 6378136.3, LARGE);
    (field.c, field.s) = (pattern(0, field.c.len()), pattern(50, field.s.len()));
    let trig = pattern(77, 4 * (LARGE + 1));
    (field, trig.chunks(2 * (LARGE + 1)).map(|longitude| longitude.chunks(2).map(|pair| (pair[0], pair[1])).collect()).collect())
}

fn example(special: bool) -> Coefficients {
    let mut field = fixed(NMAX);
    if special {
        (field.c[1], field.s[2], field.c[3], field.s[4]) = (-0.0, f64::from_bits(1), 1e300, f64::INFINITY);
    }
    field
}

pub fn replay() -> String {
    let mut text = String::from("// The oracle's answers for the crate synthesis, numbers as bit patterns.\n");
    text += "// Written by `compare/run replay synthesis FILE` (see compare/README.md), never by hand.\n";
    let mut list = |comment: &str, name: &str, list: &[f64]| {
        text += &array(comment, name, &list.iter().map(|&x| number(x)).collect::<Vec<_>>());
    };
    let latitudes = [pair(0.3), (-1.0, 0.0), pair(-1.1)];
    let longitudes: Vec<Vec<(f64, f64)>> = (0..9).map(|j| orders(0.7 * j as f64, NMAX)).collect();
    let lons: Vec<&[(f64, f64)]> = longitudes.iter().map(Vec::as_slice).collect();
    list("the Love numbers", "LOVE", &LOVE);
    list("three latitudes, sine and cosine", "LATITUDES", &latitudes.iter().flat_map(|&(t, u)| [t, u]).collect::<Vec<_>>());
    list(
        "nine longitudes, cosine and sine of each order",
        "TRIG",
        &longitudes.iter().flatten().flat_map(|&(c, s)| [c, s]).collect::<Vec<_>>(),
    );
    for (prefix, special) in [("", false), ("SPECIAL_", true)] {
        let field = example(special);
        list("the c of a field of degree 3, gm 3.986004415e14, radius 6378136.3", &format!("{prefix}C"), &field.c);
        list("its s", &format!("{prefix}S"), &field.s);
        for (which, name) in [(1, "GEOID_HEIGHT"), (5, "WATER_HEIGHT")] {
            let values = field.grid(&functional(which, &LOVE), 6378200.0, &latitudes, &lons);
            list(&format!("functional {which} at r 6378200, row after row"), &format!("{prefix}{name}"), &values);
        }
    }
    let (field, longitudes) = large();
    let lons: Vec<&[(f64, f64)]> = longitudes.iter().map(Vec::as_slice).collect();
    let values = field.grid(&functional(1, &LOVE), 6378200.0, &latitudes, &lons);
    list("functional 1 at r 6378200 of a field of degree 130, row after row", "LARGE_GEOID_HEIGHT", &values);
    text
}
