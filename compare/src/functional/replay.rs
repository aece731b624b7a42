//! The fixed list of the oracle's factors, edges first. A NaN is the canonical one.

use super::{EARTH, NAMES, functional};
use crate::constants::{array, number};

/// One row: n, gm, radius, r and the Love number of degree n.
type Row = (usize, f64, f64, f64, f64);

fn rows() -> Vec<Row> {
    let (inf, nan, tiny) = (f64::INFINITY, f64::NAN, f64::from_bits(1));
    let (gm, radius, r) = EARTH;
    // Document 01's marked values: Potential at n 3; GravityAnomaly at n 0, 1, 2; RadialGradient at n 0.
    let mut list = vec![(3, 8.0, 1.0, 2.0, 0.0), (0, 8.0, 2.0, 2.0, 0.0), (1, 8.0, 2.0, 2.0, 0.0), (2, 8.0, 2.0, 2.0, 0.0)];
    list.extend(
        [(0, 0.0), (1, 0.021), (2, -0.303), (3, -0.194), (10, -0.069), (96, -0.013), (2700, -0.001)].map(|(n, k)| (n, gm, radius, r, k)),
    );
    list.extend([
        (2700, gm, r, radius, -0.001),
        (2700, gm, radius, radius, -1.0),
        (1, inf, 1.0, 1.0, 1.0),
        (1, 1.0, inf, 1.0, 1.0),
        (2, 1.0, 1.0, inf, inf),
        (3, -1.0, inf, -inf, -inf),
        (0, 1.0, nan, 1.0, 0.5),
        (2, nan, 1.0, 1.0, nan),
        (10, 1.0, 1.0, nan, 0.5),
        (0, 1.0, 1.0, 0.0, -1.0),
        (1, 1.0, 0.0, -0.0, -1.0),
        (3, -0.0, -0.0, 2.0, 0.0),
        (2, -3.0, 0.1, -0.3, -2.0),
        (3, -3.0, 0.1, -0.3, -2.0),
        (1, tiny, tiny, 3.0, tiny),
        (2, 1.0, tiny, tiny, -tiny),
        (10, f64::MAX, 1e30, 0.1, f64::MAX),
        (0, f64::MAX, f64::MAX, f64::MAX, 1.0),
        (1, 1e-310, 1e-155, 1e-160, 1e308),
        (96, 0.1, 1.1, 1.0, 0.7),
    ]);
    list
}

pub fn replay() -> String {
    let mut text = String::from("// The oracle's answers for the crate functional, numbers as bit patterns.\n");
    text += "// Written by `compare/run replay functional FILE` (see compare/README.md), never by hand.\n";
    let inputs: Vec<String> =
        rows().iter().flat_map(|&(n, gm, radius, r, k)| [n.to_string(), number(gm), number(radius), number(r), number(k)]).collect();
    text += &array("rows of five: n (a whole number), gm, radius, r, the Love number of degree n", "INPUTS", &inputs);
    for (i, name) in NAMES.iter().enumerate() {
        let factor = |&(n, gm, radius, r, k): &Row| number(functional(i as u32, &vec![k; n + 1]).factor(n, gm, radius, r));
        let constant: String = name
            .char_indices()
            .flat_map(|(at, c)| (at > 0 && c.is_uppercase()).then_some('_').into_iter().chain(c.to_uppercase()))
            .collect();
        text += &array(&format!("the factors of {name}"), &constant, &rows().iter().map(factor).collect::<Vec<_>>());
    }
    text
}
