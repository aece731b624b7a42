//! The oracle's analysis of grids of degree 3, ordinary and special values, with the factors of three functionals; and one with weights that
//! are not the same north and south, with the head of its answer.

use oracle::{Coefficients, TideSystem};

use super::gauss;
use crate::coefficients::fields::fixed;
use crate::constants::{array, number};
use crate::functional::functional;
use crate::lent::flat;

const NMAX: usize = 3;
const LOVE: [f64; 4] = [0.0, 0.021, -0.303, -0.194];
const R: f64 = 6378200.0;

pub fn replay() -> String {
    let mut text = String::from("// The oracle's answers for the crate analysis, numbers as bit patterns.\n");
    text += "// Written by `compare/run replay analysis FILE` (see compare/README.md), never by hand.\n";
    let mut list = |comment: &str, name: &str, list: &[f64]| {
        text += &array(comment, name, &list.iter().map(|&x| number(x)).collect::<Vec<_>>());
    };
    let field = fixed(NMAX);
    let mut lent = gauss(&field, 1, &LOVE, R);
    list("the Love numbers", "LOVE", &LOVE);
    list("the weights of four rows", "WEIGHTS", &lent.weights);
    list("their latitudes, sine and cosine", "LATITUDES", &flat(&lent.latitudes));
    list("cosine and sine of eight longitudes, order after order", "TRIG", &flat(&lent.trig));
    for prefix in ["", "SPECIAL_"] {
        if !prefix.is_empty() {
            (lent.values[3], lent.values[9], lent.values[20]) = (-0.0, 1e300, f64::INFINITY);
        }
        list("values, row after row", &format!("{prefix}VALUES"), &lent.values);
        for (which, name) in [(1, "GEOID_HEIGHT"), (3, "GRAVITY_ANOMALY"), (5, "WATER_HEIGHT")] {
            let (gm, radius) = (field.gm, field.radius);
            let factor = functional(which, &LOVE);
            let model = Coefficients::analysis(&factor, R, &lent.values, NMAX, gm, radius, &lent.weights, &lent.latitudes, &lent.trig);
            list(
                &format!("c, then s, as functional {which} at r 6378200, gm 3.986004415e14, radius 6378136.3"),
                &format!("{prefix}{name}"),
                &[model.c, model.s].concat(),
            );
        }
    }
    let weights = [0.125, 0.75, 0.4, 0.9];
    let ordinary = gauss(&field, 1, &LOVE, R).values;
    let factor = functional(1, &LOVE);
    let model = Coefficients::analysis(&factor, R, &ordinary, NMAX, field.gm, field.radius, &weights, &lent.latitudes, &lent.trig);
    list("other weights, not the same north and south", "OTHER_WEIGHTS", &weights);
    list("the model of the first values by these weights, as functional 1: gm, radius", "OTHER_HEAD", &[model.gm, model.radius]);
    let tide = match model.tide_system {
        TideSystem::TideFree => 0,
        TideSystem::ZeroTide => 1,
        TideSystem::MeanTide => 2,
        TideSystem::Unknown => 3,
    };
    list("its c, then s", "OTHER", &[&model.c[..], &model.s].concat());
    text += &array("the numbers of its tide and its degree", "OTHER_NUMBERS", &[tide.to_string(), model.max_degree().to_string()]);
    text
}
