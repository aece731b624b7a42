//! The oracle's averages of fields of degree 3 over kernels of degree 2, and its small polar caps.

use oracle::Coefficients;
use oracle::slepian::basin_average;
use oracle::standins::noted;

use super::caps::{Cap, told};
use crate::coefficients::fields::fixed;
use crate::constants::{array, number};
use crate::functional::functional;
use crate::lent::flat;

const LOVE: [f64; 4] = [0.0, 0.021, -0.303, -0.194];

/// Fields of degree 3 and kernels of degree 2, one with special numbers each.
fn example(degree: usize, special: bool) -> Coefficients {
    let mut field = fixed(degree);
    if special {
        (field.c[1], field.s[2], field.c[3]) = (-0.0, f64::from_bits(1), 1e300);
    }
    field
}

pub fn replay() -> String {
    let mut text = String::from("// The oracle's answers for the crate slepian, numbers as bit patterns.\n");
    text += "// Written by `compare/run replay slepian FILE` (see compare/README.md), never by hand.\n";
    let mut list = |comment: &str, name: &str, list: &[f64]| {
        text += &array(comment, name, &list.iter().map(|&x| number(x)).collect::<Vec<_>>());
    };
    list("the Love numbers", "LOVE", &LOVE);
    for (prefix, special) in [("", false), ("SPECIAL_", true)] {
        let (field, kernel) = (example(3, special), example(2, special));
        list("the c of a field of degree 3, gm 3.986004415e14, radius 6378136.3", &format!("{prefix}C"), &field.c);
        list("its s", &format!("{prefix}S"), &field.s);
        list("the c of a kernel of degree 2", &format!("{prefix}KERNEL_C"), &kernel.c);
        list("its s", &format!("{prefix}KERNEL_S"), &kernel.s);
        let averages: Vec<f64> = (0..6).map(|k| basin_average(&field, &kernel, &functional(k, &LOVE), 6378200.0)).collect();
        list("the averages of the six functionals at r 6378200", &format!("{prefix}AVERAGES"), &averages);
    }
    for lmax in [0, 1, 2, 6, 18] {
        let cap = Cap::of(lmax, 0.7);
        let (functions, notes) = noted(|| cap.oracle());
        list(&format!("a cap of 0.7 rad, L {lmax}: its cosine"), &format!("CAP_{lmax}_COSINE"), &[cap.cosine]);
        list("the weights", &format!("CAP_{lmax}_WEIGHTS"), &cap.weights);
        list("the latitudes, sine and cosine", &format!("CAP_{lmax}_LATITUDES"), &flat(&cap.latitudes));
        let orders: Vec<f64> = functions.iter().map(|f| f.m as f64).collect();
        let concentrations: Vec<f64> = functions.iter().map(|f| f.concentration).collect();
        // Of a large cap the vectors are left out.
        let vectors = functions.iter().filter(|_| lmax <= 6).flat_map(|f| f.coefficients.iter().copied());
        let answer: Vec<f64> = orders.into_iter().chain(concentrations).chain(vectors).collect();
        list("orders, then concentrations, then vectors up to L 6", &format!("CAP_{lmax}"), &answer);
        list("how the solver ended for each order: 1 or 0, then its count", &format!("CAP_{lmax}_SETTLED"), &told(&notes));
    }
    text
}
