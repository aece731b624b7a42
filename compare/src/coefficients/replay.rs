//! The oracle's answers on two fields of degree 3: one with special numbers, one with ordinary ones.

use oracle::Coefficients;

use crate::constants::{array, number};
use crate::functional::functional;

/// The number of GeoidHeight and of WaterHeight, the functionals of the degree amplitudes.
const FUNCTIONALS: [(u32, &str); 2] = [(1, "GEOID_HEIGHT"), (5, "WATER_HEIGHT")];
const LOVE: [f64; 4] = [0.0, 0.021, -0.303, -0.194];
/// What `set` stores at degree 2 and order 1.
const SET: (f64, f64) = (0.625, -0.375);
/// What stands in every place of c and of s before `zeros`.
const BEFORE: (f64, f64) = (0.5, 0.75);

/// A field, and the gm and radius that it is rescaled to.
struct Example {
    prefix: &'static str,
    comment: &'static str,
    field: Coefficients,
    new: (f64, f64),
}

fn example(prefix: &'static str, comment: &'static str, head: (f64, f64), new: (f64, f64), c: [f64; 10], s: [f64; 10]) -> Example {
    let mut field = Coefficients::zeros(head.0, head.1, 3);
    (field.c, field.s) = (c.to_vec(), s.to_vec());
    Example { prefix, comment, field, new }
}

fn examples() -> [Example; 2] {
    let (tiny, normal) = (f64::from_bits(1), f64::MIN_POSITIVE);
    let special = example(
        "",
        "special numbers",
        (8.0, 2.0),
        (3.0, -1.75),
        [-0.0, 0.3, 1e-160, -1.5e154, f64::INFINITY, normal, 0.1, -0.7, f64::NAN, f64::MAX],
        [tiny, -0.0, -1e-162, f64::from_bits(0x000f_ffff_ffff_ffff), 1.0, -tiny, 0.0, f64::NEG_INFINITY, -normal, 0.2],
    );
    let ordinary = example(
        "ORDINARY_",
        "ordinary numbers",
        (3.986004415e14, 6378136.3),
        (3.986005e14, 6378137.0),
        [1.0, 0.1, -0.3, -4.841694e-4, -1.9e-10, 2.4393836e-6, 9.5716e-7, 2.0304e-6, 9.0479e-7, 7.2132e-7],
        [0.0, 0.0, 0.7, 0.0, 1.2e-9, -1.4002737e-6, 0.0, 2.482e-7, -6.1901e-7, 1.41437e-6],
    );
    [special, ordinary]
}

fn numbers(list: &[f64]) -> Vec<String> {
    list.iter().map(|&x| number(x)).collect()
}

fn answers(example: Example) -> String {
    let Example { prefix, comment, mut field, new } = example;
    let mut text = String::new();
    let mut list = |comment: &str, name: &str, list: &[f64]| text += &array(comment, &format!("{prefix}{name}"), &numbers(list));
    list(
        &format!("a field of degree 3, {comment}: gm, radius, then the gm and radius that it is rescaled to"),
        "HEAD",
        &[field.gm, field.radius, new.0, new.1],
    );
    list("its c", "C", &field.c);
    list("its s", "S", &field.s);
    list("degree variances", "VARIANCES", &field.degree_variances());
    for (which, name) in FUNCTIONALS {
        let functional = functional(which, &LOVE);
        list(&format!("degree amplitudes of functional {which}"), &format!("AMPLITUDES_{name}"), &field.degree_amplitudes(&functional));
    }
    let rescaled = field.rescaled(new.0, new.1);
    list("c rescaled", "RESCALED_C", &rescaled.c);
    list("s rescaled", "RESCALED_S", &rescaled.s);
    let truncated = field.truncated(2);
    list("c truncated at degree 2", "TRUNCATED_C", &truncated.c);
    list("s truncated at degree 2", "TRUNCATED_S", &truncated.s);
    let again = truncated.truncated(1);
    list("c of that, truncated at degree 1", "TRUNCATED_AGAIN_C", &again.c);
    list("s of that", "TRUNCATED_AGAIN_S", &again.s);
    field.set(2, 1, SET.0, SET.1);
    list("c with one entry set", "SET_C", &field.c);
    list("s with one entry set", "SET_S", &field.s);
    text
}

pub fn replay() -> String {
    let mut text = String::from("// The oracle's answers for the crate coefficients, numbers as bit patterns.\n");
    text += "// Written by `compare/run replay coefficients FILE` (see compare/README.md), never by hand.\n";
    text += &array("the Love numbers of both fields", "LOVE", &numbers(&LOVE));
    text += &array("what is set at degree 2 and order 1: c, s", "SET", &numbers(&[SET.0, SET.1]));
    let zeros = Coefficients::zeros(8.0, 2.0, 3);
    let lent = |list: &[f64], before| numbers(&[list, &[before]].concat());
    text += &array("c of zeros up to degree 3, and one of the list behind it", "ZEROS_C", &lent(&zeros.c, BEFORE.0));
    text += &array("s of zeros, and one of the list behind it", "ZEROS_S", &lent(&zeros.s, BEFORE.1));
    examples().into_iter().for_each(|example| text += &answers(example));
    text
}
