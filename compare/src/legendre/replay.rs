//! The oracle's answers on tables of degree 4, on one of degree 130, on tables that grow, and on rules of few nodes.

use oracle::standins::tricomi;
use oracle::{Legendre, gauss_legendre};

use crate::constants::{array, number};
use crate::lent::pair;
use crate::refusal::pairs;

const NMAX: usize = 4;
const LARGE: usize = 130;
/// The places of a list that grows: three behind a table of degree 4.
const LENT: usize = 18;

fn numbers(list: &[f64]) -> Vec<String> {
    list.iter().map(|&x| number(x)).collect()
}

/// P and its derivatives at one pair, one after the other, after the pair itself.
fn at(legendre: &mut Legendre, (t, u): (f64, f64)) -> Vec<f64> {
    legendre.compute_with_derivative((t, u));
    [&[t, u], legendre.p.as_slice(), legendre.dp.as_slice()].concat()
}

/// Tables with special numbers among the own ones.
fn special() -> Legendre {
    let mut legendre = Legendre::new(NMAX);
    // At (1, 0) an infinite b meets q2 = 0.0.
    (legendre.a[4], legendre.b[1], legendre.b[7]) = (-0.0, f64::INFINITY, f64::NAN);
    (legendre.a[6], legendre.b[10], legendre.a[11]) = (f64::from_bits(1), -1e300, 1e308);
    legendre
}

/// Two lists before `grow`, then after it. Every place has a mark of its own, those of the rows up to degree `front`, where there is one, the oracle's
/// numbers of a table up to there.
fn grown(front: Option<usize>, from: usize, nmax: usize) -> Vec<f64> {
    let size = |degree| pairs(degree) as usize;
    let lists = |table: fn(Legendre) -> Vec<f64>, mark: f64| {
        let mut before: Vec<f64> = (0..LENT).map(|place| mark + place as f64).collect();
        if let Some(degree) = front {
            before[..size(degree)].copy_from_slice(&table(Legendre::new(degree)));
        }
        let mut after = before.clone();
        if from < nmax {
            after[size(from)..size(nmax)].copy_from_slice(&table(Legendre::new(nmax))[size(from)..]);
        }
        [before, after]
    };
    let ([a, grown_a], [b, grown_b]) = (lists(|legendre| legendre.a, 1000.5), lists(|legendre| legendre.b, 2000.5));
    [a, b, grown_a, grown_b].concat()
}

pub fn replay() -> String {
    let mut text = String::from("// The oracle's answers for the crate legendre, numbers as bit patterns.\n");
    text += "// Written by `compare/run replay legendre FILE` (see compare/README.md), never by hand.\n";
    let mut list = |comment: &str, name: &str, list: &[f64]| text += &array(comment, name, &numbers(list));
    let (mut own, mut special) = (Legendre::new(NMAX), special());
    list("the recursion coefficients a up to degree 4", "A", &own.a);
    list("the recursion coefficients b", "B", &own.b);
    for (front, from, nmax, name) in [
        (Some(0), 0, 4, "ZERO"),
        (Some(1), 1, 3, "ONE"),
        (Some(2), 2, 4, "TWO"),
        (Some(3), 3, 4, "THREE"),
        (None, 2, 4, "MARKS"),
        (None, 4, 4, "NONE"),
    ] {
        let rows = if front.is_some() { "tables' rows and marks" } else { "marks alone" };
        let comment = format!("{rows} before `grow` from {from} to {nmax}, a and b; then after it");
        list(&comment, &format!("GROW_{name}"), &grown(front, from, nmax));
    }
    list("a table a with special numbers", "SPECIAL_A", &special.a);
    list("a table b with special numbers", "SPECIAL_B", &special.b);
    list("a pair t, u, then P and its derivatives", "MIDDLE", &at(&mut own, pair(0.3)));
    list("the same at a pole", "POLE", &at(&mut own, (-1.0, 0.0)));
    list("at the equator", "EQUATOR", &at(&mut own, (0.0, 1.0)));
    list("at a pair that is no latitude's", "OUTSIDE", &at(&mut own, (1e300, 0.0)));
    list("with the special tables", "SPECIAL", &at(&mut special, pair(-0.7)));
    let mut tables = Legendre::new(LARGE);
    let large = at(&mut tables, pair(0.3));
    let size = (LARGE + 1) * (LARGE + 2) / 2;
    list(
        "at the first pair, of a table up to degree 130: P of degree 130, then the derivatives",
        "LARGE",
        &[&large[2 + size - LARGE - 1..2 + size], &large[2 + 2 * size - LARGE - 1..]].concat(),
    );
    list("a of degree 130, then b", "LARGE_TABLES", &[&tables.a[size - LARGE - 1..], &tables.b[size - LARGE - 1..]].concat());
    for (n, name) in [(1, "ONE"), (2, "TWO"), (3, "THREE"), (8, "EIGHT")] {
        let guesses = tricomi(n);
        let (x, w) = gauss_legendre(n, &guesses);
        list(&format!("{n} nodes: the guesses, the nodes, the weights"), &format!("GAUSS_{name}"), &[guesses, x, w].concat());
    }
    let guesses = [f64::NAN, 2.0, -0.0];
    let (x, w) = gauss_legendre(5, &guesses);
    list("five nodes from strange guesses", "GAUSS_STRANGE", &[guesses.to_vec(), x, w].concat());
    // So far from the root that a hundred corrections do not reach it.
    let (x, w) = gauss_legendre(2, &[1e30]);
    list("two nodes from a guess far off", "GAUSS_FAR", &[vec![1e30], x, w].concat());
    text
}
