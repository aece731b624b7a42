//! The oracle's tables on both sides of the equator, with its own recursion coefficients and with lent ones: what `mirror` and `mirror_derivative` make of
//! the tables at (t, u), beside the tables at (-t, u).

use oracle::Legendre;

use super::mirrors::Mirror;
use crate::constants::{array, number};
use crate::lent::pair;
use crate::refusals;
use crate::sizes::table;

/// Recursion coefficients, their degree, and a pair.
struct Example {
    name: &'static str,
    comment: &'static str,
    nmax: usize,
    legendre: Legendre,
    latitude: (f64, f64),
}

fn own(name: &'static str, comment: &'static str, nmax: usize, latitude: (f64, f64)) -> Example {
    Example { name, comment, nmax, legendre: Legendre::new(nmax), latitude }
}

/// The same with some of the coefficients replaced: a's, then b's, each by its place.
fn lent(example: Example, a: &[(usize, f64)], b: &[(usize, f64)]) -> Example {
    let mut legendre = example.legendre;
    a.iter().for_each(|&(place, x)| legendre.a[place] = x);
    b.iter().for_each(|&(place, x)| legendre.b[place] = x);
    Example { legendre, ..example }
}

fn examples() -> Vec<Example> {
    let (tiny, infinity, nan) = (f64::from_bits(1), f64::INFINITY, f64::NAN);
    vec![
        own("ZERO", "degree 0", 0, pair(0.3)),
        own("ONE", "degree 1", 1, pair(0.3)),
        lent(
            own("ONE_ZEROS", "degree 1, a(1, 0) = 0 and b(1, 0) = -1: P(1, 0) is +0 on both sides", 1, (1.0, 1.0)),
            &[(1, 0.0)],
            &[(1, -1.0)],
        ),
        own("TWO", "degree 2", 2, pair(-0.7)),
        own("TWO_POLE", "degree 2, at a pole", 2, (1.0, 0.0)),
        own("THREE", "degree 3", 3, pair(0.7)),
        own("THREE_EQUATOR", "degree 3, at the equator", 3, (-0.0, 1.0)),
        own("THREE_OUTSIDE", "degree 3, at a pair that is no latitude's", 3, (1.5, -0.5)),
        own("THREE_NAN", "degree 3, at a sine that is NaN", 3, (nan, 0.5)),
        own("FIVE", "degree 5", 5, pair(1.2)),
        own("FIVE_INFINITE", "degree 5, at an infinite sine", 5, (infinity, 0.5)),
        lent(
            own("FIVE_LENT", "degree 5, with an infinite and a NaN coefficient, zeros of either sign, tiny and large ones", 5, pair(0.3)),
            &[(3, -0.0), (6, infinity), (11, tiny), (16, 1e308)],
            &[(4, 0.0), (7, nan), (10, -1e300), (17, -infinity)],
        ),
    ]
}

/// P and its derivatives at a pair.
fn at(legendre: &mut Legendre, latitude: (f64, f64)) -> [Vec<f64>; 2] {
    legendre.compute_with_derivative(latitude);
    [legendre.p.clone(), legendre.dp.clone()]
}

/// Numbers with every zero made +0.0, so that those with the same bits, NaN as NaN, are the equal ones.
fn unsigned_zeros(list: &[f64]) -> Vec<f64> {
    list.iter().map(|x| x + 0.0).collect()
}

/// t, u, a and b; P and its derivatives at (t, u), then mirrored; those at (-t, u), with every zero +0.0.
fn row(example: &mut Example) -> Vec<f64> {
    let ((t, u), nmax) = (example.latitude, example.nmax);
    let [p, dp] = at(&mut example.legendre, (t, u));
    let [south, derivatives_south] = at(&mut example.legendre, (-t, u)).map(|list| unsigned_zeros(&list));
    let (mirrored, derivatives_mirrored) = (Mirror::Values.read(nmax, &p), Mirror::Derivatives.read(nmax, &dp));
    let Legendre { a, b, .. } = &example.legendre;
    [&[t, u], &a[..], b, &p, &dp, &mirrored, &derivatives_mirrored, &south, &derivatives_south].concat()
}

/// The second derivatives of degree 3 at a pair, mirrored as values are, and those at the other pair, with every zero +0.0.
fn second_derivatives((t, u): (f64, f64)) -> Vec<f64> {
    let mut legendre = Legendre::new(3);
    legendre.compute_with_second_derivative((t, u));
    let table = legendre.ddp.clone();
    legendre.compute_with_second_derivative((-t, u));
    [&table[..], &Mirror::Values.read(3, &table), &unsigned_zeros(&legendre.ddp)].concat()
}

/// Numbers of a table of degree 4 that no latitude has.
fn strange() -> Vec<f64> {
    let numbers = [0.0, 1.5, f64::INFINITY, f64::NAN, f64::from_bits(1), f64::MAX, 1e-280, f64::MIN_POSITIVE];
    (0..table(4)).map(|place| if place % 3 == 1 { -numbers[place % 8] } else { numbers[place % 8] }).collect()
}

pub fn replay() -> String {
    let mut text = String::from("// The oracle's tables at t and at -t, numbers as bit patterns.\n");
    text += "// Written by `compare/run replay mirror FILE` (see compare/README.md), never by hand.\n";
    text += "// A row has t, u, the recursion coefficients a and b; P and its derivatives at (t, u), the same mirrored, and those at (-t, u), where every\n";
    text += "// zero is made +0.0: a mirrored number plus 0.0 has their bits.\n";
    let mut list = |comment: &str, name: &str, list: &[f64]| {
        text += &array(comment, name, &list.iter().map(|&x| number(x)).collect::<Vec<_>>());
    };
    for mut example in examples() {
        list(example.comment, example.name, &row(&mut example));
    }
    list("second derivatives of degree 3: at a pair, mirrored, at -t", "SECOND", &second_derivatives(pair(0.7)));
    let table = strange();
    let [values, derivatives] = [Mirror::Values, Mirror::Derivatives].map(|mirror| mirror.read(4, &table));
    list("any numbers, degree 4: before, after `mirror`, after `mirror_derivative`", "ANY", &[table, values, derivatives].concat());
    text + &refusals::mirror::text()
}
