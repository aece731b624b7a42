//! The oracle's intervals and breaks of small outlines whose answers are easily got wrong, of one that needs the long arrays, and of one of the most
//! vertices beside one of too many.

use core::f64::consts::FRAC_PI_2;

use super::Asked::{self, Breaks, Intervals};
use super::{MAX_VERTICES, answer};
use crate::constants::{array, hexadecimal, number};
use crate::lent::flat;
use crate::refusal::SIZE;

/// What stands in the output, and in the number that tells how many there are, before a call.
const MARK: f64 = 1234.5;
const MARK_COUNT: u64 = 1234;
/// The places of the output for a small outline, and for the long one.
const ROOM: usize = 8;
const LONG_ROOM: usize = 68;

/// A unit in the last place of pi/2, the smallest colatitude above 0.
const UNIT: f64 = f64::EPSILON;

/// An outline, and the colatitudes that it is cut at.
struct Drawn {
    name: &'static str,
    what: &'static str,
    vertices: Vec<(f64, f64)>,
    colatitudes: Vec<f64>,
}

/// Colatitudes by their latitudes.
fn at<const COUNT: usize>(latitudes: [f64; COUNT]) -> Vec<f64> {
    latitudes.map(|lat| FRAC_PI_2 - lat).to_vec()
}

/// Outlines of an ordinary shape, cut at vertices and between them.
fn ordinary() -> Vec<Drawn> {
    let concave = vec![(0.0, -1.0), (4.0, -1.0), (4.0, 1.0), (2.0, 0.25), (0.5, 1.0), (0.0, 0.5)];
    let star = vec![(1.0, 0.9), (2.2, -0.8), (0.1, 0.3), (2.0, 0.35), (0.3, -0.75)];
    let rectangle = vec![(0.25, 0.5), (1.25, 0.5), (1.25, -0.5), (0.25, -0.5)];
    vec![
        Drawn { name: "CONCAVE", what: "that is concave", vertices: concave, colatitudes: at([0.0, 0.75, 0.375, 0.25, 0.5, 1.0, -1.5]) },
        Drawn { name: "STAR", what: "that crosses itself", vertices: star, colatitudes: at([0.0, 0.32, 0.3, 0.35, -0.75]) },
        Drawn { name: "RECTANGLE", what: "whose vertices share colatitudes", vertices: rectangle, colatitudes: at([0.1, 0.5, -0.5]) },
    ]
}

/// Outlines with numbers that are no places, and numbers that vanish.
fn strange() -> Vec<Drawn> {
    let (nan, inf) = (f64::NAN, f64::INFINITY);
    let infinite = vec![(-inf, 1.0), (-0.2131151305925587, -0.5)];
    let lost = vec![(nan, 0.5), (1.0, -0.5), (2.0, 0.75), (-3.0, -0.25)];
    let far = vec![(inf, 0.5), (0.5, -0.5), (-inf, 0.25), (1e308, -1.0), (-1e308, 1.0), (0.25, -0.125)];
    let nowhere = vec![(0.0, nan), (1.0, -1.0), (2.0, 0.5), (3.0, -nan), (4.0, inf), (5.0, -inf), (6.0, 0.5), (7.0, nan)];
    // One of the longitudes where it is crossed vanishes from below, and the others are +0.
    let zeros = vec![(0.0, 0.5), (0.0, -0.0), (0.0, 0.5), (0.0, 0.0), (-0.0, 0.5), (-f64::from_bits(1), -0.5)];
    // The product of the differences of the first edge is -0 where it is rounded.
    let pole = vec![(0.0, FRAC_PI_2), (1.0, FRAC_PI_2 - UNIT), (2.0, 0.5)];
    vec![
        Drawn { name: "INFINITE", what: "with an infinite longitude", vertices: infinite, colatitudes: vec![0.6391941977148541] },
        Drawn { name: "LOST", what: "with a longitude that is NaN", vertices: lost, colatitudes: at([0.0, -0.375, 0.6]) },
        Drawn { name: "FAR", what: "with longitudes whose difference overflows", vertices: far, colatitudes: at([0.0, 0.375, -0.75]) },
        Drawn {
            name: "NOWHERE",
            what: "with latitudes that are NaN or infinite",
            vertices: nowhere,
            colatitudes: [at([0.0, 0.5]), vec![nan, inf, -inf]].concat(),
        },
        Drawn { name: "ZEROS", what: "crossed at zeros of either sign", vertices: zeros, colatitudes: at([0.25, -0.25, 0.0]) },
        Drawn { name: "POLE", what: "at a pole", vertices: pole, colatitudes: vec![1e-320, UNIT / 2.0, 0.0, -0.0] },
        Drawn { name: "EMPTY", what: "of no vertices", vertices: vec![], colatitudes: vec![1.0] },
    ]
}

/// An outline whose first crossing has other bits where the quotient is taken before the product.
fn quotient() -> Drawn {
    let (vertices, theta) = (vec![(0.1, 0.7), (1.3, -0.6), (2.9, 0.55)], FRAC_PI_2 - 0.2);
    let ((l0, c0), (l1, c1)) = ((vertices[0].0, FRAC_PI_2 - vertices[0].1), (vertices[1].0, FRAC_PI_2 - vertices[1].1));
    assert_ne!(l0 + (l1 - l0) * (theta - c0) / (c1 - c0), l0 + (l1 - l0) * ((theta - c0) / (c1 - c0)), "their order is not seen");
    Drawn { name: "QUOTIENT", what: "whose crossings show which comes first, product or quotient", vertices, colatitudes: vec![theta] }
}

/// One that goes up and down, of more vertices and crossings than the short arrays have room for.
fn long() -> Vec<(f64, f64)> {
    let vertex = |k: usize| {
        ((37 * k % 67) as f64 / 16.0, if k.is_multiple_of(2) { 0.25 + k as f64 / 128.0 } else { -0.25 - (k / 4) as f64 / 128.0 })
    };
    (0..66).map(vertex).collect()
}

/// What a call hands on: the refusal, 0, then how many there are, and the output with marks behind the answer.
fn row(asked: Asked, vertices: &[(f64, f64)], room: usize) -> Vec<String> {
    let (numbers, count) = answer(asked, vertices);
    let out = numbers.into_iter().chain(std::iter::repeat(MARK)).take(room).map(number);
    [hexadecimal(0), hexadecimal(count as u64)].into_iter().chain(out).collect()
}

fn list(comment: &str, name: &str, numbers: &[f64]) -> String {
    array(comment, name, &numbers.iter().map(|&x| number(x)).collect::<Vec<_>>())
}

fn constants(Drawn { name, what, vertices, colatitudes }: &Drawn) -> String {
    let intervals: Vec<String> = colatitudes.iter().flat_map(|&theta| row(Intervals(theta), vertices, ROOM)).collect();
    let outline = if vertices.is_empty() { String::new() } else { list(&format!("an outline {what}"), name, &flat(vertices)) };
    let cut = format!("colatitudes that {} is cut at", if vertices.is_empty() { "an outline of no vertices" } else { "it" });
    outline
        + &list(&cut, &format!("{name}_COLATITUDES"), colatitudes)
        + &array("its intervals at each: 0, how many, and the ends", &format!("{name}_INTERVALS"), &intervals)
        + &array("its breaks: 0, how many, and they", &format!("{name}_BREAKS"), &row(Breaks, vertices, ROOM))
}

/// As many vertices as there may be, all of them one place, and one more, which is refused.
fn most() -> String {
    let (vertices, refused) = (vec![(0.0, 0.0); MAX_VERTICES], [hexadecimal(SIZE as u64), hexadecimal(MARK_COUNT), number(MARK)]);
    array("of 4096 vertices that are one place: 0, how many intervals, and the mark", "MOST_INTERVALS", &row(Intervals(1.0), &vertices, 1))
        + &array("0, how many breaks, and the first", "MOST_BREAKS", &row(Breaks, &vertices, 1))
        + &array("of 4097: the refusal, and the marks", "BEYOND", &refused)
}

pub fn replay() -> String {
    let mut text = String::from("// The oracle's intervals and breaks of outlines, numbers as bit patterns; the mark behind them.\n");
    text += "// Written by `compare/run replay polygon FILE` (see compare/README.md), never by hand.\n";
    ordinary().iter().chain(&strange()).chain([&quotient()]).for_each(|drawn| text += &constants(drawn));
    let long = long();
    text += &list("an outline of 66 vertices", "LONG", &flat(&long));
    text += &list("a colatitude that it is cut at", "LONG_COLATITUDES", &[FRAC_PI_2]);
    text += &array("its intervals there: 0, how many, and the ends", "LONG_INTERVALS", &row(Intervals(FRAC_PI_2), &long, LONG_ROOM));
    text += &array("its breaks: 0, how many, and they", "LONG_BREAKS", &row(Breaks, &long, LONG_ROOM));
    text + &most()
}
