//! The oracle's matrices and functions of small regions: of three nodes, one of them skipped, with ordinary numbers (degrees 0, 1 and 2)
//! and with strange ones (degree 1, three regions), and of one and two nodes at degree 5, whose
//! matrices the iteration solves.

use oracle::slepian::{concentration_matrix, region};
use oracle::standins::{Node, noted};

use super::regions::Region;
use crate::constants::{array, bytes, hexadecimal, number};
use crate::lent::pair;

/// Numbers without a pattern.
fn odd(k: usize) -> f64 {
    (1.7 * k as f64 + 0.3).sin() / 3.0
}

fn node(lmax: usize, at: usize, mark: u8) -> Node {
    let of = |shift: usize| (0..=2 * lmax).map(|f| odd(100 * at + shift + f)).collect();
    Node { weight: odd(7 * at + 1) + 0.5, lat: pair(0.7 - 0.9 * at as f64), mark, s: of(3), c: of(50) }
}

/// A node whose numbers must not be read.
fn skipped(lmax: usize) -> Node {
    let strange = vec![f64::NAN; 2 * lmax + 1];
    Node { weight: f64::NAN, lat: (f64::INFINITY, f64::NAN), mark: 0, s: strange.clone(), c: strange }
}

pub fn ordinary(lmax: usize) -> Region {
    Region { lmax, nodes: vec![node(lmax, 0, 1), skipped(lmax), node(lmax, 2, 255)] }
}

/// Sums that overflow before they are halved, products that do or vanish, and zeros of either sign.
pub fn strange() -> Region {
    let mut nodes = ordinary(1).nodes;
    (nodes[0].weight, nodes[2].weight) = (1e-300, -0.0);
    (nodes[0].s, nodes[0].c) = (vec![1.5e308, 1e308, -1.2e308], vec![-0.0, 0.0, -0.0]);
    (nodes[2].s, nodes[2].c) = (vec![f64::from_bits(3), f64::from_bits(1), -f64::from_bits(5)], vec![0.0, 1e-320, -1e-310]);
    Region { lmax: 1, nodes }
}

/// Products that overflow unless the sum is halved before them, and quotients of subnormal numbers.
pub fn large() -> Region {
    let mut of = strange();
    (of.nodes[0].weight, of.nodes[2].weight) = (1.5, 0.75);
    of.nodes[0].s = vec![0.8e308, 1e308, 1.2e308];
    of
}

/// An integral that is none: some concentrations are NaN, which rank first, and some are numbers.
fn none() -> Region {
    let node = Node { weight: 0.7, lat: pair(0.4), mark: 1, s: vec![1.0, 0.0, f64::NAN], c: vec![0.0; 3] };
    Region { lmax: 1, nodes: vec![node] }
}

/// One node of a subnormal weight: the iteration does not settle.
fn faint() -> Region {
    Region { lmax: 5, nodes: vec![Node { weight: 1e-310, lat: (0.5, 0.875), mark: 1, s: vec![0.5; 11], c: vec![0.5; 11] }] }
}

fn list(comment: &str, name: &str, numbers: &[f64]) -> String {
    array(comment, name, &numbers.iter().map(|&x| number(x)).collect::<Vec<_>>())
}

/// The lists of a region, and what is due of it: the first so many numbers of the matrix, and of the numbers of the functions.
fn constants(name: &str, of: &Region, cells: usize, numbers: usize) -> String {
    let (functions, notes) = noted(|| region(of.lmax, &of.nodes));
    let ended: Vec<String> = notes.iter().flat_map(|&(settled, count)| [settled as u64, count as u64]).map(hexadecimal).collect();
    let (matrix, c, s): (Vec<f64>, Vec<f64>, Vec<f64>) = (
        concentration_matrix(of.lmax, &of.nodes),
        functions.iter().flat_map(|f| f.coefficients.c.iter().copied()).collect(),
        functions.iter().flat_map(|f| f.coefficients.s.iter().copied()).collect(),
    );
    let concentrations: Vec<f64> = functions.iter().map(|f| f.concentration).collect();
    list(&format!("a region of degree {}: its weights", of.lmax), &format!("{name}WEIGHTS"), &of.weights())
        + &list("the latitudes, sine and cosine", &format!("{name}LATITUDES"), &of.latitudes())
        + &bytes("the marks", &format!("{name}MARKS"), &of.marks())
        + &list("the integrals s", &format!("{name}S"), &of.s())
        + &list("the integrals c", &format!("{name}C"), &of.c())
        + &list("the front of the matrix", &format!("{name}MATRIX"), &matrix[..cells])
        + &list("the concentrations", &format!("{name}CONCENTRATIONS"), &concentrations)
        + &list("the front of the functions' c", &format!("{name}COSINES"), &c[..numbers])
        + &list("the front of their s", &format!("{name}SINES"), &s[..numbers])
        + &array("how the solver ended: 1 or 0, and its count", &format!("{name}ENDED"), &ended)
}

pub fn replay() -> String {
    let mut text = String::from("// The oracle's answers for regions, numbers as bit patterns.\n");
    text += "// Written by `compare/run replay regions FILE` (see compare/README.md), never by hand.\n";
    for (lmax, cells, numbers) in [(0, 1, 1), (1, 16, 12), (2, 81, 54)] {
        text += &constants(&format!("OF_{lmax}_"), &ordinary(lmax), cells, numbers);
    }
    text += &constants("STRANGE_", &strange(), 16, 12);
    text += &constants("LARGE_", &large(), 16, 12);
    text += &constants("NONE_", &none(), 16, 12);
    text += &constants("FAINT_", &faint(), 36, 21);
    text + &constants("OF_5_", &Region { lmax: 5, nodes: vec![node(5, 0, 2), node(5, 1, 128)] }, 72, 42)
}
