//! The oracle's kernels of small regions: of three nodes, one of them skipped, with ordinary numbers (degrees 0, 1, 2, 3, 7, 12 and 22) and with strange
//! ones, and of nodes that are all skipped.

use oracle::slepian::basin_kernel;
use oracle::standins::Node;

use crate::constants::{array, bytes, number};
use crate::lent::pair;
use crate::slepian::region_replay::{large, ordinary, strange};
use crate::slepian::regions::Region;

/// What stands in a table before a call.
const MARK: f64 = 1234.5;

/// Numbers that are none in a weight, a latitude and integrals, and an integral c at 0, which is not read.
fn none() -> Region {
    let node = |weight: f64, lat: (f64, f64), s: [f64; 5], c: [f64; 5]| Node { weight, lat, mark: 1, s: s.to_vec(), c: c.to_vec() };
    let (nan, inf) = (f64::NAN, f64::INFINITY);
    let first = node(0.75, pair(0.4), [1.0, nan, 0.5, 0.25, 0.125], [nan, 0.5, inf, 0.25, 0.125]);
    let second = node(-0.5, (0.5, 0.0), [0.25, -0.0, -0.5, 1.0, 2.0], [inf, -0.25, 0.75, 1.0, 2.0]);
    Region { lmax: 2, nodes: vec![first, second] }
}

/// One node at the equator with a weight of −0 and others that vanish: signs of zeros. Sums start at +0.
fn zeros() -> Region {
    let node =
        |weight: f64| Node { weight, lat: (0.0, 1.0), mark: 7, s: vec![-0.0, 0.5, -0.5, 1.0, 1.0], c: vec![0.5, -0.0, 0.25, 1.0, 1.0] };
    Region { lmax: 2, nodes: vec![node(-0.0), node(f64::from_bits(1))] }
}

/// Nodes of degree 2 that are all skipped.
fn skipped() -> Region {
    let mut of = ordinary(2);
    of.nodes.iter_mut().for_each(|node| node.mark = 0);
    of
}

fn list(comment: &str, name: &str, numbers: &[f64]) -> String {
    array(comment, name, &numbers.iter().map(|&x| number(x)).collect::<Vec<_>>())
}

/// The lists of a region, and the tables of its kernel, with a mark behind each.
fn constants(name: &str, of: &Region) -> String {
    let kernel = basin_kernel(of.lmax, &of.nodes);
    list(&format!("a region for a kernel of degree {}: its weights", of.lmax), &format!("{name}_WEIGHTS"), &of.weights())
        + &list("the latitudes, sine and cosine", &format!("{name}_LATITUDES"), &of.latitudes())
        + &bytes("the marks", &format!("{name}_MARKS"), &of.marks())
        + &list("the integrals s", &format!("{name}_S"), &of.s())
        + &list("the integrals c", &format!("{name}_C"), &of.c())
        + &list("the kernel's kc, and the mark behind it", &format!("{name}_KC"), &[&kernel.c[..], &[MARK]].concat())
        + &list("its ks", &format!("{name}_KS"), &[&kernel.s[..], &[MARK]].concat())
}

pub fn replay() -> String {
    let mut text = String::from("// The oracle's kernels, numbers as bit patterns.\n");
    text += "// Written by `compare/run replay basin_kernel FILE` (see compare/README.md), never by hand.\n";
    [0, 1, 2, 3, 7, 12, 22].iter().for_each(|&lmax| text += &constants(&format!("OF_{lmax}"), &ordinary(lmax)));
    [("STRANGE", strange()), ("LARGE", large()), ("NONE", none()), ("ZEROS", zeros()), ("SKIPPED", skipped())]
        .iter()
        .for_each(|(name, of)| text += &constants(name, of));
    text
}
