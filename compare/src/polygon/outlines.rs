//! Outlines: stars about a point, as river basins are drawn, and numbers that are no basin's; and colatitudes to cut them at.

use core::f64::consts::{FRAC_PI_2, TAU};

use crate::cases::Cases;

/// Vertices, longitude and latitude (radians).
pub type Outline = Vec<(f64, f64)>;

/// Numbers that are hard on differences, products and ranks.
const HARD: [f64; 18] = [
    0.0,
    -0.0,
    f64::INFINITY,
    f64::NEG_INFINITY,
    f64::NAN,
    -f64::NAN,
    f64::MAX,
    f64::MIN,
    f64::MIN_POSITIVE,
    -f64::MIN_POSITIVE,
    5e-324,
    -5e-324,
    1e-160,
    FRAC_PI_2,
    -FRAC_PI_2,
    1.0,
    0.5,
    -0.5,
];

/// So many vertices about a point, each at the distance that `radius` has for its angle; `start` turns the first one away from the point's
/// latitude, which else two of them would share.
fn about(vertices: usize, start: f64, (lon, lat): (f64, f64), mut radius: impl FnMut(f64) -> f64) -> Outline {
    let vertex = |k: usize| {
        let angle = start + TAU * k as f64 / vertices as f64;
        let r = radius(angle);
        (lon + r * angle.cos(), lat + 0.8 * r * angle.sin())
    };
    (0..vertices).map(vertex).collect()
}

/// A star whose distance changes slowly, by seven random waves: a circle of colatitude crosses few of its edges.
pub fn smooth(cases: &mut Cases, vertices: usize) -> Outline {
    let waves: Vec<(f64, f64)> = (1..=7).map(|k| (0.08 * cases.fraction() / f64::from(k), TAU * cases.fraction())).collect();
    about(vertices, 0.01, (1.1, 0.35), |angle| {
        0.3 + (1..).zip(&waves).map(|(k, (size, phase))| size * (f64::from(k) * angle + phase).sin()).sum::<f64>()
    })
}

/// A star whose distance is random at each vertex: a circle of colatitude crosses many of its edges.
pub fn jagged(cases: &mut Cases, vertices: usize) -> Outline {
    about(vertices, 0.01, (1.1, 0.35), |_| 0.1 + 0.4 * cases.fraction())
}

/// Vertices without a star, which cross their own edges: any of the sphere; of a coarse grid, many at one colatitude; within some units in the last
/// place of a pole, where colatitudes and products are the smallest; any numbers; hard ones.
fn scattered(cases: &mut Cases, kind: u64) -> (f64, f64) {
    let mut hard = || HARD[cases.below(HARD.len() as u64) as usize];
    match kind {
        0 => (TAU * cases.fraction(), 3.0 * cases.fraction() - 1.5),
        1 => (cases.below(9) as f64 / 4.0, cases.below(9) as f64 / 4.0 - 1.0),
        2 => (cases.near_one(), f64::from_bits(FRAC_PI_2.to_bits() - 2 + cases.below(5))),
        3 => (cases.number(), cases.number()),
        _ => (hard(), hard()),
    }
}

/// An outline of so many vertices, of any kind; of some kinds a vertex here and there is another's, or has a number of any shape.
pub fn any(cases: &mut Cases, vertices: usize) -> Outline {
    let kind = cases.below(9);
    let mut outline = match kind {
        0 | 1 => smooth(cases, vertices),
        2 | 3 => jagged(cases, vertices),
        _ => (0..vertices).map(|_| scattered(cases, kind - 4)).collect(),
    };
    if cases.below(2) == 0 {
        for k in 0..vertices {
            match cases.below(8) {
                0 => outline[k] = outline[cases.below(vertices as u64) as usize],
                1 => outline[k].0 = cases.number(),
                2 => outline[k] = (outline[k].0, scattered(cases, 4).1),
                _ => (),
            }
        }
    }
    outline
}

/// A colatitude: that of a vertex, one beside it, one between two vertices, any of the sphere, one close to a pole, any number.
pub fn colatitude(cases: &mut Cases, outline: &Outline) -> f64 {
    let vertex =
        |cases: &mut Cases| outline.get(cases.below(outline.len().max(1) as u64) as usize).map_or(0.5, |&(_, lat)| FRAC_PI_2 - lat);
    match cases.below(8) {
        0 => vertex(cases),
        1 => f64::from_bits(vertex(cases).to_bits().wrapping_add(cases.below(5)).wrapping_sub(2)),
        2..4 => (vertex(cases) + vertex(cases)) / 2.0,
        4 => 3.2 * cases.fraction(),
        5 => cases.subnormal(),
        6 => HARD[cases.below(HARD.len() as u64) as usize],
        _ => cases.number(),
    }
}

/// Colatitudes between the lowest and the highest vertex.
pub fn between(cases: &mut Cases, outline: &Outline, count: usize) -> Vec<f64> {
    let (low, high) = outline.iter().map(|&(_, lat)| FRAC_PI_2 - lat).fold((f64::MAX, f64::MIN), |(a, b), c| (a.min(c), b.max(c)));
    (0..count).map(|_| low + (high - low) * cases.fraction()).collect()
}
