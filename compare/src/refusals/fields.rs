//! The calls on grids, basins, analyses, matrices and caps.

use super::{Call, Input, Love, Output, Work, heads, title};
use crate::refusal::pairs;

/// The columns of a case.
const WIDTH: usize = 12;

pub(super) const GRID: Call = Call {
    name: "grid",
    limits: &[2700, 65_535, 65_535],
    small: &[&[0, 0, 0], &[0, 0, 1], &[0, 1, 0], &[0, 1, 1], &[1, 1, 2]],
    functionals: &[0, 4],
    lists: |n| {
        let (size, order) = (pairs(n[0]), n[0] as u128 + 1);
        let (rows, longitudes) = (n[1] as u128, n[2] as u128);
        let room = 3 * size.min(1 << 100) + 3 * order;
        vec![
            (Input, size),
            (Input, size),
            (Love, order),
            (Input, 2 * rows),
            (Input, (2 * order).min(1 << 60) * longitudes),
            (Work, room),
            (Output, rows * longitudes.min(1 << 60)),
        ]
    },
};

const BASIN_AVERAGE: Call = Call {
    name: "basin_average",
    limits: &[2700, 2700],
    small: &[&[0, 0], &[0, 1], &[1, 0], &[1, 1]],
    functionals: &[0, 4],
    lists: |n| {
        let (field, kernel) = (pairs(n[0]), pairs(n[1]));
        vec![(Input, field), (Input, field), (Input, kernel), (Input, kernel), (Love, n[0].min(n[1]) as u128 + 1)]
    },
};

pub(super) const ANALYSIS: Call = Call {
    name: "analysis",
    limits: &[2700],
    small: &[&[0], &[1]],
    functionals: &[1, 2],
    lists: |n| {
        let (size, rows) = (pairs(n[0]), n[0] as u128 + 1);
        let points = 2 * rows * rows.min(1 << 60);
        vec![
            (Love, rows),
            (Input, points),
            (Input, rows),
            (Input, 2 * rows),
            (Input, 2 * points),
            (Work, 3 * size.min(1 << 100)),
            (Output, size),
            (Output, size),
        ]
    },
};

const fn eigen(name: &'static str) -> Call {
    Call {
        name,
        limits: &[512],
        small: &[&[0], &[1], &[2]],
        functionals: &[],
        lists: |n| {
            let (rows, cells) = (n[0] as u128, n[0] as u128 * (n[0] as u128).min(1 << 60));
            vec![(Input, cells), (Work, cells + 4 * rows), (Output, rows), (Output, cells)]
        },
    }
}

const POLAR_CAP: Call = Call {
    name: "polar_cap",
    limits: &[180],
    small: &[&[0], &[1]],
    functionals: &[],
    lists: |n| {
        // A degree that is refused needs no lengths of its own.
        let degree = n[0].min(1 << 20);
        let (functions, k) = (pairs(degree), degree as u128 + 1);
        let vectors = k * (k + 1) * (2 * k + 1) / 6;
        let work = 3 * functions + 4 * k * k + 5 * k + 2 * functions + vectors;
        vec![(Input, k), (Input, 2 * k), (Work, work), (Output, functions), (Output, functions), (Output, vectors), (Output, 2 * k)]
    },
};

pub fn replay() -> String {
    let mut text = title("Calls on fields, matrices and caps", "refusals_fields");
    let calls = [GRID, BASIN_AVERAGE, ANALYSIS, eigen("symmetric_eigen"), eigen("householder_ql"), POLAR_CAP];
    calls.iter().for_each(|call| text += &call.constants(WIDTH));
    let (gm, radius) = (3.5f64.to_bits(), 7.25f64.to_bits());
    text + &heads("heads of analysed models: gm, radius, tide, N and date", &[[gm, radius, 3, 0, 0], [gm, radius, 3, 1, 0]])
}
