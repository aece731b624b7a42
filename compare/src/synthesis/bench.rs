//! Times of the crate `synthesis`. Both grids build the recursion coefficients in every call; the line `no tables` is a row alone, the difference
//! between grids of many rows and of one.

use core::f64::consts::TAU;

use oracle::Coefficients;

use super::work_size;
use crate::cases::Cases;
use crate::entries::*;
use crate::functional::{EARTH, functional};
use crate::lent::{orders, pair};
use crate::sizes::table;
use crate::timing::{allocated, race, race_more};

pub fn bench() {
    let mut monthly = Grid::new(96, 181, 361);
    race_rows("grid 181 x 361, N = 96", &mut monthly, 181);
    let mut highest = Grid::new(2700, 9, 361);
    race_rows("grid 1 x 361, N = 2700", &mut highest, 1);
    let rows = highest.latitudes.len();
    race_more("grid, a row of 361, N = 2700, no tables", &mut highest, rows, Grid::ours, Grid::rust);
}

fn race_rows(name: &str, grid: &mut Grid, rows: usize) {
    let mut other = grid.clone();
    race(name, 1, || grid.ours(rows), || other.rust(rows));
}

/// A field, and the places of a grid, as ours takes them and as the oracle does.
#[derive(Clone)]
struct Grid {
    field: Coefficients,
    latitudes: Vec<(f64, f64)>,
    longitudes: Vec<Vec<(f64, f64)>>,
    pairs: Vec<f64>,
    trig: Vec<f64>,
    work: Vec<f64>,
    out: Vec<f64>,
}

impl Grid {
    fn new(nmax: usize, rows: usize, columns: usize) -> Grid {
        let mut cases = Cases::new(1, 1);
        let (gm, radius, _) = EARTH;
        let mut field = Coefficients::zeros(gm, radius, nmax);
        field.c.iter_mut().chain(&mut field.s).for_each(|cell| *cell = 1e-6 * (cases.fraction() - 0.5));
        let latitudes: Vec<(f64, f64)> = (0..rows).map(|i| pair(1.5 - 3.0 * i as f64 / rows as f64)).collect();
        let longitudes: Vec<Vec<(f64, f64)>> = (0..columns).map(|j| orders(TAU * j as f64 / columns as f64, nmax)).collect();
        let pairs = latitudes.iter().flat_map(|&(t, u)| [t, u]).collect();
        let trig = longitudes.iter().flatten().flat_map(|&(c, s)| [c, s]).collect();
        Grid { field, latitudes, longitudes, pairs, trig, work: vec![0.0; work_size(nmax) as usize], out: vec![0.0; rows * columns] }
    }

    /// The first rows by the proved library: its refusal, which is none.
    fn ours(&mut self, rows: usize) -> u32 {
        let (field, nmax) = (&self.field, self.field.max_degree());
        unsafe {
            geopotential_grid(
                field.gm,
                field.radius,
                nmax,
                field.c.as_ptr(),
                table(nmax),
                field.s.as_ptr(),
                table(nmax),
                1,
                core::ptr::NonNull::dangling().as_ptr(),
                0,
                field.radius,
                rows,
                self.pairs.as_ptr(),
                2 * rows,
                self.longitudes.len(),
                self.trig.as_ptr(),
                self.trig.len(),
                self.work.as_mut_ptr(),
                self.work.len(),
                self.out.as_mut_ptr(),
                self.out.len(),
            )
        }
    }

    /// The first rows by the oracle.
    fn rust(&mut self, rows: usize) -> u32 {
        let longitudes: Vec<&[(f64, f64)]> = self.longitudes.iter().map(Vec::as_slice).collect();
        allocated(self.field.grid(&functional(1, &[]), self.field.radius, &self.latitudes[..rows], &longitudes))
    }
}
