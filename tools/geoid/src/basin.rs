//! The kernels of drawn basins.

use std::path::Path;

use geopotential::Coefficients;
use geopotential::slepian::try_basin_kernel;

use crate::body::ROUNDING;
use crate::drawn::{Drawn, Fineness};
use crate::error::Error;
use crate::outline::{Outline, Ring};
use crate::output::note;
use crate::text::counted;

/// How many nodes more a panel gets to see what they change.
pub const MORE: usize = 4;

/// A basin's kernel, and how it was integrated.
pub struct Basin {
    pub kernel: Coefficients,
    pub rings: usize,
    /// Those of all rings.
    pub panels: usize,
    pub nodes: usize,
    /// The fewest and the most nodes on a panel.
    pub fewest: usize,
    pub most: usize,
}

impl Basin {
    /// The basin of an outline, its share of the sphere checked.
    pub fn of(path: &Path, outline: &Outline, degree: usize, fineness: Fineness) -> Result<Basin, Error> {
        let basin = Basin::summed(path, outline, degree, fineness)?;
        let share = basin.kernel.try_c(0, 0)?;
        check_share(path, share)?;
        if share > 1.0 {
            let what = "above 1: the proved margin of an average by it is not promised";
            note(&format!("{}: the kernel's first number is {share:?}, {what}", path.display()));
        }
        Ok(basin)
    }

    /// Kernels are linear: those of the outer rings, less those of the holes.
    fn summed(path: &Path, outline: &Outline, degree: usize, fineness: Fineness) -> Result<Basin, Error> {
        let empty =
            Basin { kernel: Coefficients::try_zeros(1.0, 1.0, degree)?, rings: 0, panels: 0, nodes: 0, fewest: usize::MAX, most: 0 };
        outline.rings.iter().try_fold(empty, |basin, ring| basin.with(path, ring, fineness))
    }

    /// The basin with the inside of another ring.
    fn with(self, path: &Path, ring: &Ring, fineness: Fineness) -> Result<Basin, Error> {
        let degree = self.kernel.max_degree();
        let drawn = Drawn::inside(ring)?;
        let nodes = drawn.nodes(degree, fineness).map_err(|what| Error::in_file(path, what))?;
        let inside = try_basin_kernel(degree, &*drawn.intervals, &drawn.breaks, nodes)?;
        Ok(Basin {
            kernel: if self.rings == 0 { inside } else { sum(&self.kernel, &inside, if ring.hole { -1.0 } else { 1.0 })? },
            rings: self.rings + 1,
            panels: self.panels + drawn.panels(),
            nodes: self.nodes + nodes * drawn.panels(),
            fewest: self.fewest.min(nodes),
            most: self.most.max(nodes),
        })
    }

    /// By how much the kernel changes at most with some nodes more on each panel, in shares of the sphere's share.
    pub fn change(&self, path: &Path, outline: &Outline, fineness: Fineness) -> Result<f64, Error> {
        let finer = Basin::summed(path, outline, self.kernel.max_degree(), Fineness { more: MORE, ..fineness })?;
        let difference = sum(&finer.kernel, &self.kernel, -1.0)?;
        let mut largest: f64 = 0.0;
        for n in 0..=difference.max_degree() {
            for m in 0..=n {
                largest = largest.max(difference.try_c(n, m)?.abs()).max(difference.try_s(n, m)?.abs());
            }
        }
        Ok(largest / self.kernel.try_c(0, 0)?)
    }

    /// Panels and nodes in words.
    pub fn line(&self) -> String {
        let a_panel = if self.fewest == self.most { format!("{}", self.most) } else { format!("{} to {}", self.fewest, self.most) };
        let [rings, panels, nodes] =
            [(self.rings, "ring"), (self.panels, "panel"), (self.nodes, "node")].map(|(count, noun)| counted(count, noun));
        format!("{rings}, {panels}, {nodes} ({a_panel} a panel)")
    }
}

/// A kernel and another times a sign.
fn sum(first: &Coefficients, second: &Coefficients, sign: f64) -> Result<Coefficients, Error> {
    let mut sum = first.clone();
    for n in 0..=sum.max_degree() {
        for m in 0..=n {
            let (c, s) = (sum.try_c(n, m)? + sign * second.try_c(n, m)?, sum.try_s(n, m)? + sign * second.try_s(n, m)?);
            sum.try_set(n, m, c, s)?;
        }
    }
    Ok(sum)
}

/// Check the share of the sphere that an outline covers, which an average divides by.
pub fn check_share(path: &Path, share: f64) -> Result<(), Error> {
    let what = if share > 1.0 + ROUNDING {
        "expected 1 at most: more --nodes, or rings that don't overlap"
    } else if share > 0.0 {
        return Ok(());
    } else {
        "expected above 0: the outline has no inside, or its holes have a larger one (an edge of more than 180 degrees of \
         longitude goes the shorter way round: put vertices on it)"
    };
    Err(Error::in_file(path, format!("its share of the sphere is {share:?}; {what}")))
}
