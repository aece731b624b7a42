//! Regular grids: where their nodes are, and a field's values there.

use std::collections::BTreeMap;
use std::ops::Range;
use std::sync::atomic::{AtomicUsize, Ordering};
use std::sync::{Mutex, PoisonError};
use std::thread;

use geopotential::{Coefficients, Functional};

use crate::error::Error;
use crate::normal::NormalGravity;
use crate::progress::Progress;

/// The library's limit of rows and of longitudes in one call.
const CALL_LIMIT: usize = 65_535;
/// The most values of one grid: 2 GiB of doubles.
const VALUE_LIMIT: usize = 1 << 28;
/// About how many products one call works out, so that the progress line moves.
const CALL_WORK: usize = 50_000_000;
/// The most numbers in a call's table of cosines and sines (64 MiB).
const TRIG_LIMIT: usize = 1 << 23;
/// Fewer rows a call would spend more on the call's own tables than on the rows.
const FEWEST_ROWS: usize = 16;
/// How many calls a thread gets of each radius' rows, where they are many.
const PIECES_A_THREAD: usize = 4;

/// A part of the globe, degrees; the longitudes span at most a full circle.
#[derive(Clone, Copy, Debug, PartialEq)]
pub struct Region {
    pub west: f64,
    pub east: f64,
    pub south: f64,
    pub north: f64,
}

/// The whole globe, Greenwich in the middle.
pub const GLOBE: Region = Region { west: -180.0, east: 180.0, south: -90.0, north: 90.0 };

impl Region {
    /// The region of an option's value, `W/E/S/N`.
    pub fn parse(text: &str) -> Result<Region, Error> {
        let numbers: Option<Vec<f64>> = text.split('/').map(|part| part.trim().parse().ok().filter(|x: &f64| x.is_finite())).collect();
        let Some([west, east, south, north]) = numbers.as_deref() else {
            return Err(Error::usage(format!("--region is '{text}'; expected W/E/S/N in degrees, such as -10/30/35/70")));
        };
        let region = Region { west: *west, east: *east, south: *south, north: *north };
        region.check().map_err(|what| Error::usage(format!("--region {text}: {what}")))?;
        Ok(region)
    }

    fn check(&self) -> Result<(), &'static str> {
        if self.west > self.east {
            return Err("west is above east; expected W <= E (170/190 crosses the date line)");
        }
        if self.east - self.west > 360.0 {
            return Err("the longitudes span more than a circle; expected E - W <= 360");
        }
        if self.west.abs() > 360.0 {
            return Err("expected -360 <= W <= 360");
        }
        if self.south > self.north || self.south < -90.0 || self.north > 90.0 {
            return Err("expected -90 <= S <= N <= 90");
        }
        Ok(())
    }
}

/// The nodes of a regular grid, degrees: latitudes from north to south, longitudes from west to east.
#[derive(Clone, Debug)]
pub struct Nodes {
    pub region: Region,
    pub step: f64,
    pub latitudes: Vec<f64>,
    pub longitudes: Vec<f64>,
}

impl Nodes {
    /// The nodes of a region whose sides the step divides.
    pub fn new(region: Region, step: f64) -> Result<Nodes, Error> {
        let rows = intervals(region.north - region.south, step, "height")?.saturating_add(1);
        let columns = intervals(region.east - region.west, step, "width")?.saturating_add(1);
        if rows.checked_mul(columns).is_none_or(|values| values > VALUE_LIMIT) {
            return Err(Error::failure(format!("the grid would have {rows} x {columns} values; expected at most {VALUE_LIMIT}")));
        }
        let latitudes = (0..rows).map(|i| between(region.north, region.south, i, rows - 1)).collect();
        let longitudes = (0..columns).map(|j| between(region.west, region.east, j, columns - 1)).collect();
        Ok(Nodes { region, step, latitudes, longitudes })
    }

    /// The nodes of some rows alone, counted from 0 in the north.
    pub fn rows(&self, rows: Range<usize>) -> Nodes {
        Nodes { latitudes: self.latitudes[rows].to_vec(), ..self.clone() }
    }
}

/// How many steps make a side.
fn intervals(side: f64, step: f64, name: &str) -> Result<usize, Error> {
    let count = (side / step).round();
    if (count * step - side).abs() > 1e-9 * side.max(1.0) {
        return Err(Error::usage(format!("the step {step} does not divide the region's {name} {side}")));
    }
    Ok(count as usize)
}

/// The node at a place, to a trillionth of a degree, so that decimal steps give short decimals.
fn between(from: f64, to: f64, place: usize, last: usize) -> f64 {
    let node = from + (to - from) * (place as f64 / last.max(1) as f64);
    (node * 1e12).round() / 1e12
}

/// Where a grid's values are taken.
#[derive(Clone, Copy, Debug, PartialEq)]
pub enum Surface {
    /// Geocentric latitudes on the sphere of this radius, m.
    Sphere(f64),
    /// Geodetic latitudes on this ellipsoid; each row lies on the sphere through it there.
    Ellipsoid(NormalGravity),
}

impl Surface {
    /// The ellipsoid, if it is one.
    pub fn ellipsoid(&self) -> Option<NormalGravity> {
        match self {
            Surface::Sphere(_) => None,
            Surface::Ellipsoid(ellipsoid) => Some(*ellipsoid),
        }
    }

    /// Geocentric latitude (rad) and radius (m) of a row.
    pub fn row(&self, degrees: f64) -> (f64, f64) {
        match self {
            Surface::Sphere(radius) => (degrees.to_radians(), *radius),
            Surface::Ellipsoid(ellipsoid) => ellipsoid.geocentric(degrees.to_radians()),
        }
    }
}

/// How many threads the machine runs side by side.
pub fn cores() -> usize {
    thread::available_parallelism().map_or(1, |count| count.get())
}

/// One call of the library: some rows of one radius, and some longitudes from a column on.
struct Piece<'a> {
    radius: f64,
    rows: &'a [(usize, f64)],
    column: usize,
    longitudes: &'a [f64],
}

/// A field's values at the nodes, row after row from the north, by some threads. Each takes the next piece that none has taken yet; a value depends on its
/// own row and longitude alone, so its bits don't depend on the pieces.
pub fn evaluate_by(
    threads: usize,
    field: &Coefficients,
    functional: &Functional,
    nodes: &Nodes,
    surface: Surface,
) -> Result<Vec<f64>, Error> {
    let columns = nodes.longitudes.len();
    let longitudes: Vec<f64> = nodes.longitudes.iter().map(|degrees| degrees.to_radians()).collect();
    let groups = rows_by_radius(nodes, surface);
    let pieces = pieces(&groups, &longitudes, field.max_degree(), threads);
    let next = AtomicUsize::new(0);
    let values = nodes.latitudes.len() * columns;
    let out = Mutex::new((vec![0.0; values], Progress::new("grid", values)));
    let work = || -> Result<(), Error> {
        while let Some(piece) = pieces.get(next.fetch_add(1, Ordering::Relaxed)) {
            let latitudes: Vec<f64> = piece.rows.iter().map(|&(_, latitude)| latitude).collect();
            let values = field.try_grid(functional, piece.radius, &latitudes, piece.longitudes)?;
            let (out, progress) = &mut *out.lock().unwrap_or_else(PoisonError::into_inner);
            for (&(row, _), values) in piece.rows.iter().zip(values.chunks(piece.longitudes.len())) {
                out[row * columns + piece.column..][..values.len()].copy_from_slice(values);
            }
            progress.advance(values.len());
        }
        Ok(())
    };
    run_side_by_side(threads.min(pieces.len()), &work)?;
    Ok(out.into_inner().unwrap_or_else(PoisonError::into_inner).0)
}

/// Run the same work in some threads, this one among them; the first error is answered.
fn run_side_by_side(threads: usize, work: &(impl Fn() -> Result<(), Error> + Sync)) -> Result<(), Error> {
    thread::scope(|scope| {
        let others: Vec<_> = (1..threads).map(|_| scope.spawn(work)).collect();
        let mut done = work();
        for other in others {
            let answer = other.join().unwrap_or_else(|panic| std::panic::resume_unwind(panic));
            done = done.and(answer);
        }
        done
    })
}

/// The calls of a grid. There are several for each thread, so that none waits long for the last one.
fn pieces<'a>(groups: &'a [(f64, Vec<(usize, f64)>)], longitudes: &'a [f64], max_degree: usize, threads: usize) -> Vec<Piece<'a>> {
    let (largest, longitudes_a_call) = call_size(max_degree, longitudes.len());
    let mut pieces = Vec::new();
    // The longitudes change last: a thread keeps their table from one call to the next.
    for (block, longitudes) in longitudes.chunks(longitudes_a_call).enumerate() {
        for (radius, rows) in groups {
            let rows_a_call = rows.len().div_ceil(PIECES_A_THREAD * threads.max(1)).max(FEWEST_ROWS).min(largest);
            for rows in rows.chunks(rows_a_call) {
                pieces.push(Piece { radius: *radius, rows, column: block * longitudes_a_call, longitudes });
            }
        }
    }
    pieces
}

/// The rows of each radius, as (row, latitude): one call of the library has one radius. On an
/// ellipsoid the rows north and south of the equator share theirs. Positive radii rank by their bits.
fn rows_by_radius(nodes: &Nodes, surface: Surface) -> Vec<(f64, Vec<(usize, f64)>)> {
    let mut groups: BTreeMap<u64, Vec<(usize, f64)>> = BTreeMap::new();
    for (row, &degrees) in nodes.latitudes.iter().enumerate() {
        let (latitude, radius) = surface.row(degrees);
        groups.entry(radius.to_bits()).or_default().push((row, latitude));
    }
    groups.into_iter().map(|(bits, rows)| (f64::from_bits(bits), rows)).collect()
}

/// The most rows and longitudes that one call of the library gets.
fn call_size(max_degree: usize, columns: usize) -> (usize, usize) {
    let longitudes = columns.min(TRIG_LIMIT / (2 * max_degree + 2)).clamp(1, CALL_LIMIT);
    let work_a_row = (max_degree + 1) * (max_degree + 2) / 2 + longitudes * (max_degree + 1);
    ((CALL_WORK / work_a_row).clamp(FEWEST_ROWS, CALL_LIMIT), longitudes)
}

#[cfg(test)]
mod tests {
    use super::*;

    #[test]
    fn nodes_run_from_the_north_west() {
        let nodes = Nodes::new(Region { west: -1.0, east: 1.0, south: 10.0, north: 10.3 }, 0.1).unwrap();
        assert_eq!(nodes.latitudes, [10.3, 10.2, 10.1, 10.0]);
        assert_eq!(nodes.longitudes.len(), 21);
        assert_eq!((nodes.longitudes[0], nodes.longitudes[3], nodes.longitudes[20]), (-1.0, -0.7, 1.0));
    }

    #[test]
    fn a_step_must_divide_both_sides() {
        let refused = |region, step| Nodes::new(region, step).unwrap_err().to_string();
        assert_eq!(refused(GLOBE, 0.7), "the step 0.7 does not divide the region's height 180");
        assert_eq!(refused(Region { west: 0.0, east: 1.0, ..GLOBE }, 2.0), "the step 2 does not divide the region's width 1");
        assert!(refused(GLOBE, 1e-4).starts_with("the grid would have 1800001 x 3600001 values"));
        assert!(refused(GLOBE, 1e-300).contains("values"));
    }

    #[test]
    fn regions_are_checked() {
        assert_eq!(Region::parse("-10/30/35/70.5").unwrap(), Region { west: -10.0, east: 30.0, south: 35.0, north: 70.5 });
        for wrong in ["1/2/3", "1/2/3/x", "2/1/0/1", "0/361/0/1", "0/1/1/0", "0/1/0/91", "0/1/0/inf", "400/410/0/1"] {
            assert!(Region::parse(wrong).is_err(), "{wrong}");
        }
    }

    #[test]
    fn blocks_keep_to_the_limits() {
        for (max_degree, columns) in [(0, 1), (0, 1_000_000), (96, 721), (2700, 43_201)] {
            let (rows, longitudes) = call_size(max_degree, columns);
            assert!((1..=CALL_LIMIT).contains(&rows) && (1..=CALL_LIMIT).contains(&longitudes));
            assert!(longitudes * (2 * max_degree + 2) <= TRIG_LIMIT);
        }
    }

    #[test]
    fn rows_of_an_ellipsoid_come_in_pairs() {
        let nodes = Nodes::new(GLOBE, 30.0).unwrap();
        let groups = rows_by_radius(&nodes, Surface::Ellipsoid(crate::normal::GRS80));
        assert_eq!(groups.iter().map(|(_, rows)| rows.len()).collect::<Vec<_>>(), [2, 2, 2, 1]);
        assert_eq!(rows_by_radius(&nodes, Surface::Sphere(1.0)).len(), 1);
    }

    /// The bits of each node's value, taken alone.
    fn alone(field: &Coefficients, nodes: &Nodes, surface: Surface) -> Vec<u64> {
        let mut bits = Vec::new();
        for &degrees in &nodes.latitudes {
            let (latitude, radius) = surface.row(degrees);
            for longitude in &nodes.longitudes {
                let value = field.grid(&Functional::GeoidHeight, radius, &[latitude], &[longitude.to_radians()]);
                bits.push(value[0].to_bits());
            }
        }
        bits
    }

    #[test]
    fn values_do_not_depend_on_the_pieces() {
        let field = crate::sample::sample(12, 1).unwrap();
        let nodes = Nodes::new(GLOBE, 5.0).unwrap();
        for surface in [Surface::Ellipsoid(crate::normal::GRS80), Surface::Sphere(6.5e6)] {
            let expected = alone(&field, &nodes, surface);
            for threads in [1, 2, 3, 64] {
                let values = evaluate_by(threads, &field, &Functional::GeoidHeight, &nodes, surface).unwrap();
                assert!(values.iter().map(|value| value.to_bits()).eq(expected.iter().copied()), "{threads} threads");
            }
        }
    }

    #[test]
    fn pieces_are_large_enough() {
        let nodes = Nodes::new(GLOBE, 0.5).unwrap();
        let groups = rows_by_radius(&nodes, Surface::Sphere(1.0));
        let count = |threads| pieces(&groups, &nodes.longitudes, 96, threads).len();
        assert_eq!((count(1), count(2), count(1000)), (4, 8, 361usize.div_ceil(FEWEST_ROWS)));
    }

    #[test]
    fn an_error_of_one_thread_is_the_answer() {
        let count = AtomicUsize::new(0);
        let work = || if count.fetch_add(1, Ordering::Relaxed) == 2 { Err(Error::failure("third")) } else { Ok(()) };
        assert_eq!(run_side_by_side(4, &work), Err(Error::failure("third")));
    }
}
