//! One ring of an outline: its vertices checked, its longitudes without jumps.

use super::{Latitudes, Position};

/// The library's limit of vertices.
const MAX_VERTICES: usize = 4096;
/// Longitudes may be counted from 0 or from -180, and run over the end by a circle.
const LARGEST_LONGITUDE: f64 = 360.0;
/// A ring has an inside from so many vertices on.
const FEWEST: usize = 3;

/// A ring that closes from its last vertex to its first; edges are straight in longitude and latitude.
#[derive(Clone, Debug, PartialEq)]
pub struct Ring {
    /// Longitude and latitude, degrees. Longitudes may lie beyond 180: neighbours are at most 180 degrees apart, but along a pole.
    pub vertices: Vec<Position>,
    /// Whether it is cut out of the basin.
    pub hole: bool,
    /// Whether some longitudes are not the file's, but those and a circle.
    pub shifted: bool,
}

impl Ring {
    /// The ring of some positions, of which the last may be the first once more.
    pub fn new(mut positions: Vec<Position>, hole: bool) -> Result<Ring, String> {
        if positions.len() > 1 && positions.first() == positions.last() {
            positions.pop();
        }
        check_positions(&positions)?;
        check_count(&positions)?;
        let circles = circles(&positions)?;
        let shifted = circles.iter().any(|&count| count != 0.0);
        let vertices = positions.iter().zip(circles).map(|(&(longitude, latitude), count)| (longitude + 360.0 * count, latitude)).collect();
        Ok(Ring { vertices, hole, shifted })
    }

    /// The ring with each vertex at the latitude that is wanted; its edges are then straight in those.
    pub fn changed(mut self, latitudes: Latitudes) -> Ring {
        self.vertices.iter_mut().for_each(|(_, latitude)| *latitude = latitudes.changed(*latitude));
        self
    }

    /// The vertices as the library takes them.
    pub fn radians(&self) -> Vec<(f64, f64)> {
        self.vertices.iter().map(|(longitude, latitude)| (longitude.to_radians(), latitude.to_radians())).collect()
    }
}

fn check_positions(positions: &[Position]) -> Result<(), String> {
    for (number, &(longitude, latitude)) in (1..).zip(positions) {
        if !(longitude.is_finite() && latitude.is_finite()) {
            return Err(format!("vertex {number} is {longitude}, {latitude}; expected finite numbers"));
        }
        if latitude.abs() > 90.0 {
            return Err(format!("the latitude of vertex {number} is {latitude}; expected -90 to 90 (longitude stands first)"));
        }
        if longitude.abs() > LARGEST_LONGITUDE {
            return Err(format!(
                "the longitude of vertex {number} is {longitude}; expected degrees from -360 to 360 (in metres? ogr2ogr -t_srs EPSG:4326)"
            ));
        }
    }
    Ok(())
}

fn check_count(positions: &[Position]) -> Result<(), String> {
    if positions.len() > MAX_VERTICES {
        return Err(format!(
            "{} vertices; expected at most {MAX_VERTICES}: simplify it, as by ogr2ogr -f GeoJSON -simplify 0.01 SIMPLER.geojson FILE (degrees)",
            positions.len()
        ));
    }
    let mut distinct: Vec<Position> = Vec::new();
    for position in positions {
        if distinct.len() < FEWEST && !distinct.contains(position) {
            distinct.push(*position);
        }
    }
    match distinct.len() {
        FEWEST => Ok(()),
        count => Err(format!("distinct vertices: {count}; expected {FEWEST} at least")),
    }
}

/// How many circles are to be added to each vertex' longitude so that neighbours are at most 180 degrees apart. Only differences of longitudes matter to the
/// library. Going round must add up to nothing: else a pole lies inside.
fn circles(positions: &[Position]) -> Result<Vec<f64>, String> {
    let mut counts = vec![0.0];
    for pair in positions.windows(2) {
        counts.push(counts[counts.len() - 1] + jump(pair[0], pair[1]));
    }
    let (first, last) = (positions[0], positions[positions.len() - 1]);
    match counts[counts.len() - 1] + jump(last, first) {
        0.0 => Ok(counts),
        rest => Err(format!(
            "its longitudes add up to {} degrees: a pole lies inside, which an outline in longitude and latitude does not hold; geoid caps \
             has polar caps (or the ring may run along the pole itself, from 180,-90 to -180,-90)",
            360.0 * rest
        )),
    }
}

/// The circles that make the way from a vertex to the next at most half a circle. At a pole the longitude says nothing: an edge
/// along it, as in outlines of Antarctica, is left as it is.
fn jump(from: Position, to: Position) -> f64 {
    let way = to.0 - from.0;
    let along_pole = from.1.abs() == 90.0 && from.1 == to.1;
    if way.abs() > 180.0 && !along_pole { -(way / 360.0).round() } else { 0.0 }
}

#[cfg(test)]
mod tests {
    use super::*;

    fn refused(positions: &[Position]) -> String {
        Ring::new(positions.to_vec(), false).unwrap_err()
    }

    #[test]
    fn the_closing_vertex_is_dropped() {
        let square = [(0.0, 0.0), (10.0, 0.0), (10.0, 10.0), (0.0, 10.0)];
        let closed = [&square[..], &square[..1]].concat();
        let ring = Ring::new(closed, true).unwrap();
        assert_eq!((&ring.vertices[..], ring.hole, ring.shifted), (&square[..], true, false));
        assert_eq!(Ring::new(square.to_vec(), false).unwrap().vertices, square);
        assert_eq!(ring.radians()[2], (10f64.to_radians(), 10f64.to_radians()));
    }

    #[test]
    fn longitudes_have_no_jumps() {
        let ring = Ring::new(vec![(170.0, 0.0), (-170.0, 0.0), (-175.0, 10.0), (175.0, 10.0)], false).unwrap();
        assert_eq!(ring.vertices, [(170.0, 0.0), (190.0, 0.0), (185.0, 10.0), (175.0, 10.0)]);
        assert!(ring.shifted);
        let ring = Ring::new(vec![(-170.0, 0.0), (170.0, 0.0), (170.0, 10.0), (-170.0, 10.0)], false).unwrap();
        assert_eq!(ring.vertices, [(-170.0, 0.0), (-190.0, 0.0), (-190.0, 10.0), (-170.0, 10.0)]);
        // From 0 to 360, across Greenwich.
        let ring = Ring::new(vec![(350.0, 0.0), (10.0, 0.0), (10.0, 10.0), (350.0, 10.0)], false).unwrap();
        assert_eq!(ring.vertices, [(350.0, 0.0), (370.0, 0.0), (370.0, 10.0), (350.0, 10.0)]);
        // Half a circle is no jump, and beyond 180 nothing is changed without one.
        let half = vec![(-90.0, 0.0), (90.0, 0.0), (90.0, 10.0), (-90.0, 10.0)];
        assert_eq!(Ring::new(half.clone(), false).unwrap(), Ring { vertices: half, hole: false, shifted: false });
        let far = vec![(170.0, 0.0), (190.0, 0.0), (190.0, 10.0)];
        assert!(!Ring::new(far, false).unwrap().shifted);
    }

    #[test]
    fn poles_are_refused_but_along_them() {
        for sign in [1.0, -1.0] {
            let round = refused(&[(0.0, 60.0), (sign * 120.0, 60.0), (sign * -120.0, 65.0)]);
            let front = format!("its longitudes add up to {} degrees: a pole lies inside", sign * 360.0);
            assert!(round.starts_with(&front) && round.contains("geoid caps has polar caps"), "{round}");
        }
        let by_the_pole = vec![(-180.0, -70.0), (-60.0, -65.0), (60.0, -65.0), (180.0, -70.0), (180.0, -90.0), (-180.0, -90.0)];
        assert_eq!(Ring::new(by_the_pole.clone(), false).unwrap(), Ring { vertices: by_the_pole, hole: false, shifted: false });
    }

    #[test]
    fn wrong_vertices_are_named() {
        let with = |position| refused(&[(0.0, 0.0), (1.0, 0.0), position]);
        assert_eq!(with((f64::NAN, 1.0)), "vertex 3 is NaN, 1; expected finite numbers");
        assert_eq!(with((1.0, f64::INFINITY)), "vertex 3 is 1, inf; expected finite numbers");
        assert_eq!(with((1.0, 90.5)), "the latitude of vertex 3 is 90.5; expected -90 to 90 (longitude stands first)");
        assert_eq!(
            with((500000.0, 0.0)),
            "the longitude of vertex 3 is 500000; expected degrees from -360 to 360 (in metres? ogr2ogr -t_srs EPSG:4326)"
        );
        assert_eq!(refused(&[]), "distinct vertices: 0; expected 3 at least");
        assert_eq!(refused(&[(1.0, 1.0)]), "distinct vertices: 1; expected 3 at least");
        assert_eq!(refused(&[(1.0, 1.0), (2.0, 2.0), (1.0, 1.0), (2.0, 2.0), (1.0, 1.0)]), "distinct vertices: 2; expected 3 at least");
        let many = |count: usize| (0..count).map(|k| (k as f64 / 100.0, 10.0 * (k % 2) as f64)).collect::<Vec<_>>();
        assert!(Ring::new(many(4096), false).is_ok());
        let closed = [many(4096), many(1)].concat();
        assert!(Ring::new(closed, false).is_ok());
        let refusal = refused(&many(4097));
        assert!(
            refusal.starts_with("4097 vertices; expected at most 4096: simplify it, as by ogr2ogr -f GeoJSON -simplify 0.01"),
            "{refusal}"
        );
    }
}
