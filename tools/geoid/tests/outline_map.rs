//! Outlines on maps: pixels change on the line and nowhere else.

mod support;

use std::fs;

use geoid::colours::OUTLINE;
use geoid::grid::{GLOBE, Nodes, Region};
use geoid::map::{Map, draw, draw_with};
use geoid::outline::{Position, Ring};
use geoid::png::Image;
use support::{Folder, geoid};

/// What stands left of a map's field and above it.
const LEFT: usize = 100;
const TOP: usize = 174;

/// A map and the places of its field's pixels.
struct Drawn {
    region: Region,
    width: usize,
    height: usize,
    without: Image,
    with: Image,
}

fn drawn(region: Region, size: (usize, usize), vertices: &[Position]) -> Drawn {
    let nodes = Nodes::new(region, 1.0).unwrap();
    let value = |place: usize| (place as f64 / 50.0).sin() + (place % nodes.longitudes.len()) as f64 / 40.0;
    let values: Vec<f64> = (0..nodes.latitudes.len() * nodes.longitudes.len()).map(value).collect();
    let map = Map { nodes: &nodes, values: &values, unit: "m", title: "Test", subtitle: ["one", "two", "three"] };
    let ring = Ring::new(vertices.to_vec(), false).unwrap();
    let (without, with) = (draw(&map).unwrap(), draw_with(&map, &[ring]).unwrap());
    assert_eq!((without.width, without.height), (size.0 + 2 * LEFT, size.1 + TOP + 170));
    Drawn { region, width: size.0, height: size.1, without, with }
}

impl Drawn {
    /// The pixels that the outline has changed, each of them to its colour.
    fn changed(&self) -> Vec<(usize, usize)> {
        let places = (0..self.with.pixels.len()).filter(|&place| self.with.pixels[place] != self.without.pixels[place]);
        let places: Vec<usize> = places.collect();
        assert!(places.iter().all(|&place| self.with.pixels[place] == OUTLINE));
        places.into_iter().map(|place| (place % self.with.width, place / self.with.width)).collect()
    }

    /// Where a point lies in the picture, in pixels.
    fn place(&self, (longitude, latitude): Position) -> (f64, f64) {
        let Region { west, east, south, north } = self.region;
        let x = LEFT as f64 + (longitude - west) / (east - west) * self.width as f64;
        (x, TOP as f64 + (north - latitude) / (north - south) * self.height as f64)
    }

    /// Check that what changed lies on some edges and in the field, and that the edges are drawn wherever they lie in the field.
    fn check(&self, edges: &[[Position; 2]]) {
        let edges: Vec<[(f64, f64); 2]> = edges.iter().map(|edge| edge.map(|end| self.place(end))).collect();
        let changed = self.changed();
        for &(x, y) in &changed {
            assert!((LEFT..LEFT + self.width).contains(&x) && (TOP..TOP + self.height).contains(&y), "{x}, {y}");
            let centre = (x as f64 + 0.5, y as f64 + 0.5);
            assert!(edges.iter().any(|edge| distance(centre, *edge) < 2.5), "{x}, {y}");
        }
        for [from, to] in edges {
            for part in 0..=1000 {
                let part = f64::from(part) / 1000.0;
                let (x, y) = (from.0 + part * (to.0 - from.0), from.1 + part * (to.1 - from.1));
                let inside = |at: f64, start: usize, size: usize| at >= start as f64 && at < (start + size) as f64;
                if inside(x, LEFT, self.width) && inside(y, TOP, self.height) {
                    let near = |place: &(usize, usize)| (place.0 as f64 + 0.5 - x).abs() < 1.6 && (place.1 as f64 + 0.5 - y).abs() < 1.6;
                    assert!(changed.iter().any(near), "{x}, {y}");
                }
            }
        }
    }
}

/// From a point to an edge.
fn distance(point: (f64, f64), [from, to]: [(f64, f64); 2]) -> f64 {
    let (dx, dy) = (to.0 - from.0, to.1 - from.1);
    let part = ((point.0 - from.0) * dx + (point.1 - from.1) * dy) / (dx * dx + dy * dy);
    let part = part.clamp(0.0, 1.0);
    (point.0 - from.0 - part * dx).hypot(point.1 - from.1 - part * dy)
}

/// The edges of a ring, moved by some degrees.
fn edges(vertices: &[Position], by: f64) -> Vec<[Position; 2]> {
    let moved: Vec<Position> = vertices.iter().map(|&(longitude, latitude)| (longitude + by, latitude)).collect();
    moved.iter().zip(moved.iter().cycle().skip(1)).map(|(&from, &to)| [from, to]).collect()
}

const FIELD: Region = Region { west: -10.0, east: 10.0, south: -10.0, north: 10.0 };

#[test]
fn an_outline_is_a_line_and_nothing_else() {
    let shape = [(-7.3, -5.0), (2.0, -8.1), (8.0, 3.0), (0.5, 1.0), (-4.0, 9.2)];
    drawn(FIELD, (900, 900), &shape).check(&edges(&shape, 0.0));
}

#[test]
fn an_outline_ends_at_the_maps_edge() {
    let shape = [(-30.0, 0.0), (0.0, 5.0), (30.0, 0.0), (4.0, -40.0)];
    drawn(FIELD, (900, 900), &shape).check(&edges(&shape, 0.0));
    let around = [(-30.0, -30.0), (30.0, -30.0), (30.0, 30.0), (-30.0, 30.0)];
    assert_eq!(drawn(FIELD, (900, 900), &around).changed(), []);
    let elsewhere = [(100.0, 0.0), (110.0, 0.0), (105.0, 5.0)];
    assert_eq!(drawn(FIELD, (900, 900), &elsewhere).changed(), []);
}

#[test]
fn an_outline_across_the_date_line_stands_on_both_sides() {
    let shape = [(160.0, 50.0), (-165.0, 45.0), (-170.0, 70.0), (175.0, 60.0)];
    let whole = [(160.0, 50.0), (195.0, 45.0), (190.0, 70.0), (175.0, 60.0)];
    let both = [edges(&whole, 0.0), edges(&whole, -360.0)].concat();
    drawn(GLOBE, (1440, 720), &shape).check(&both);
    drawn(GLOBE, (1440, 720), &whole).check(&both);
    // Longitudes from 0 to 360 have it in one piece.
    let east = Region { west: 0.0, east: 360.0, ..GLOBE };
    drawn(east, (1440, 720), &shape).check(&edges(&whole, 0.0));
}

#[test]
fn only_maps_have_outlines() {
    let folder = Folder::new();
    let [model, outline, png, csv, piece] = ["m.model", "x.csv", "g.png", "g.csv", "g.rows"].map(|name| folder.file(name));
    geoid(&["sample", &model, "--degree", "4"]).unwrap();
    fs::write(&outline, "0,0\n50,0\n50,50\n").unwrap();
    let grid = |out: &str, more: &[&str]| geoid(&[&["grid", &model, "--step", "5", "--out", out][..], more].concat());
    grid(&png, &[]).unwrap();
    let plain = fs::read(&png).unwrap();
    grid(&png, &["--outline", &outline]).unwrap();
    assert_ne!(fs::read(&png).unwrap(), plain);
    let only = "--outline is drawn on a map; expected --out with a name that ends with .png";
    assert_eq!(grid(&csv, &["--outline", &outline]).unwrap_err(), only);
    assert_eq!(grid(&piece, &["--outline", &outline, "--rows", "1/2"]).unwrap_err(), only);
    assert_eq!(fs::read_dir(folder.path()).unwrap().count(), 3, "no grid is written");
    assert!(geoid(&["grid", "--help"]).unwrap().contains("--outline FILE"));
}
