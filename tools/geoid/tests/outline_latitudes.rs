//! Outlines in geodetic latitudes: the numbers of basins, and the places on maps.

mod support;

use std::fs;
use std::process::Command;

use geoid::normal::WGS84;
use geopotential::{Coefficients, model_file};
use support::{Folder, geoid};

const GEODETIC: [&str; 2] = ["--outline-ellipsoid", "wgs84"];
const NOTE: &str =
    "geoid: note: outline latitudes are taken as geocentric; --outline-ellipsoid wgs84 takes them as geodetic, as GeoJSON's are\n";

/// tan φ′ = (1 − e²) tan φ, degrees.
fn by_hand(latitude: f64) -> f64 {
    ((1.0 - WGS84.f).powi(2) * latitude.to_radians().tan()).atan().to_degrees()
}

type Vertices<'a> = &'a [(f64, f64)];

/// A GeoJSON of one ring, its latitudes changed.
fn geojson(vertices: Vertices, change: fn(f64) -> f64) -> String {
    let position = |&(longitude, latitude): &(f64, f64)| format!("[{longitude:?},{:?}]", change(latitude));
    format!("{{\"type\":\"Polygon\",\"coordinates\":[[{}]]}}", vertices.iter().map(position).collect::<Vec<_>>().join(","))
}

fn as_it_stands(latitude: f64) -> f64 {
    latitude
}

/// The corners of a rectangle.
fn rectangle([west, east, south, north]: [f64; 4]) -> [(f64, f64); 4] {
    [(west, south), (east, south), (east, north), (west, north)]
}

/// What a run prints, and its notes.
fn run(words: &[&str]) -> (String, String) {
    let done = Command::new(env!("CARGO_BIN_EXE_geoid")).args(words).output().unwrap();
    assert!(done.status.success(), "{words:?}: {}", String::from_utf8_lossy(&done.stderr));
    [done.stdout, done.stderr].map(|bytes| String::from_utf8(bytes).unwrap()).into()
}

fn kernel(text: &str, options: &[&str]) -> Coefficients {
    let folder = Folder::new();
    let [outline, out] = ["x.geojson", "x.model"].map(|name| folder.file(name));
    fs::write(&outline, text).unwrap();
    geoid(&[&["kernel", &outline, "--degree", "20", "--out", &out][..], options].concat()).unwrap();
    model_file::read(&fs::read(&out).unwrap()).unwrap()
}

#[test]
fn a_basin_at_45_degrees_moves_by_21_km() {
    // The mean of the sine of the latitude is C(1,0)/√3 over the share.
    let centre = |options: &[&str]| {
        let kernel = kernel(&geojson(&rectangle([10.0, 10.2, 44.9, 45.1]), as_it_stands), options);
        (kernel.c(1, 0) / kernel.c(0, 0) / 3f64.sqrt()).asin().to_degrees()
    };
    let [geocentric, geodetic] = [centre(&["--outline-ellipsoid", "none"]), centre(&GEODETIC)];
    assert!((geocentric - 45.0).abs() < 1e-4, "{geocentric}");
    assert!((geocentric - geodetic - 0.192423).abs() < 1e-5, "{geocentric} {geodetic}");
}

#[test]
fn every_number_is_that_of_the_outline_converted_by_hand() {
    let basin = [(8.0, 48.0), (16.0, 50.0), (28.5, 47.5), (29.7, 45.3), (23.3, -12.3), (13.5, 0.0)];
    let folder = Folder::new();
    let [field, plain, converted] = ["f.model", "a.geojson", "b.geojson"].map(|name| folder.file(name));
    geoid(&["sample", &field, "--degree", "30"]).unwrap();
    fs::write(&plain, geojson(&basin, as_it_stands)).unwrap();
    fs::write(&converted, geojson(&basin, by_hand)).unwrap();
    let average = |path: &str, options: &[&str]| {
        let told = geoid(&[&["average", &field, path, "--normal", "grs80"][..], options].concat()).unwrap();
        told.lines().next().unwrap().parse::<f64>().unwrap()
    };
    let [with, hand, without] = [average(&plain, &GEODETIC), average(&converted, &[]), average(&plain, &[])];
    assert!((with - hand).abs() < 1e-12 * hand.abs() && (without - hand).abs() > 1e-3 * hand.abs(), "{with} {hand} {without}");
    let [with, hand] = [kernel(&geojson(&basin, as_it_stands), &GEODETIC), kernel(&geojson(&basin, by_hand), &[])];
    for (n, m) in (0..=20).flat_map(|n| (0..=n).map(move |m| (n, m))) {
        assert!((with.c(n, m) - hand.c(n, m)).abs() < 1e-15 && (with.s(n, m) - hand.s(n, m)).abs() < 1e-15, "{n}, {m}");
    }
    let region = |path: &str, options: &[&str]| {
        let told = geoid(&[&["region", path, "--degree", "3"][..], options].concat()).unwrap();
        told.lines().next().unwrap().strip_prefix("share of the sphere ").unwrap().parse::<f64>().unwrap()
    };
    let [with, hand, without] = [region(&plain, &GEODETIC), region(&converted, &[]), region(&plain, &[])];
    assert!((with - hand).abs() < 1e-15 && (without - hand).abs() > 1e-5, "{with} {hand} {without}");
}

#[test]
fn a_ring_along_the_pole_stays_at_it() {
    let antarctic = [(-180.0, -70.0), (-60.0, -70.0), (60.0, -70.0), (180.0, -70.0), (180.0, -90.0), (-180.0, -90.0)];
    let share = kernel(&geojson(&antarctic, as_it_stands), &GEODETIC).c(0, 0);
    let cap = (1.0 + by_hand(-70.0).to_radians().sin()) / 2.0;
    assert!((share - cap).abs() < 1e-14, "{share} {cap}");
}

#[test]
fn what_is_taken_is_noted_once() {
    let folder = Folder::new();
    let [field, first, second, basin, map] = ["f.model", "a.geojson", "b.wkt", "c.model", "g.png"].map(|name| folder.file(name));
    geoid(&["sample", &field, "--degree", "4"]).unwrap();
    fs::write(&first, geojson(&rectangle([0.0, 40.0, 0.0, 40.0]), as_it_stands)).unwrap();
    fs::write(&second, "POLYGON ((0 0, 40 0, 40 40, 0 40))").unwrap();
    let commands: [&[&str]; 4] = [
        &["kernel", &first, "--degree", "2", "--out", &basin],
        &["region", &second, "--degree", "2"],
        &["average", &field, &first, &second, "--functional", "potential", "--normal", "none"],
        &["grid", &field, "--out", &map, "--step", "10", "--functional", "potential", "--normal", "none", "--outline", &first],
    ];
    for words in commands {
        assert_eq!(run(words).1, NOTE, "{words:?}");
        for name in ["none", "wgs84", "GRS80"] {
            assert_eq!(run(&[words, &["--outline-ellipsoid", name]].concat()).1, "", "{words:?} {name}");
        }
        let wrong = geoid(&[words, &["--outline-ellipsoid", "sphere"]].concat()).unwrap_err();
        assert_eq!(wrong, "--outline-ellipsoid is 'sphere'; expected grs80, wgs84 or none");
        assert!(geoid(&[words[0], "--help"]).unwrap().contains("  --outline-ellipsoid NAME   grs80 or wgs84: the outline's latitudes"));
    }
    let kernels = ["average", &field, &basin, "--functional", "potential", "--normal", "none"];
    assert_eq!(run(&kernels).1, "");
    let vain = "geoid: note: --outline-ellipsoid has no effect: there is no outline among the basins\n";
    assert_eq!(run(&[&kernels[..], &GEODETIC].concat()).1, vain);
    let without = geoid(&["grid", &field, "--out", &map, "--outline-ellipsoid", "wgs84"]).unwrap_err();
    assert_eq!(without, "--outline-ellipsoid needs --outline, whose latitudes it is about");
}

/// Maps from 45 to 46 degrees, with the outline of a rectangle that is wider than the map.
struct Maps {
    folder: Folder,
    surface: Vec<&'static str>,
    /// The map without an outline.
    plain: Vec<u8>,
}

impl Maps {
    fn of(surface: &[&'static str]) -> Maps {
        let mut maps = Maps { folder: Folder::new(), surface: surface.to_vec(), plain: Vec::new() };
        geoid(&["sample", &maps.folder.file("f.model"), "--degree", "4"]).unwrap();
        maps.plain = maps.file(&[]);
        maps
    }

    fn file(&self, options: &[&str]) -> Vec<u8> {
        let [field, out] = ["f.model", "g.png"].map(|name| self.folder.file(name));
        let words = ["grid", &field, "--out", &out, "--region", "10/12/45/46", "--step", "0.5"];
        geoid(&[&words[..], &self.surface, options].concat()).unwrap();
        fs::read(&out).unwrap()
    }

    /// Whether an outline from `south` to `north` leaves the map as it is: it goes round it, seen on the map's own axis.
    fn is_around(&self, [south, north]: [f64; 2], change: fn(f64) -> f64, options: &[&str]) -> bool {
        let outline = self.folder.path().join("x.geojson");
        fs::write(&outline, geojson(&rectangle([9.0, 13.0, south, north]), change)).unwrap();
        self.file(&[&["--outline", outline.to_str().unwrap()][..], options].concat()) == self.plain
    }

    /// Check that an outline's latitudes stand on the axis where they are given, to a thousandth of a degree.
    fn check_given(&self, change: fn(f64) -> f64, options: &[&str]) {
        for (sides, around) in [([44.999, 46.001], true), ([45.001, 46.001], false), ([44.999, 45.999], false)] {
            assert_eq!(self.is_around(sides, change, options), around, "{sides:?} {:?} {options:?}", self.surface);
        }
    }
}

#[test]
fn a_map_of_geodetic_rows_has_the_outline_at_geodetic_latitudes() {
    let maps = Maps::of(&["--ellipsoid", "wgs84"]);
    maps.check_given(as_it_stands, &GEODETIC);
    maps.check_given(as_it_stands, &["--outline-ellipsoid", "grs80"]);
    // Geocentric latitudes are moved to the map's geodetic ones.
    maps.check_given(by_hand, &[]);
    assert!(!maps.is_around([44.999, 46.001], as_it_stands, &[]));
}

#[test]
fn a_map_of_geocentric_rows_has_the_outline_at_geocentric_latitudes() {
    let maps = Maps::of(&[]);
    maps.check_given(as_it_stands, &[]);
    // 0.192 degrees nearer to the equator.
    assert!(!maps.is_around([44.999, 46.001], as_it_stands, &GEODETIC));
    let geodetic = |geocentric: f64| (geocentric.to_radians().tan() / (1.0 - WGS84.f).powi(2)).atan().to_degrees();
    maps.check_given(geodetic, &GEODETIC);
}
