//! Grids for geographic information systems: NetCDF by a reader of the tests' own, and the files beside text grids.

mod support;

use std::collections::BTreeMap;
use std::fs;

use support::{Folder, geoid};

/// An attribute's or a variable's numbers or text.
#[derive(Debug, PartialEq)]
enum Value {
    Text(String),
    Numbers(Vec<f64>),
}

type Attributes = BTreeMap<String, Value>;

struct Variable {
    shape: Vec<usize>,
    attributes: Attributes,
    values: Vec<f64>,
}

/// A NetCDF-3 file without records, read by its specification ("The NetCDF Classic Format Specification").
struct Dataset {
    dimensions: Vec<(String, usize)>,
    attributes: Attributes,
    variables: BTreeMap<String, Variable>,
}

struct Bytes<'a> {
    all: &'a [u8],
    at: usize,
}

impl Bytes<'_> {
    fn take(&mut self, count: usize) -> &[u8] {
        self.at += count;
        &self.all[self.at - count..self.at]
    }

    fn word(&mut self) -> usize {
        u32::from_be_bytes(self.take(4).try_into().unwrap()) as usize
    }

    fn text(&mut self) -> String {
        let length = self.word();
        let text = String::from_utf8(self.take(length).to_vec()).unwrap();
        self.skip_to_four();
        text
    }

    fn skip_to_four(&mut self) {
        while !self.at.is_multiple_of(4) {
            assert_eq!(self.take(1), [0]);
        }
    }

    /// The numbers of a type: 2 text, 4 integers, 6 doubles.
    fn numbers(&mut self, kind: usize, count: usize) -> Vec<f64> {
        let mut number = |_| match kind {
            4 => f64::from(i32::from_be_bytes(self.take(4).try_into().unwrap())),
            6 => f64::from_be_bytes(self.take(8).try_into().unwrap()),
            _ => panic!("type {kind}"),
        };
        (0..count).map(&mut number).collect()
    }

    fn count_behind(&mut self, tag: usize) -> usize {
        let (found, count) = (self.word(), self.word());
        assert!(found == tag || found == 0 && count == 0);
        count
    }

    fn attributes(&mut self) -> Attributes {
        let count = self.count_behind(12);
        let attribute = |bytes: &mut Self| {
            let (name, kind) = (bytes.text(), bytes.word());
            if kind == 2 {
                return (name, Value::Text(bytes.text()));
            }
            let count = bytes.word();
            (name, Value::Numbers(bytes.numbers(kind, count)))
        };
        (0..count).map(|_| attribute(self)).collect()
    }

    fn variable(&mut self, dimensions: &[(String, usize)]) -> (String, Variable) {
        let (name, rank) = (self.text(), self.word());
        let shape: Vec<usize> = (0..rank).map(|_| dimensions[self.word()].1).collect();
        let attributes = self.attributes();
        let (kind, size, place) = (self.word(), self.word(), self.word());
        let count: usize = shape.iter().product();
        assert_eq!(size, count * if kind == 6 { 8 } else { 4 });
        let values = Bytes { all: self.all, at: place }.numbers(kind, count);
        (name, Variable { shape, attributes, values })
    }
}

fn dataset(path: &str) -> Dataset {
    let file = fs::read(path).unwrap();
    let mut bytes = Bytes { all: &file, at: 0 };
    assert_eq!(bytes.take(4), b"CDF\x01");
    assert_eq!(bytes.word(), 0, "records");
    let count = bytes.count_behind(10);
    let dimensions: Vec<(String, usize)> = (0..count).map(|_| (bytes.text(), bytes.word())).collect();
    let attributes = bytes.attributes();
    let count = bytes.count_behind(11);
    let variables: BTreeMap<String, Variable> = (0..count).map(|_| bytes.variable(&dimensions)).collect();
    let numbers: usize = variables.values().map(|variable| variable.values.len()).sum();
    // All numbers but the scalar have eight bytes, and they stand just behind the head.
    assert_eq!(file.len(), bytes.at + 8 * numbers - 4);
    Dataset { dimensions, attributes, variables }
}

fn text(attributes: &Attributes, name: &str) -> String {
    match attributes.get(name) {
        Some(Value::Text(text)) => text.clone(),
        other => panic!("{name}: {other:?}"),
    }
}

fn number(attributes: &Attributes, name: &str) -> f64 {
    match attributes.get(name) {
        Some(Value::Numbers(numbers)) if numbers.len() == 1 => numbers[0],
        other => panic!("{name}: {other:?}"),
    }
}

/// Make a small model whose head has a name, and a grid of it.
fn grid(folder: &Folder, name: &str, options: &[&str]) -> String {
    let [model, out] = ["model.gfc", name].map(|name| folder.file(name));
    geoid(&["sample", &model, "--degree", "6"]).unwrap();
    let text = fs::read_to_string(&model).unwrap().replace(" model\n", " TEST-2026\n");
    fs::write(&model, text).unwrap();
    geoid(&[&["grid", &model, "--out", &out, "--region", "-10/20/30/50", "--step", "10"][..], options].concat()).unwrap();
    out
}

#[test]
fn netcdf_has_the_grids_numbers() {
    let folder = Folder::new();
    let nc = dataset(&grid(&folder, "g.nc", &[]));
    assert_eq!(nc.dimensions, [("lat".to_string(), 3), ("lon".to_string(), 4)]);
    assert_eq!(nc.variables["lat"].values, [50.0, 40.0, 30.0]);
    assert_eq!(nc.variables["lon"].values, [-10.0, 0.0, 10.0, 20.0]);
    let csv = fs::read_to_string(grid(&folder, "g.csv", &[])).unwrap();
    let listed: Vec<f64> = csv.lines().skip(1).map(|line| line.rsplit(',').next().unwrap().parse().unwrap()).collect();
    assert_eq!((&nc.variables["geoid_height"].shape, &nc.variables["geoid_height"].values), (&vec![3, 4], &listed));
}

#[test]
fn netcdf_has_the_names_of_cf() {
    let folder = Folder::new();
    let out = grid(&folder, "g.nc", &["--ellipsoid", "wgs84", "--normal", "wgs84", "--title", "Géoïde d'essai"]);
    let nc = dataset(&out);
    assert_eq!(text(&nc.attributes, "Conventions"), "CF-1.8");
    assert_eq!(text(&nc.attributes, "title"), "Géoïde d'essai");
    assert_eq!(text(&nc.attributes, "source"), "model TEST-2026, file model.gfc, to degree 6");
    assert_eq!(
        text(&nc.attributes, "comment"),
        "less the normal field WGS84, degree 0 kept; ellipsoid WGS84 (geodetic latitudes), heights by its normal gravity"
    );
    let history = text(&nc.attributes, "history");
    let words = format!("--out {out} --region -10/20/30/50 --step 10 --ellipsoid wgs84 --normal wgs84 --title 'Géoïde d'\\''essai'");
    assert!(history.starts_with("geoid 0.1.0: geoid grid ") && history.ends_with(&words), "{history}");
    let values = &nc.variables["geoid_height"].attributes;
    assert_eq!(text(values, "standard_name"), "geoid_height_above_reference_ellipsoid");
    assert_eq!(
        (text(values, "units"), text(values, "long_name"), text(values, "grid_mapping")),
        ("m".into(), "Geoid height".into(), "crs".into())
    );
    assert!(number(values, "_FillValue").is_nan());
    let (lat, lon) = (&nc.variables["lat"].attributes, &nc.variables["lon"].attributes);
    assert_eq!(
        (text(lat, "standard_name"), text(lat, "units"), text(lat, "long_name")),
        ("latitude".into(), "degrees_north".into(), "geodetic latitude".into())
    );
    assert_eq!((text(lon, "standard_name"), text(lon, "units")), ("longitude".into(), "degrees_east".into()));
    let crs = &nc.variables["crs"].attributes;
    assert_eq!(text(crs, "grid_mapping_name"), "latitude_longitude");
    assert_eq!((number(crs, "semi_major_axis"), number(crs, "inverse_flattening")), (6378137.0, 298.257223563));
    assert!(text(crs, "crs_wkt").contains("AUTHORITY[\"EPSG\",\"4326\"]"));
}

#[test]
fn names_say_no_more_than_the_values_are() {
    let folder = Folder::new();
    // On a sphere the latitudes are geocentric and the heights not those above an ellipsoid.
    let sphere = dataset(&grid(&folder, "g.nc", &["--radius", "6378136.3"]));
    assert!(!sphere.variables["geoid_height"].attributes.contains_key("standard_name"));
    assert_eq!(text(&sphere.variables["lat"].attributes, "long_name"), "geocentric latitude");
    assert_eq!(number(&sphere.variables["crs"].attributes, "earth_radius"), 6378136.3);
    // Nor are those of the field itself, less another ellipsoid's normal field, by another gravity or without degree 0.
    for options in [["--normal", "none"], ["--normal", "wgs84"], ["--gamma", "sphere"], ["--zero-degree", "drop"]] {
        let other = dataset(&grid(&folder, "g.nc", &[&["--ellipsoid", "grs80"], &options[..]].concat()));
        assert!(!other.variables["geoid_height"].attributes.contains_key("standard_name"), "{options:?}");
    }
    for (functional, variable, units) in [
        ("potential", "potential", "m2 s-2"),
        ("gravity-disturbance", "gravity_disturbance", "m s-2"),
        ("gravity-anomaly", "gravity_anomaly", "m s-2"),
        ("radial-gradient", "radial_gradient", "s-2"),
    ] {
        let nc = dataset(&grid(&folder, "g.nc", &["--functional", functional, "--ellipsoid", "grs80"]));
        assert_eq!(text(&nc.variables[variable].attributes, "units"), units);
        assert!(!nc.variables[variable].attributes.contains_key("standard_name"));
    }
}

#[test]
fn comments_name_what_was_taken_off_and_how_heights_are_made() {
    let folder = Folder::new();
    let comment = |options: &[&str]| text(&dataset(&grid(&folder, "g.nc", options)).attributes, "comment");
    for (options, expected) in [
        (&[][..], "less the normal field GRS80, degree 0 kept; sphere r = 6378137 m (geocentric latitudes), heights by GM/r²"),
        (
            &["--ellipsoid", "grs80", "--gamma", "sphere", "--zero-degree", "drop"],
            "less the normal field GRS80 and degree 0; ellipsoid GRS80 (geodetic latitudes), heights by GM/r²",
        ),
        (
            &["--ellipsoid", "grs80", "--w0", "62636853.4"],
            "less the normal field GRS80, degree 0 kept; W0 62636853.4 against U0 62636860.850 of GRS80; \
             ellipsoid GRS80 (geodetic latitudes), heights by its normal gravity",
        ),
        (
            &["--functional", "potential", "--normal", "none", "--zero-degree", "drop"],
            "the field itself without degree 0; sphere r = 6378137 m (geocentric latitudes)",
        ),
    ] {
        assert_eq!(comment(options), expected);
        let beside = fs::read_to_string(grid(&folder, "g.csv", options) + ".aux.xml").unwrap();
        assert!(beside.contains(&format!("<MDI key=\"comment\">{expected}</MDI>")), "{beside}");
    }
}

#[test]
fn text_grids_have_their_system_and_history_beside_them() {
    let folder = Folder::new();
    let asc = grid(&folder, "g.asc", &["--ellipsoid", "grs80", "--title", "a < b & c"]);
    let prj = fs::read_to_string(folder.file("g.prj")).unwrap();
    assert_eq!(
        prj,
        "GEOGCS[\"GCS_GRS_1980\",DATUM[\"D_GRS_1980\",SPHEROID[\"GRS_1980\",6378137.0,298.257222101]],\
         PRIMEM[\"Greenwich\",0.0],UNIT[\"Degree\",0.0174532925199433]]\n"
    );
    let aux = fs::read_to_string(format!("{asc}.aux.xml")).unwrap();
    for part in [
        "<MDI key=\"title\">a &lt; b &amp; c</MDI>",
        "<MDI key=\"source\">model TEST-2026, file model.gfc, to degree 6</MDI>",
        "<MDI key=\"history\">geoid 0.1.0: geoid grid ",
        "AUTHORITY[&quot;EPSG&quot;,&quot;4019&quot;]",
        "<UnitType>m</UnitType>",
    ] {
        assert!(aux.contains(part), "{part} in {aux}");
    }
    let csv = grid(&folder, "h.csv", &[]);
    assert!(fs::read_to_string(format!("{csv}.aux.xml")).unwrap().contains("SPHEROID[&quot;Sphere&quot;,6378137.0,0.0]"));
    assert!(!fs::exists(folder.file("h.prj")).unwrap());
    // The grid itself has no comment in it, which would keep programs from reading it.
    assert!(fs::read_to_string(&csv).unwrap().lines().skip(1).all(|line| line.split(',').all(|word| word.parse::<f64>().is_ok())));
    assert!(folder.path().join("g.asc").exists());
}
