//! Outlines from their files: what is read, and each refusal's words.

mod support;

use std::fs;
use std::process::Command;

use support::{Folder, geoid};

/// The bytes of the kernel that `geoid kernel` writes of an outline's text, or its error's line without the file's name.
fn kernel(name: &str, text: &[u8]) -> Result<Vec<u8>, String> {
    let folder = Folder::new();
    let [outline, out] = [name, "out.model"].map(|name| folder.file(name));
    fs::write(folder.path().join(name), text).unwrap();
    match geoid(&["kernel", &outline, "--degree", "3", "--out", &out]) {
        Ok(_) => Ok(fs::read(&out).unwrap()),
        Err(error) => Err(error.strip_prefix(&format!("{outline}: ")).unwrap_or(&error).to_string()),
    }
}

fn refused(name: &str, text: &str) -> String {
    kernel(name, text.as_bytes()).unwrap_err()
}

const RING: &str = "[[10,40],[30,40],[30.5,55],[10,50],[10,40]]";

#[test]
fn every_format_gives_the_same_kernel() {
    let polygon = format!("{{\"type\":\"Polygon\",\"coordinates\":[{RING}]}}");
    let feature = format!("{{\"type\":\"Feature\",\"properties\":{{\"type\":\"river\",\"size\":null}},\"geometry\":{polygon}}}");
    let expected = kernel("x.geojson", polygon.as_bytes()).unwrap();
    let same = [
        ("x.json", polygon.clone()),
        ("x.GeoJSON", format!("\u{feff}{polygon}\n")),
        ("x.geojson", format!("{{\"coordinates\":[[{RING}]],\"type\":\"MultiPolygon\"}}")),
        ("x.geojson", feature.clone()),
        ("x.geojson", format!("{{\"type\":\"FeatureCollection\",\"name\":\"b\",\"features\":[{feature}]}}")),
        ("x.json", polygon.replace("[30,40]", "[30.0,4e1,-12.5]").replace(",[10,40]]", "]")),
        ("x.wkt", "POLYGON ((10 40, 30 40, 30.5 55, 10 50, 10 40))\n".into()),
        ("x.wkt", "  multipolygon(((10 40,30 40,\n30.5 55,10 50)))".into()),
        ("x.WKT", "POLYGON Z ((10 40 0, 30 40 1.5, 30.5 5.5e1 -2, 10 50 0))".into()),
        ("x.wkt", "POLYGON ZM ((10 40 0 1, 30 40 0 1, 30.5 55 0 1, 10 50 0 1))".into()),
        ("x.csv", "10,40\n30,40\n30.5,55\n10,50\n10,40\n".into()),
        ("x.csv", "# a basin\r\n\"Lon\",\"Lat\"\r\n10,40\r\n\r\n30,40\r\n30.5, 55\r\n10,50".into()),
        ("x.csv", "latitude,longitude\n40,10\n40,30\n55,30.5\n50,10\n".into()),
    ];
    for (name, text) in same {
        assert_eq!(kernel(name, text.as_bytes()).as_ref(), Ok(&expected), "{text}");
    }
    // A name of the file's own in Latin-1 does no harm.
    let latin = feature.replace("river", "R\u{e9}o").chars().map(|c| c as u8).collect::<Vec<u8>>();
    assert_eq!(kernel("x.json", &latin), Ok(expected));
}

#[test]
fn holes_are_known_by_their_place_in_the_file() {
    let outer = "[[0,0],[40,0],[40,40],[0,40],[0,0]]";
    let hole = ["[[10,10],[20,10],[20,30],[10,30],[10,10]]", "[[10,10],[10,30],[20,30],[20,10],[10,10]]"];
    let [one, other] = hole.map(|hole| kernel("x.json", format!("{{\"type\":\"Polygon\",\"coordinates\":[{outer},{hole}]}}").as_bytes()));
    assert_eq!(one, other, "whichever way round a hole goes");
    let text = "MULTIPOLYGON (((0 0, 40 0, 40 40, 0 40), (10 10, 20 10, 20 30, 10 30)))";
    assert_eq!(kernel("x.wkt", text.as_bytes()), one);
    assert_ne!(kernel("x.json", format!("{{\"type\":\"Polygon\",\"coordinates\":[{outer}]}}").as_bytes()), one);
}

#[test]
fn what_is_no_basin_is_told() {
    let expected = "expected a Polygon or a MultiPolygon, or one Feature with one of them";
    let json = |text: &str| refused("x.geojson", text);
    assert_eq!(json("{\"type\":\"LineString\",\"coordinates\":[[1,2],[3,4]]}"), format!("its type is 'LineString'; {expected}"));
    assert_eq!(json("{\"type\":\"GeometryCollection\",\"geometries\":[]}"), format!("its type is 'GeometryCollection'; {expected}"));
    assert_eq!(json("{\"type\":\"Feature\",\"geometry\":null}"), format!("a Feature without a geometry; {expected}"));
    assert_eq!(json("{\"type\":\"Feature\"}"), format!("an object has no 'geometry'; {expected}"));
    assert_eq!(json("{\"coordinates\":[]}"), format!("an object has no 'type'; {expected}"));
    assert_eq!(json("{\"type\":1}"), format!("'type' is no text; {expected}"));
    assert_eq!(json("[1,2]"), format!("a value stands where an object was due; {expected}"));
    let two = json("{\"type\":\"FeatureCollection\",\"features\":[{},{}]}");
    assert!(two.starts_with("a collection of 2 features; expected one, a file a basin (ogr2ogr -f GeoJSON -where"), "{two}");
    let lists = "a value stands where a list was due; expected coordinates in lists of lists, as in GeoJSON";
    assert_eq!(json("{\"type\":\"Polygon\",\"coordinates\":[[1,2],[3,4]]}"), lists);
    assert_eq!(json("{\"type\":\"MultiPolygon\",\"coordinates\":{}}"), lists);
    let position = "a position has not two numbers in front; expected [longitude, latitude]";
    assert_eq!(json("{\"type\":\"Polygon\",\"coordinates\":[[[1],[3,4]]]}"), position);
    assert_eq!(json("{\"type\":\"Polygon\",\"coordinates\":[[[\"1\",2]]]}"), position);
    assert_eq!(json("{\"type\":\"MultiPolygon\",\"coordinates\":[]}"), "no ring; expected a polygon's vertices");
    assert_eq!(json("{\"type\":\"Polygon\",\n\"coordinates\":[[[1,2}"), "line 2: found '}'; expected ',' or ']'");
    assert_eq!(json(""), "line 1: the text ends; expected a value of JSON");
}

#[test]
fn wrong_texts_and_lists_have_their_line() {
    let wkt = |text: &str| refused("x.wkt", text);
    assert_eq!(wkt("\nLINESTRING (1 2)"), "line 2: found 'LINESTRING (1 2)'; expected POLYGON ((..)) or MULTIPOLYGON (((..)), ..)");
    assert_eq!(wkt("POLYGON EMPTY"), "line 1: the polygon is EMPTY; expected vertices");
    assert_eq!(wkt("POLYGON T ((1 2))"), "line 1: a word stands behind the kind; expected Z, M, ZM or a parenthesis");
    assert_eq!(wkt("POLYGON (1 2, 3 4)"), "line 1: found '1 2, 3 4)'; expected '('");
    assert_eq!(wkt("POLYGON ((1 2,\n3))"), "line 2: found '))'; expected a number: longitude and latitude with a blank between");
    assert_eq!(wkt("POLYGON ((1 2 3 4 5))"), "line 1: found '5))'; expected ',' or ')'");
    assert_eq!(wkt("POLYGON ((1 2, 3 4, 5 7)"), "line 1: the text ends; expected ',' or ')'");
    let more = "POLYGON ((1 2, 3 4, 5 7))\nPOLYGON ((1 2, 3 4, 5 7))";
    assert!(wkt(more).ends_with("expected nothing behind the last parenthesis: a file has one basin"), "{}", wkt(more));
    let csv = |text: &str| refused("x.csv", text);
    assert_eq!(csv("# nothing\n"), "line 1: the list is empty; expected lines longitude,latitude");
    let names = |found: &str| format!("line 1: '{found}'; expected the names lon,lat, or two numbers, longitude and latitude");
    assert_eq!(csv("a,b\n1,2\n"), names("a,b"));
    assert_eq!(csv("lon,lat,z\n1,2,3\n"), names("lon,lat,z"));
    assert_eq!(csv("lon;lat\n1;2\n"), names("lon;lat"));
    let two =
        |line: usize, found: &str| format!("line {line}: '{found}'; expected two numbers with a comma between, longitude and latitude");
    assert_eq!(csv("lon,lat\n1,2\nx,3\n"), two(3, "x,3"));
    assert_eq!(csv("1,2,3\n"), two(1, "1,2,3"));
    assert_eq!(
        kernel("x.csv", b"\x1f\x8b\x08\x00").unwrap_err(),
        "looks like compressed by gzip (.gz): unpack it first; expected an outline as text"
    );
}

#[test]
fn rings_are_checked() {
    let csv = |text: &str| refused("x.csv", text);
    assert_eq!(csv("0,0\n1,1\n0,0\n"), "ring 1: distinct vertices: 2; expected 3 at least");
    assert_eq!(csv("0,0\n1,91\n0,5\n"), "ring 1: the latitude of vertex 2 is 91; expected -90 to 90 (longitude stands first)");
    assert_eq!(csv("0,0\n1,nan\n0,5\n"), "ring 1: vertex 2 is 1, NaN; expected finite numbers");
    assert_eq!(csv("0,0\n1e999,1\n0,5\n"), "ring 1: vertex 2 is inf, 1; expected finite numbers");
    assert!(csv("500000,0\n1,1\n0,5\n").contains("expected degrees from -360 to 360 (in metres? ogr2ogr -t_srs EPSG:4326)"));
    let hole = refused("x.wkt", "MULTIPOLYGON (((0 0, 1 0, 1 1)), ((5 5, 9 5, 9 9), (6 6, 7 6, 6 6)))");
    assert_eq!(hole, "ring 3 (a hole): distinct vertices: 2; expected 3 at least");
    let pole = csv("0,60\n120,60\n-120,60\n");
    assert!(pole.starts_with("ring 1: its longitudes add up to 360 degrees: a pole lies inside") && pole.contains("geoid caps"), "{pole}");
    let many: String = (0..4097).map(|k| format!("{},{}\n", f64::from(k) / 100.0, 10 * (k % 2))).collect();
    let many = csv(&many);
    assert!(many.starts_with("ring 1: 4097 vertices; expected at most 4096: simplify it, as by ogr2ogr -f GeoJSON -simplify"), "{many}");
    let nothing = "its share of the sphere is 0.0; expected above 0: the outline has no inside";
    assert!(csv("0,0\n10,0\n20,0\n").starts_with(nothing));
    // The way from -180 to 180 is no way at all.
    assert!(csv("-180,0\n180,0\n180,10\n-180,10\n").starts_with(nothing));
    let less = refused("x.wkt", "POLYGON ((0 0, 10 0, 10 10, 0 10), (0 0, 20 0, 20 10, 0 10))");
    assert!(less.starts_with("its share of the sphere is -0.00") && less.contains("its holes have a larger one"), "{less}");
}

#[test]
fn other_files_are_named_with_the_way_to_convert_them() {
    let shape = "basin.shp: a shapefile is not read here; convert it: ogr2ogr -f GeoJSON -t_srs EPSG:4326 basin.geojson basin.shp";
    let kernel = |name: &str| geoid(&["kernel", name, "--degree", "3", "--out", "x.model"]).unwrap_err();
    assert_eq!(kernel("basin.shp"), shape);
    let other = "'basin.kml' is no outline's name; expected one that ends with .geojson, .json, .wkt or .csv \
                 (others: ogr2ogr -f GeoJSON -t_srs EPSG:4326 basin.geojson basin.kml)";
    assert_eq!(kernel("basin.kml"), other);
    assert!(kernel("absent.wkt").starts_with("absent.wkt: cannot be read: "));
    assert_eq!(geoid(&["region", "basin.shp", "--degree", "3"]).unwrap_err(), shape);
    assert_eq!(geoid(&["grid", "x", "--out", "x.png", "--outline", "basin.shp"]).unwrap_err(), shape);
    let folder = Folder::new();
    let field = folder.file("f.model");
    geoid(&["sample", &field, "--degree", "2"]).unwrap();
    assert_eq!(geoid(&["average", &field, "basin.shp"]).unwrap_err(), shape);
}

#[test]
fn a_ring_across_the_date_line_is_noted() {
    let folder = Folder::new();
    let [outline, out] = ["x.csv", "x.model"].map(|name| folder.file(name));
    let mut bytes = Vec::new();
    for (text, noted) in [("170,0\n-170,0\n-170,10\n170,10\n", true), ("170,0\n190,0\n190,10\n170,10\n", false)] {
        fs::write(&outline, text).unwrap();
        let words = ["kernel", &outline, "--degree", "5", "--out", &out, "--outline-ellipsoid", "none"];
        let done = Command::new(env!("CARGO_BIN_EXE_geoid")).args(words).output().unwrap();
        let notes = String::from_utf8(done.stderr).unwrap();
        let note = "1 of 1 rings cross 180 degrees (or the circle's other end): longitudes are shifted by 360 degrees there, \
                    since only their differences matter; edges go the shorter way round";
        assert_eq!(notes, if noted { format!("geoid: note: {outline}: {note}\n") } else { String::new() });
        bytes.push(fs::read(&out).unwrap());
    }
    assert_eq!(bytes[0], bytes[1]);
}
