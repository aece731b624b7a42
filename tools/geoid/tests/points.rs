//! Potential, gravity, geoid height and the gradient tensor at points.

mod support;

use std::fs;
use std::process::Command;

use geoid::normal::GRS80;
use geopotential::{Coefficients, model_file};
use support::{Folder, geoid};

/// Points, and what GeographicLib 2.1.2's `Gravity -G -p 13` says of the sample field of degree 96 (as a model of its own,
/// with the ellipsoid GRS80): gravity east, north and up.
const LIST: &str = "\
name,latitude,longitude,height
equator,0,0,0
\"Ob, mouth\",66.5,73.5,12
Everest,27.988,86.925,8848.86
south,-45,170.25,-100
pole,90,0,0
south pole,-90,30,2800
orbit,12.5,-77,500000
";
const GRAVITY: [[f64; 3]; 7] = [
    [0.0001785248929, -0.0000756175268, -9.7803970265159],
    [0.0000172462499, -0.0002942401090, -9.8239570741302],
    [0.0001357488760, -0.0000046234131, -9.7645178207656],
    [-0.0002254064292, -0.0002924265817, -9.8066153457957],
    [-0.0000409363596, 0.0002345346688, -9.8319281093643],
    [0.0003009057515, 0.0002054438949, -9.8237181667429],
    [0.0001697036230, -0.0014696552073, -8.4030834396457],
];
/// Of the same model, `Gravity -H -p 12` at the two points on the ellipsoid.
const HEIGHTS: [(usize, f64); 2] = [(0, -9.858120362678), (4, -2.655277986658)];

/// The last `count` numbers of each line behind the heading.
fn numbers(text: &str, count: usize) -> Vec<Vec<f64>> {
    let last = |line: &str| line.split(',').rev().take(count).map(|word| word.parse().unwrap()).collect::<Vec<f64>>();
    text.lines().skip(1).map(|line| last(line).into_iter().rev().collect()).collect()
}

#[test]
fn gravity_and_heights_are_those_of_geographiclib() {
    let folder = Folder::new();
    let [model, list, out] = ["m.model", "list.csv", "out.csv"].map(|name| folder.file(name));
    geoid(&["sample", &model]).unwrap();
    fs::write(&list, LIST).unwrap();
    let text = geoid(&["points", &model, "--at", &list]).unwrap();
    let heading =
        "name,latitude,longitude,height,potential (m²/s²),gravity north (m/s²),gravity east (m/s²),gravity up (m/s²),geoid height (m)";
    assert_eq!(text.lines().next(), Some(heading));
    assert!(text.contains("\n\"Ob, mouth\",66.5,73.5,12,6261"), "{text}");
    let rows = numbers(&text, 5);
    for (row, [east, north, up]) in rows.iter().zip(GRAVITY) {
        assert!((row[1] - north).abs() < 1e-12 && (row[2] - east).abs() < 1e-12 && (row[3] - up).abs() < 2e-13, "{row:?}");
    }
    for (place, height) in HEIGHTS {
        assert!((rows[place][4] - height).abs() < 1e-10, "{:?}", rows[place]);
    }
    assert_eq!(geoid(&["points", &model, "--at", &list, "--out", &out]).unwrap(), format!("{out}: 7 points\n"));
    assert_eq!(fs::read_to_string(&out).unwrap(), text);
}

#[test]
fn heights_of_points_on_the_ellipsoid_are_those_of_a_grid() {
    let folder = Folder::new();
    let [model, list, csv] = ["m.model", "list.csv", "g.csv"].map(|name| folder.file(name));
    geoid(&["sample", &model, "--degree", "36"]).unwrap();
    for options in [&["--ellipsoid", "wgs84"][..], &["--ellipsoid", "grs80", "--gamma", "sphere", "--w0", "62636853.4"]] {
        geoid(&[&["grid", &model, "--out", &csv, "--step", "30"], options].concat()).unwrap();
        let grid = fs::read_to_string(&csv).unwrap();
        let points = grid.lines().skip(1).map(|line| format!("{},0\n", line.rsplit_once(',').unwrap().0));
        fs::write(&list, "lat,lon,height\n".to_string() + &points.collect::<String>()).unwrap();
        let text = geoid(&[&["points", &model, "--at", &list], options].concat()).unwrap();
        for (at_point, in_grid) in numbers(&text, 1).iter().zip(numbers(&grid, 1)) {
            assert!((at_point[0] - in_grid[0]).abs() < 1e-9, "{at_point:?} {in_grid:?}");
        }
    }
}

#[test]
fn radii_have_the_librarys_bits() {
    let folder = Folder::new();
    let [model, list] = ["m.model", "list.csv"].map(|name| folder.file(name));
    geoid(&["sample", &model, "--degree", "24"]).unwrap();
    fs::write(&list, "radius,lon,lat\n6878137,200,-33.25\n7e6,-10,80\n").unwrap();
    let rows = numbers(&geoid(&["points", &model, "--at", &list, "--normal", "none"]).unwrap(), 5);
    let field = model_file::read(&fs::read(&model).unwrap()).unwrap();
    for (row, (r, lat, lon)) in rows.iter().zip([(6878137.0, -33.25f64, 200f64), (7e6, 80.0, -10.0)]) {
        let (lat, lon) = (lat.to_radians(), lon.to_radians());
        let at = field.partials(r, lat, lon);
        let [north, east, up] = at.gravity_neu(r, lat, 7.292115e-5);
        assert_eq!(row[..], [at.v, north, east, up, at.v / (field.gm / (r * r))]);
    }
    let by_gravity = numbers(&geoid(&["points", &model, "--at", &list, "--normal", "none", "--gamma", "ellipsoid"]).unwrap(), 5);
    assert!((by_gravity[0][4] / rows[0][4] - 1.0).abs() < 3e-3 && by_gravity[0] != rows[0] && by_gravity[0][..4] == rows[0][..4]);
}

#[test]
fn a_difference_of_fields_does_not_turn() {
    let folder = Folder::new();
    let [first, second, change, list] = ["a.model", "b.model", "d.model", "list.csv"].map(|name| folder.file(name));
    geoid(&["sample", &first, "--degree", "8"]).unwrap();
    geoid(&["sample", &second, "--degree", "8", "--seed", "2"]).unwrap();
    geoid(&["subtract", &first, &second, "--out", &change]).unwrap();
    fs::write(&list, "lat,lon,height\n0,0,0\n").unwrap();
    let output = Command::new(env!("CARGO_BIN_EXE_geoid")).args(["points", &change, "--at", &list]).output().unwrap();
    let notes = String::from_utf8(output.stderr).unwrap();
    assert!(notes.contains("gravity has no centrifugal part") && notes.contains("no normal field is taken off: C(0,0) is 0"), "{notes}");
    let row = &numbers(std::str::from_utf8(&output.stdout).unwrap(), 5)[0];
    // A centrifugal part would be 0.034 m/s².
    assert!(row[3].abs() < 1e-3, "{row:?}");
    let told = numbers(&geoid(&["points", &change, "--at", &list, "--omega", "7.292115e-5"]).unwrap(), 5);
    assert!((told[0][3] - row[3] - 7.292115e-5f64.powi(2) * 6378137.0).abs() < 1e-15);
}

#[test]
fn lists_in_latin_1_are_read() {
    let folder = Folder::new();
    let [model, list] = ["m.model", "list.csv"].map(|name| folder.file(name));
    geoid(&["sample", &model, "--degree", "2"]).unwrap();
    fs::write(&list, b"name,lat,lon,h\nM\xfcnchen,48.1,11.6,520\n").unwrap();
    let table = geoid(&["points", &model, "--at", &list]).unwrap();
    assert!(table.lines().nth(1).unwrap().starts_with("München,48.1,11.6,520,"), "{table}");
}

#[test]
fn lists_that_are_wrong_are_named() {
    let folder = Folder::new();
    let [model, list] = ["m.model", "list.csv"].map(|name| folder.file(name));
    geoid(&["sample", &model, "--degree", "2"]).unwrap();
    let refused = |text: &str| {
        fs::write(&list, text).unwrap();
        geoid(&["points", &model, "--at", &list]).unwrap_err().replace(folder.path().to_str().unwrap(), "")
    };
    assert!(
        refused("lat,lon,radius\n10,20,6878137\n10,20,6878.137\n").starts_with("/list.csv: line 3: 6878 m from the centre, deep below")
    );
    assert_eq!(refused("lat,lon,height\n10,20\n"), "/list.csv: line 2: 2 fields; expected 3, as in the line of names");
    assert!(refused("10,20,0\n").contains("line 1: no column latitude"));
    assert!(geoid(&["points", &model]).unwrap_err().starts_with("--at LIST.csv is missing"));
}

/// The sample of a degree and a list, as files.
fn sample_and_list(folder: &Folder, degree: &str, list: &str) -> [String; 2] {
    let [model, path] = ["m.model", "list.csv"].map(|name| folder.file(name));
    geoid(&["sample", &model, "--degree", degree]).unwrap();
    fs::write(&path, list).unwrap();
    [model, path]
}

/// The tensor's numbers of each point: Vnn, Vne, Vnu, Vee, Veu, Vuu and the trace.
fn tensors(model: &str, list: &str) -> Vec<Vec<f64>> {
    numbers(&geoid(&["points", model, "--at", list, "--tensor"]).unwrap(), 7)
}

#[test]
fn the_tensor_of_a_point_mass() {
    let folder = Folder::new();
    let [model, list] = ["m.model", "list.csv"].map(|name| folder.file(name));
    let mut mass = Coefficients::zeros(3.986e14, 6.378e6, 0);
    mass.set(0, 0, 1.0, 0.0);
    fs::write(&model, model_file::write(&mass).unwrap()).unwrap();
    let near = |found: &[f64], due: [f64; 7]| {
        assert!(found.iter().zip(due).all(|(found, due)| (found - due).abs() < 1e-11), "{found:?}, due {due:?}");
    };
    fs::write(&list, "lat,lon,radius\n-50,10,7000000\n").unwrap();
    let cube = 1e9 * 3.986e14 / 7e6f64.powi(3);
    near(&tensors(&model, &list)[0], [-cube, 0.0, 0.0, -cube, 0.0, 2.0 * cube, 0.0]);
    // By the ellipsoid's normal, which leans away from the radius.
    fs::write(&list, "lat,lon,height\n-50,10,20000\n").unwrap();
    let (latitude, radius) = GRS80.geocentric_above(-50f64.to_radians(), 2e4);
    let (cube, (sin, cos)) = (1e9 * 3.986e14 / radius.powi(3), (-50f64.to_radians() - latitude).sin_cos());
    let (nn, nu, uu) = (2.0 * sin * sin - cos * cos, -3.0 * sin * cos, 2.0 * cos * cos - sin * sin);
    near(&tensors(&model, &list)[0], [nn * cube, 0.0, nu * cube, -cube, 0.0, uu * cube, 0.0]);
}

#[test]
fn the_tensor_stands_behind_the_other_columns() {
    let folder = Folder::new();
    let [model, list] = sample_and_list(&folder, "24", LIST);
    let out = folder.file("out.csv");
    let plain = geoid(&["points", &model, "--at", &list]).unwrap();
    let with = geoid(&["points", &model, "--at", &list, "--tensor"]).unwrap();
    for (line, longer) in plain.lines().zip(with.lines()) {
        assert!(longer.starts_with(&format!("{line},")) && longer.matches(',').count() == line.matches(',').count() + 7, "{longer}");
    }
    let names = "geoid height (m),gradient Vnn (E),gradient Vne (E),gradient Vnu (E),gradient Vee (E),gradient Veu (E),gradient Vuu (E)";
    assert!(with.lines().next().unwrap().ends_with(&format!("{names},trace Vnn+Vee+Vuu (E)")), "{with}");
    // Neither the rotation nor the normal field has a part in it.
    let others = geoid(&["points", &model, "--at", &list, "--tensor", "--omega", "0", "--normal", "none", "--out", &out]);
    assert_eq!(others.unwrap(), format!("{out}: 7 points\n"));
    assert_eq!(numbers(&fs::read_to_string(&out).unwrap(), 7), numbers(&with, 7));
}

#[test]
fn tensors_at_radii_have_the_librarys_bits() {
    let folder = Folder::new();
    let [model, list] = sample_and_list(&folder, "24", "radius,lon,lat\n6878137,200,-33.25\n7e6,-10,80\n");
    let field = model_file::read(&fs::read(&model).unwrap()).unwrap();
    for (row, (r, lat, lon)) in tensors(&model, &list).iter().zip([(6878137.0, -33.25f64, 200f64), (7e6, 80.0, -10.0)]) {
        let lat = lat.to_radians();
        let [[nn, ne, nu], [_, ee, eu], [_, _, uu]] =
            field.second_partials(r, lat, lon.to_radians()).tensor_neu(r, lat).map(|row| row.map(|entry| 1e9 * entry));
        assert_eq!(row[..], [nn, ne, nu, ee, eu, uu, nn + ee + uu]);
    }
}

#[test]
fn tensors_at_heights_are_those_at_radii_turned() {
    let folder = Folder::new();
    let [model, list] = sample_and_list(&folder, "36", "lat,lon,h\n66.5,73.5,12\n-45,170.25,-100\n0,10,0\n12.5,-77,500000\n");
    let by_height = tensors(&model, &list);
    let geodetic = [(66.5f64, 73.5, 12.0), (-45.0, 170.25, -100.0), (0.0, 10.0, 0.0), (12.5, -77.0, 5e5)];
    let places = geodetic.map(|(lat, lon, height)| (GRS80.geocentric_above(lat.to_radians(), height), lat.to_radians(), lon));
    let lines = places.map(|((lat, r), _, lon)| format!("{:?},{lon},{r:?}\n", lat.to_degrees()));
    fs::write(&list, format!("lat,lon,r\n{}", lines.concat())).unwrap();
    let by_radius = tensors(&model, &list);
    for ((turned, at), ((geocentric, _), geodetic, _)) in by_height.iter().zip(&by_radius).zip(places) {
        let [nn, ne, nu, ee, eu, uu, trace] = at[..] else { panic!("{at:?}") };
        let (s, c) = (geodetic - geocentric).sin_cos();
        let due = [
            c * c * nn - 2.0 * c * s * nu + s * s * uu,
            c * ne - s * eu,
            c * s * (nn - uu) + (c * c - s * s) * nu,
            ee,
            s * ne + c * eu,
            s * s * nn + 2.0 * c * s * nu + c * c * uu,
            trace,
        ];
        assert!(turned.iter().zip(due).all(|(found, due)| (found - due).abs() < 1e-10), "{turned:?}, due {due:?}");
    }
}

#[test]
fn the_tensor_is_what_gravity_changes_by_along_the_normal() {
    let folder = Folder::new();
    let [model, list] = sample_and_list(&folder, "96", "lat,lon,h\n66.5,73.5,1000\n-45,170.25,1000\n12.5,-77,500000\n");
    let tensors = tensors(&model, &list);
    // North, east and up of gravity without a rotation, so many metres higher.
    let gravity = |metres: f64| {
        let lines = [("66.5,73.5", 1e3), ("-45,170.25", 1e3), ("12.5,-77", 5e5)].map(|(at, h)| format!("{at},{:?}\n", h + metres));
        fs::write(&list, format!("lat,lon,h\n{}", lines.concat())).unwrap();
        numbers(&geoid(&["points", &model, "--at", &list, "--omega", "0"]).unwrap(), 5)
    };
    for ((tensor, above), below) in tensors.iter().zip(gravity(50.0)).zip(gravity(-50.0)) {
        for (entry, column) in [(2, 1), (4, 2), (5, 3)] {
            let change = 1e9 * (above[column] - below[column]) / 100.0;
            assert!((tensor[entry] - change).abs() < 1e-5, "{tensor:?}, {change}");
        }
    }
}

#[test]
fn traces_are_rounding_but_at_a_pole() {
    let folder = Folder::new();
    let [model, list] = sample_and_list(&folder, "96", LIST);
    let run = |list: &str| {
        let done = Command::new(env!("CARGO_BIN_EXE_geoid")).args(["points", &model, "--at", list, "--tensor"]).output().unwrap();
        (numbers(std::str::from_utf8(&done.stdout).unwrap(), 7), String::from_utf8(done.stderr).unwrap())
    };
    let (rows, notes) = run(&list);
    for (row, line) in rows.iter().zip(LIST.lines().skip(1)) {
        assert_eq!(row[6].abs() > 1e-10, line.contains("pole"), "{line}: {row:?}");
    }
    assert!(notes.contains("2 of 7 points have a trace above a millionth of the largest entry"), "{notes}");
    fs::write(&list, LIST.lines().filter(|line| !line.contains("pole")).collect::<Vec<_>>().join("\n")).unwrap();
    assert!(!run(&list).1.contains("trace"));
}

#[test]
fn more_points_than_one_call_takes() {
    let folder = Folder::new();
    let line = "50,10,7000000\n";
    let [model, list] = sample_and_list(&folder, "2", &format!("lat,lon,radius\n{}", line.repeat(65_537)));
    let rows = tensors(&model, &list);
    assert_eq!(rows.len(), 65_537);
    assert!(rows[0][5] > 2000.0 && rows.iter().all(|row| *row == rows[0]));
}

#[test]
fn the_tensors_option_is_told() {
    let help = geoid(&["points", "--help"]).unwrap();
    for said in ["--tensor", "(1 E = 1e-9/s^2)", "V is the gravitational potential of the whole field", "no centrifugal part", "Laplace"] {
        assert!(help.contains(said), "{said}");
    }
    assert_eq!(geoid(&["points", "a", "--tensor=yes"]).unwrap_err(), "option --tensor takes no value; see geoid points --help");
    assert_eq!(geoid(&["grid", "a", "--tensor"]).unwrap_err(), "unknown option '--tensor'; see geoid grid --help");
}
