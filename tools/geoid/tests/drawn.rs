//! Basins drawn as polygons: kernels, averages and region functions by numbers that are known another way.

mod support;

use std::f64::consts::PI;
use std::fs;
use std::process::Command;

use geopotential::{Coefficients, model_file};
use support::{Folder, geoid};

/// The kernel of a file's text to a degree, with some more options, and what the program says of it.
fn drawn(name: &str, text: &str, degree: &str, options: &[&str]) -> (Coefficients, String) {
    let folder = Folder::new();
    let [outline, out] = [name, "out.model"].map(|name| folder.file(name));
    fs::write(folder.path().join(name), text).unwrap();
    let told = geoid(&[&["kernel", &outline, "--degree", degree, "--out", &out][..], options].concat()).unwrap();
    (model_file::read(&fs::read(&out).unwrap()).unwrap(), told.replace(&out, "out.model"))
}

fn kernel(text: &str, degree: &str) -> Coefficients {
    drawn("x.csv", text, degree, &[]).0
}

/// The corners of a rectangle in degrees.
fn rectangle([west, east, south, north]: [f64; 4]) -> String {
    format!("{west},{south}\n{east},{south}\n{east},{north}\n{west},{north}\n")
}

/// The numbers of a kernel, C and S of each pair.
fn numbers(kernel: &Coefficients) -> Vec<(usize, f64, f64)> {
    let pairs = (0..=kernel.max_degree()).flat_map(|n| (0..=n).map(move |m| (n, m)));
    pairs.map(|(n, m)| (m, kernel.c(n, m), kernel.s(n, m))).collect()
}

#[test]
fn a_rectangle_has_its_closed_form() {
    let sides = [15.0, 50.0, -20.0, 35.0];
    let (kernel, told) = drawn("x.csv", &rectangle(sides), "1", &[]);
    let [west, east, south, north] = sides.map(f64::to_radians);
    let squares = |lat: f64| lat / 2.0 + (2.0 * lat).sin() / 4.0;
    let root = 3f64.sqrt();
    let share = (east - west) * (north.sin() - south.sin()) / (4.0 * PI);
    let zonal = root * (east - west) * (north.sin().powi(2) - south.sin().powi(2)) / (8.0 * PI);
    let sectoral = root * (squares(north) - squares(south)) / (4.0 * PI);
    let expected = [(0, share, 0.0), (0, zonal, 0.0), (1, sectoral * (east.sin() - west.sin()), sectoral * (west.cos() - east.cos()))];
    // 13 nodes are the rule's; 40 leave nothing but rounding.
    let fine = drawn("x.csv", &rectangle(sides), "1", &["--nodes", "40"]).0;
    for (kernel, error) in [(&kernel, 1e-11 * share), (&fine, 1e-16)] {
        for (found, expected) in numbers(kernel).into_iter().zip(expected) {
            assert!((found.1 - expected.1).abs() < error && (found.2 - expected.2).abs() < error, "{found:?} {expected:?}");
        }
    }
    assert_eq!((kernel.gm, kernel.radius, kernel.date), (1.0, 1.0, None));
    let lines: Vec<&str> = told.lines().collect();
    assert_eq!(lines[0], "out.model: degree 1, 3 pairs");
    assert_eq!(lines[1], format!("share of the sphere {:?}", kernel.c(0, 0)));
    assert_eq!(lines[2], "1 ring, 1 panel, 13 nodes (13 a panel)");
    let change = lines[3].strip_prefix("4 nodes more a panel change no number by more than ").unwrap();
    assert!(change.strip_suffix(" of the share").unwrap().parse::<f64>().unwrap() < 1e-11, "{change}");
}

#[test]
fn sloping_edges_have_their_area() {
    // A rhombus of half axes a and b in longitude and latitude covers (a/π)(1 - cos b)/b.
    let (a, b) = (30f64.to_radians(), 20f64.to_radians());
    let share = kernel("-30,0\n0,20\n30,0\n0,-20\n", "0").c(0, 0);
    assert!((share - a / PI * (1.0 - b.cos()) / b).abs() < 1e-15, "{share}");
}

#[test]
fn a_hole_is_the_difference_and_a_further_polygon_the_sum() {
    let (a, b) = (rectangle([0.0, 40.0, 0.0, 40.0]), rectangle([10.0, 20.0, 5.0, 30.0]));
    let [outer, inner] = [a, b].map(|text| kernel(&text, "20"));
    let rings = "(0 0, 40 0, 40 40, 0 40), (10 5, 20 5, 20 30, 10 30)";
    let (hole, told) = drawn("x.wkt", &format!("POLYGON ({rings})"), "20", &[]);
    let (both, _) = drawn("x.wkt", &format!("MULTIPOLYGON (({}))", rings.replace("), (", ")), ((")), "20", &[]);
    for (((outer, inner), hole), both) in numbers(&outer).into_iter().zip(numbers(&inner)).zip(numbers(&hole)).zip(numbers(&both)) {
        assert_eq!((hole.1, hole.2), (outer.1 - inner.1, outer.2 - inner.2));
        assert_eq!((both.1, both.2), (outer.1 + inner.1, outer.2 + inner.2));
    }
    // 12 + ⌈20 · 40°⌉ and 12 + ⌈20 · 25°⌉.
    assert!(told.contains("\n2 rings, 2 panels, 47 nodes (21 to 26 a panel)\n"), "{told}");
}

#[test]
fn across_the_date_line_lies_the_same_basin_moved() {
    let shape = [(-12.0, 40.0), (8.0, 35.0), (13.0, 55.0), (1.0, 48.0), (-9.0, 60.0)];
    let here: String = shape.iter().map(|(lon, lat)| format!("{lon},{lat}\n")).collect();
    let there: String = shape.iter().map(|(lon, lat)| format!("{},{lat}\n", if *lon < 0.0 { lon + 180.0 } else { lon - 180.0 })).collect();
    assert!(there.contains("168,40\n-172,35"));
    let [here, there] = [here, there].map(|text| kernel(&text, "30"));
    assert!(here.c(0, 0) > 0.005);
    for (here, there) in numbers(&here).into_iter().zip(numbers(&there)) {
        let sign = if here.0 % 2 == 0 { 1.0 } else { -1.0 };
        assert!((here.1 - sign * there.1).abs() < 1e-16 && (here.2 - sign * there.2).abs() < 1e-16, "{here:?} {there:?}");
    }
}

#[test]
fn along_a_pole_a_ring_may_close() {
    // A cap of 30 degrees about the south pole has the share (1 - cos 30°)/2.
    let cap = kernel("-180,-60\n0,-60\n180,-60\n180,-90\n-180,-90\n", "8");
    assert!((cap.c(0, 0) - (1.0 - 30f64.to_radians().cos()) / 2.0).abs() < 1e-15);
    assert!(numbers(&cap).iter().all(|&(m, c, s)| m == 0 || c.abs() < 1e-15 && s.abs() < 1e-15));
}

#[test]
fn nodes_follow_degree_and_reach() {
    let line = |text: &str, degree: &str, options: &[&str]| drawn("x.csv", text, degree, options).1.lines().nth(2).unwrap().to_string();
    let square = rectangle([0.0, 10.0, 0.0, 30.0]);
    // 12 + ⌈96 · 30°⌉ by the panel's width.
    assert_eq!(line(&square, "96", &[]), "1 ring, 1 panel, 63 nodes (63 a panel)");
    assert_eq!(line(&square, "96", &["--nodes", "5"]), "1 ring, 1 panel, 5 nodes (5 a panel)");
    assert_eq!(line(&square, "0", &[]), "1 ring, 1 panel, 12 nodes (12 a panel)");
    // Panels of half a degree, on which edges go 30 degrees.
    let flat = "-30,0\n0,0.5\n30,0\n0,-0.5\n";
    assert_eq!(line(flat, "96", &[]), "1 ring, 2 panels, 126 nodes (63 a panel)");
    let (coarse, fine) = (kernel(flat, "96"), drawn("x.csv", flat, "96", &["--nodes", "300"]).0);
    let share = fine.c(0, 0);
    for (coarse, fine) in numbers(&coarse).into_iter().zip(numbers(&fine)) {
        assert!((coarse.1 - fine.1).abs() < 1e-12 * share && (coarse.2 - fine.2).abs() < 1e-12 * share, "{coarse:?} {fine:?}");
    }
    // 13 nodes, as the panels' width alone would ask, are far too few, and the check says so.
    let told = drawn("x.csv", flat, "96", &["--nodes", "13"]).1;
    let change: f64 = told.split("by more than ").nth(1).unwrap().split(' ').next().unwrap().parse().unwrap();
    assert!(change > 1e-3, "{told}");
    // Latitudes that differ by rounding make a panel that holds nothing, and asks for nothing.
    let rounded = "0,0\n80,0\n80,10.00000000001\n10,10\n10,30\n0,30\n";
    assert_eq!(line(rounded, "96", &[]), "1 ring, 3 panels, 138 nodes (46 a panel)");
    let told = drawn("x.csv", &square, "181", &[]).1;
    assert!(told.ends_with("\nnot checked by 4 nodes more a panel, as kernels to degree 180 are\n"), "{told}");
}

#[test]
fn too_many_nodes_are_refused() {
    let folder = Folder::new();
    let [outline, out] = ["x.csv", "x.model"].map(|name| folder.file(name));
    // 4096 latitudes.
    let zigzag: String = (0..4096).map(|k| format!("{},{}\n", k % 2, f64::from(k) / 100.0 - 20.0)).collect();
    fs::write(&outline, zigzag).unwrap();
    let refused = |options: &[&str]| geoid(&[&["kernel", &outline, "--out", &out][..], options].concat()).unwrap_err();
    let most = "nodes on each of 4095 panels; the library has at most 16 there (65535 in all)";
    assert_eq!(refused(&["--degree", "10", "--nodes", "17"]), format!("{outline}: 17 {most}"));
    let memory = "65520 nodes to degree 2700 need 5.7 GB of memory; expected at most 4 GB: fewer of them by --nodes, a lower degree, \
                  or an outline of fewer vertices";
    assert_eq!(refused(&["--degree", "2700", "--nodes", "16"]), format!("{outline}: {memory}"));
    assert_eq!(refused(&["--degree", "10", "--nodes", "0"]), "--nodes is 0; expected 1 or more");
    assert_eq!(refused(&["--degree", "10", "--nodes", "2702"]), "--nodes is 2702; expected a whole number from 0 to 2701");
    assert_eq!(refused(&["--degree", "2701"]), "--degree is 2701; expected a whole number from 0 to 2700");
    assert_eq!(refused(&[]), "--degree L is missing; see geoid kernel --help");
    assert_eq!(geoid(&["kernel", &outline, "--degree", "3"]).unwrap_err(), "--out PATH is missing; see geoid kernel --help");
    let name = geoid(&["kernel", &outline, "--degree", "3", "--out", "y.csv"]).unwrap_err();
    assert_eq!(name, "--out is 'y.csv', an outline's name; expected one such as BASIN.model");
    assert!(!fs::exists(&out).unwrap());
    let told = geoid(&["kernel", &outline, "--out", &out, "--degree", "10", "--nodes", "13"]).unwrap();
    assert!(told.contains("\nnot checked by 4 nodes more a panel: "), "{told}");
}

#[test]
fn a_share_above_one_is_told() {
    let folder = Folder::new();
    let [globe, out, field] = ["x.csv", "x.model", "f.model"].map(|name| folder.file(name));
    fs::write(&globe, rectangle([-180.0, 180.0, -90.0, 90.0])).unwrap();
    geoid(&["sample", &field, "--degree", "4"]).unwrap();
    let run = |words: &[&str]| Command::new(env!("CARGO_BIN_EXE_geoid")).args(words).output().unwrap();
    let done = run(&["kernel", &globe, "--degree", "4", "--out", &out, "--nodes", "100", "--outline-ellipsoid", "none"]);
    let share = model_file::read(&fs::read(&out).unwrap()).unwrap().c(0, 0);
    assert!(done.status.success() && share > 1.0, "{share}");
    let note = format!(
        "geoid: note: {globe}: the kernel's first number is {share:?}, above 1: the proved margin of an average by it is not promised\n"
    );
    assert_eq!(String::from_utf8(done.stderr).unwrap(), note);
    let done = run(&["average", &field, &globe, "--nodes", "100"]);
    assert!(String::from_utf8(done.stderr).unwrap().ends_with(&note));
    let error = geoid(&["kernel", &globe, "--degree", "4", "--out", &out, "--nodes", "1"]).unwrap_err();
    assert_eq!(
        error,
        format!("{globe}: its share of the sphere is 2.4674011002723395; expected 1 at most: more --nodes, or rings that don't overlap")
    );
}

#[test]
fn an_outline_has_the_average_of_its_kernel() {
    let folder = Folder::new();
    let [field, outline, second, out] = ["f.model", "Ob.wkt", "Don.csv", "Ob.model"].map(|name| folder.file(name));
    geoid(&["sample", &field, "--degree", "24"]).unwrap();
    fs::write(&outline, "POLYGON ((60 50, 88 49, 75 66, 62 60), (70 55, 72 55, 72 57, 70 57))").unwrap();
    fs::write(&second, rectangle([36.0, 46.0, 46.0, 54.0])).unwrap();
    geoid(&["kernel", &outline, "--degree", "24", "--out", &out]).unwrap();
    let kernel = model_file::read(&fs::read(&out).unwrap()).unwrap();
    let (drawn, stored) = (geoid(&["average", &field, &outline]).unwrap(), geoid(&["average", &field, &out]).unwrap());
    let (number, line) = drawn.split_once('\n').unwrap();
    assert_eq!(format!("{number}\n"), stored);
    let area = kernel.c(0, 0) * 4.0 * PI * 6378.137f64.powi(2);
    let expected = format!("share of the sphere {:?}, {area:.1} km² at radius 6378137.0 m; 2 rings, 4 panels, ", kernel.c(0, 0));
    assert!(line.starts_with(&expected) && line.contains(" nodes ("), "{line}");
    // The area is at the field's own radius, wherever the mean is taken.
    assert_eq!(geoid(&["average", &field, &outline, "--radius", "7e6"]).unwrap().split_once('\n').unwrap().1, line);
    let table = geoid(&["average", &field, &outline, &out, &second, "--nodes", "20"]).unwrap();
    let rows: Vec<Vec<&str>> = table.lines().map(|line| line.split(',').collect()).collect();
    assert_eq!(rows[0], ["name", "average (m)", "share of the sphere", "degree used", "area (km²)", "nodes"]);
    assert_eq!((rows[1][0], rows[1][3], rows[1][5]), ("Ob", "24", "80"));
    assert_eq!((rows[2][0], rows[2][1], rows[2][5]), ("Ob", number, ""));
    assert_eq!((rows[3][0], rows[3][5]), ("Don", "20"));
    let share: f64 = rows[3][2].parse().unwrap();
    assert_eq!(rows[3][4].parse::<f64>().unwrap(), share * 4.0 * PI * 6378.137f64.powi(2));
    // Kernels alone have the table they had.
    assert!(geoid(&["average", &field, &out, &out]).unwrap().starts_with("name,average (m),share of the sphere,degree used\nOb,"));
}

#[test]
fn nodes_without_an_outline_are_noted() {
    let folder = Folder::new();
    let [field, outline, out] = ["f.model", "x.csv", "x.model"].map(|name| folder.file(name));
    geoid(&["sample", &field, "--degree", "4"]).unwrap();
    fs::write(&outline, rectangle([0.0, 40.0, 0.0, 40.0])).unwrap();
    geoid(&["kernel", &outline, "--degree", "4", "--out", &out]).unwrap();
    let note = "geoid: note: --nodes has no effect: there is no outline among the basins\n";
    for (basin, noted) in [(&out, true), (&outline, false)] {
        let done = Command::new(env!("CARGO_BIN_EXE_geoid")).args(["average", &field, basin, "--nodes", "20"]).output().unwrap();
        assert_eq!(String::from_utf8(done.stderr).unwrap().contains(note), noted);
    }
}

#[test]
fn an_outline_is_taken_to_the_fields_degree() {
    let folder = Folder::new();
    let [field, outline, out, table] = ["f.model", "x.csv", "x.model", "t.csv"].map(|name| folder.file(name));
    geoid(&["sample", &field, "--degree", "24"]).unwrap();
    geoid(&["convert", &field, &field, "--date", "2024-03-15"]).unwrap();
    fs::write(&outline, rectangle([0.0, 40.0, 0.0, 40.0])).unwrap();
    geoid(&["kernel", &outline, "--degree", "9", "--out", &out]).unwrap();
    let told = geoid(&["average", &field, &outline, "--degree", "9", "--out", &table]).unwrap();
    assert_eq!(told, format!("{table}: 1 averages in m\n"));
    let text = fs::read_to_string(&table).unwrap();
    assert!(text.starts_with("name,average (m),share of the sphere,degree used,area (km²),nodes,date\n"), "{text}");
    let row: Vec<&str> = text.lines().nth(1).unwrap().split(',').collect();
    assert_eq!((row[3], row[5], row[6]), ("9", "19", "2024-03-15"));
    assert_eq!(format!("{}\n", row[1]), geoid(&["average", &field, &out]).unwrap());
}

#[test]
fn region_functions_are_ranked() {
    let folder = Folder::new();
    let outline = folder.file("x.wkt");
    let region = |text: &str, words: &[&str]| {
        fs::write(&outline, text).unwrap();
        geoid(&[&["region", &outline][..], words].concat())
    };
    let hole = "POLYGON ((0 0, 80 0, 80 60, 0 60), (20 20, 40 20, 40 40, 20 40))";
    let text = region(hole, &["--degree", "6", "--best", "3"]).unwrap();
    let lines: Vec<&str> = text.lines().collect();
    let [outer, inner] = [[0.0, 80.0, 0.0, 60.0], [20.0, 40.0, 20.0, 40.0]].map(|sides: [f64; 4]| {
        let [west, east, south, north] = sides.map(f64::to_radians);
        (east - west) * (north.sin() - south.sin()) / (4.0 * PI)
    });
    let share: f64 = lines[0].strip_prefix("share of the sphere ").unwrap().parse().unwrap();
    assert!((share - (outer - inner)).abs() < 1e-15, "{share}");
    // 12 + ⌈6 · 20°⌉ on three panels.
    assert_eq!(lines[1], "3 panels, 45 nodes (15 a panel)");
    let shannon = 49.0 * share;
    assert_eq!(lines[2], format!("49 functions, Shannon number {shannon:.6} (concentrations add up to {shannon:.6})"));
    assert_eq!((lines[3], lines[4]), ("", "  rank  concentration"));
    let ranked: Vec<f64> = lines[5..8].iter().map(|line| line.split_whitespace().nth(1).unwrap().parse().unwrap()).collect();
    assert!(ranked.is_sorted_by(|a, b| a >= b) && ranked[0] < 1.0 && ranked[2] > 0.5, "{ranked:?}");
    assert!(lines[8].starts_with("the solver settled (") && lines[8].ends_with(" rounds)"), "{text}");
    let residual = lines[9].strip_prefix("|D g - lambda g| is at most ").unwrap().strip_suffix(" over the functions listed").unwrap();
    assert!(residual.parse::<f64>().unwrap() < 1e-13 && lines.len() == 10, "{text}");
    let small = region(hole, &["--degree", "2"]).unwrap();
    assert!(small.contains("\nthe solver settled (") && small.contains(" sweeps)\n"), "{small}");
    assert_eq!(region(hole, &["--degree", "22"]).unwrap_err(), "--degree is 22; expected a whole number from 0 to 21");
    assert_eq!(region(hole, &[]).unwrap_err(), "--degree L is missing; see geoid region --help");
    let flat = region("POLYGON ((0 0, 10 0, 20 0))", &["--degree", "2"]).unwrap_err();
    assert!(flat.contains("its share of the sphere is 0.0; expected above 0"), "{flat}");
}
