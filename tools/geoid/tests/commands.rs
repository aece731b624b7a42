//! Command lines from their words to their files.

mod support;

use std::fs;
use std::process::Command;

use support::{Folder, geoid};

#[test]
fn help_names_everything() {
    let help = geoid(&["--help"]).unwrap();
    for command in ["convert", "info", "grid", "points", "average", "kernel", "subtract", "replace", "smooth", "caps", "region", "sample"] {
        assert!(help.contains(&format!("\n  {command} ")), "{command}");
        assert!(geoid(&[command, "--help"]).unwrap().starts_with(&format!("usage: geoid {command}")));
    }
    assert!(geoid(&["grid", "x", "--step", "1", "--help"]).unwrap().contains("--region W/E/S/N"));
    assert_eq!(geoid(&["--version"]).unwrap(), format!("geoid {}\n", env!("CARGO_PKG_VERSION")));
}

#[test]
fn wrong_words_are_named() {
    let cases: [(&[&str], &str); 20] = [
        (&[], "no command; see geoid --help"),
        (
            &["gird"],
            "unknown command 'gird'; expected one of convert, info, grid, points, average, kernel, subtract, replace, smooth, caps, region, sample, --help, --version",
        ),
        (
            &["--wrong"],
            "unknown option '--wrong'; expected one of convert, info, grid, points, average, kernel, subtract, replace, smooth, caps, region, sample, --help, --version",
        ),
        (&["info"], "FILE is missing; see geoid info --help"),
        (&["info", "a", "b"], "unexpected word 'b'; see geoid info --help"),
        (&["info", "a", "--colour"], "unknown option '--colour'; see geoid info --help"),
        (&["info", "a", "-x"], "unknown option '-x'; see geoid info --help"),
        (&["info", "a", "--all=1"], "option --all takes no value; see geoid info --help"),
        (&["info", "a", "--functional"], "option --functional needs a value: --functional NAME; see geoid info --help"),
        (&["grid", "a", "--step", "1", "--step=2"], "option --step is given twice; see geoid grid --help"),
        (&["grid", "a"], "--out PATH is missing; see geoid grid --help"),
        (&["grid", "a", "--out", "x.tif"], "--out is 'x.tif'; expected a name that ends with .csv, .asc, .nc or .png"),
        (&["grid", "a", "--out", "x.csv", "--step", "0"], "--step is '0'; expected degrees above 0, such as 0.5 or 1/12"),
        (&["grid", "a", "--out", "x.csv", "--normal", "bessel"], "--normal is 'bessel'; expected grs80, wgs84 or none"),
        (&["grid", "a", "--out", "x.csv", "--degree", "2701"], "--degree is 2701; expected a whole number from 0 to 2700"),
        (
            &["grid", "a", "--out", "x.csv", "--radius", "1", "--ellipsoid", "grs80"],
            "--radius and --ellipsoid are both given; expected one of them",
        ),
        (&["grid", "a", "--out", "x.csv", "--functional", "water-height"], "water-height needs load Love numbers: --love FILE"),
        (&["average", "a", "b", "--radius", "-1"], "--radius is -1; expected a number above 0"),
        (&["caps", "--degree", "4"], "--angle DEG is missing; see geoid caps --help"),
        (&["sample", "x", "--seed", "one"], "--seed is 'one'; expected a whole number from 0"),
    ];
    for (words, expected) in cases {
        assert_eq!(geoid(words), Err(expected.to_string()));
    }
}

#[test]
fn functionals_are_listed_where_one_is_unknown() {
    let error = geoid(&["info", "a", "--functional", "height"]).unwrap_err();
    assert!(error.starts_with("unknown functional 'height'; expected one of potential, geoid-height,"), "{error}");
}

#[test]
fn a_model_goes_to_text_and_back() {
    let folder = Folder::new();
    let [first, text, second] = ["first.model", "text.gfc", "second.model"].map(|name| folder.file(name));
    assert!(geoid(&["sample", &first, "--degree", "20"]).unwrap().contains("synthetic, no model of the Earth"));
    assert_eq!(geoid(&["convert", &first, &text]).unwrap(), format!("{text}: degree 20, 231 pairs\n"));
    geoid(&["convert", &text, &second]).unwrap();
    assert_eq!(fs::read(&first).unwrap(), fs::read(&second).unwrap());
    assert_eq!(geoid(&["info", &text]).unwrap(), format!("model        text\n{}", geoid(&["info", &first]).unwrap()));
}

#[test]
fn damaged_files_are_named() {
    let folder = Folder::new();
    let [model, out] = ["m.model", "out.model"].map(|name| folder.file(name));
    geoid(&["sample", &model, "--degree", "3"]).unwrap();
    let whole = fs::read(&model).unwrap();
    let refused = |bytes: &[u8]| {
        fs::write(&model, bytes).unwrap();
        geoid(&["convert", &model, &out]).unwrap_err()
    };
    assert!(refused(&whole[..whole.len() - 1]).starts_with(&format!("{model}: refused (6 SHORT)")));
    assert!(refused(&[&whole[..], &[0]].concat()).starts_with(&format!("{model}: refused (8 AFTER)")));
    assert!(refused(b"").starts_with(&format!("{model}: the file is empty; expected a model file, ICGEM text (.gfc) or ")));
    assert!(geoid(&["convert", &folder.file("absent"), &out]).unwrap_err().contains("absent: cannot be read: "));
    assert!(!fs::exists(&out).unwrap());
}

#[test]
fn files_are_written_whole_or_not_at_all() {
    let folder = Folder::new();
    let text = folder.file("x.gfc");
    geoid(&["sample", &text, "--degree", "2"]).unwrap();
    let before = fs::read(&text).unwrap();
    // A NaN has no place in the text; the older file stays.
    let model = folder.file("nan.model");
    let mut field = geopotential::Coefficients::zeros(1.0, 1.0, 1);
    field.set(1, 0, f64::NAN, 0.0);
    fs::write(&model, geopotential::model_file::write(&field).unwrap()).unwrap();
    assert!(geoid(&["convert", &model, &text]).unwrap_err().contains("C of the pair (1, 0) is NaN"));
    assert_eq!(fs::read(&text).unwrap(), before);
    assert!(geoid(&["sample", &folder.file("no/such/folder.model")]).unwrap_err().contains("cannot be written: "));
    assert!(geoid(&["sample", folder.path().to_str().unwrap()]).unwrap_err().contains("is a folder"));
    assert_eq!(fs::read_dir(folder.path()).unwrap().count(), 2, "no temporary file is left");
}

#[test]
fn grids_as_text() {
    let folder = Folder::new();
    let [model, csv, asc] = ["m.model", "g.csv", "g.asc"].map(|name| folder.file(name));
    geoid(&["sample", &model, "--degree", "8"]).unwrap();
    let options = ["--region", "-10/20/30/50", "--step", "10", "--functional", "gravity-disturbance"];
    assert_eq!(geoid(&[&["grid", &model, "--out", &csv][..], &options].concat()).unwrap(), format!("{csv}: 3 x 4 values in m/s²\n"));
    geoid(&[&["grid", &model, "--out", &asc][..], &options].concat()).unwrap();
    let lines: Vec<String> = fs::read_to_string(&csv).unwrap().lines().map(String::from).collect();
    assert_eq!((lines.len(), lines[0].as_str()), (13, "lat,lon,z"));
    assert!(lines[1].starts_with("50,-10,") && lines[2].starts_with("50,0,") && lines[12].starts_with("30,20,"));
    let grid = fs::read_to_string(&asc).unwrap();
    let (head, rows) = grid.split_once("NODATA_value -9999\n").unwrap();
    assert_eq!(head, "ncols 4\nnrows 3\nxllcenter -10\nyllcenter 30\ncellsize 10\n");
    let listed: Vec<&str> = lines[1..].iter().map(|line| line.rsplit(',').next().unwrap()).collect();
    assert_eq!(rows.split_whitespace().collect::<Vec<_>>(), listed);
}

#[test]
fn grids_have_the_librarys_bits() {
    let folder = Folder::new();
    let [model, csv] = ["m.model", "g.csv"].map(|name| folder.file(name));
    geoid(&["sample", &model, "--degree", "12"]).unwrap();
    geoid(&["grid", &model, "--out", &csv, "--step", "30", "--normal", "none", "--radius", "6.5e6"]).unwrap();
    let field = geopotential::model_file::read(&fs::read(&model).unwrap()).unwrap();
    for line in fs::read_to_string(&csv).unwrap().lines().skip(1) {
        let [lat, lon, value] = line.split(',').map(|x| x.parse::<f64>().unwrap()).collect::<Vec<_>>()[..] else { panic!("{line}") };
        let expected = field.grid(&geopotential::Functional::GeoidHeight, 6.5e6, &[lat.to_radians()], &[lon.to_radians()]);
        assert_eq!([value], expected[..]);
    }
}

#[test]
fn averages_over_the_sphere_and_a_cap() {
    let folder = Folder::new();
    let [field, kernel, love] = ["f.gfc", "k.gfc", "love.txt"].map(|name| folder.file(name));
    let head = "earth_gravity_constant 8\nradius 2\nmax_degree 1\nend_of_head\n";
    fs::write(&field, format!("{head}gfc 0 0 0.5 0\ngfc 1 0 0.25 0\ngfc 1 1 0 0\n")).unwrap();
    fs::write(&kernel, format!("{head}gfc 0 0 0.5 0\ngfc 1 0 0.5 0\ngfc 1 1 0 0\n")).unwrap();
    // r(0.5·0.5 + 0.25·0.5)/0.5 with r = 2.
    let average = |options: &[&str]| geoid(&[&["average", &field, &kernel, "--any-body"][..], options].concat());
    assert_eq!(average(&[]).unwrap(), "1.5\n");
    assert_eq!(average(&["--functional", "potential", "--radius", "4"]).unwrap(), "1.25\n");
    fs::write(&love, "0 0.0\n").unwrap();
    let short = average(&["--functional", "water-height", "--love", &love]).unwrap_err();
    assert_eq!(short, format!("refused (5 LOVE): {love} has 1 load Love numbers; degree 1 needs 2"));
    fs::write(&love, "0 0.0\n1 0.027\n").unwrap();
    let water: f64 = average(&["--functional", "water-height", "--love", &love]).unwrap().trim().parse().unwrap();
    let factor = |n: f64, k: f64| 2.0 * 5517.0 / 3000.0 * (2.0 * n + 1.0) / (1.0 + k);
    assert!((water - (0.5 * factor(0.0, 0.0) + 0.25 * factor(1.0, 0.027))).abs() < 1e-14);
}

#[test]
fn caps_are_ranked() {
    let folder = Folder::new();
    let csv = folder.file("caps.csv");
    let text = geoid(&["caps", "--degree", "18", "--angle", "40", "--top", "3", "--out", &csv]).unwrap();
    assert!(text.contains("Shannon number 42.228978"), "{text}");
    assert_eq!(text.lines().filter(|line| line.trim_start().starts_with(['1', '2', '3', '4'])).count(), 3);
    let lines: Vec<String> = fs::read_to_string(&csv).unwrap().lines().map(String::from).collect();
    assert_eq!(lines.len(), 4);
    assert!(lines[0].starts_with("rank,order,concentration,c0,c1,"));
    assert!(lines.iter().all(|line| line.split(',').count() == 3 + 19));
    // The best of a large cap lack so little of 1 that twelve digits don't show it.
    let large = geoid(&["caps", "--degree", "30", "--angle", "90", "--top", "2"]).unwrap();
    let second = large.lines().rev().nth(1).unwrap();
    assert!(second.contains("  1 - ") || second.contains("  1 + "), "{large}");
    assert!(geoid(&["caps", "--degree", "181", "--angle", "40"]).unwrap_err().contains("from 0 to 180"));
}

#[test]
fn caps_tell_whether_their_orders_settled() {
    let folder = Folder::new();
    let csv = folder.file("caps.csv");
    let caps = |words: &[&str]| geoid(&[&["caps"], words].concat()).unwrap();
    let text = caps(&["--degree", "18", "--angle", "40", "--top", "2", "--out", &csv]);
    let end = ["     2      1  0.999999967851", "all 19 orders settled (at most 7 sweeps)", &format!("{csv}: 2 functions")];
    assert!(text.ends_with(&format!("\n{}\n", end.join("\n"))), "{text}");
    assert!(!fs::read_to_string(&csv).unwrap().contains("settle"), "the file is as it was");
    assert!(caps(&["--degree", "0", "--angle", "40"]).ends_with("\nthe one order settled (at most 0 sweeps)\n"));
    // Above degree 31 the first orders go by rounds; how many depends on the last bits.
    let text = caps(&["--degree", "40", "--angle", "40"]);
    let line = text.lines().last().unwrap();
    assert!(line.starts_with("all 41 orders settled (at most ") && line.contains(" sweeps, ") && line.ends_with(" rounds)"), "{line}");
    assert!(geoid(&["caps", "--help"]).unwrap().contains("an order that did not settle still has its functions"));
}

#[test]
fn maps_are_png_files() {
    let folder = Folder::new();
    let [model, png] = ["m.model", "g.png"].map(|name| folder.file(name));
    geoid(&["sample", &model, "--degree", "8"]).unwrap();
    geoid(&["grid", &model, "--out", &png, "--step", "5", "--ellipsoid", "wgs84", "--normal", "wgs84"]).unwrap();
    assert!(fs::read(&png).unwrap().starts_with(b"\x89PNG"));
}

#[test]
fn the_program_answers_by_its_status() {
    let run = |words: &[&str]| Command::new(env!("CARGO_BIN_EXE_geoid")).args(words).output().unwrap();
    let good = run(&["--version"]);
    assert!(good.status.success() && good.stderr.is_empty());
    let usage = run(&["grid", "x", "--colour", "red"]);
    assert_eq!(usage.status.code(), Some(2));
    assert_eq!(String::from_utf8(usage.stderr).unwrap(), "geoid: unknown option '--colour'; see geoid grid --help\n");
    let failure = run(&["info", "no\nsuch file"]);
    assert_eq!(failure.status.code(), Some(1));
    let line = String::from_utf8(failure.stderr).unwrap();
    assert!(line.starts_with("geoid: no?such file: cannot be read: ") && line.lines().count() == 1, "{line}");
    assert!(failure.stdout.is_empty());
}

#[test]
fn absent_pairs_are_noted() {
    let folder = Folder::new();
    let [text, out] = ["x.gfc", "x.model"].map(|name| folder.file(name));
    fs::write(&text, "earth_gravity_constant 1\nradius 1\nmax_degree 2\nend_of_head\ngfc 0 0 1 0\n").unwrap();
    assert!(geoid(&["convert", &text, &out]).unwrap_err().contains("the pair (1, 0) is absent (and 4 more)"));
    let done = Command::new(env!("CARGO_BIN_EXE_geoid")).args(["convert", &text, &out, "--absent-as-zero"]).output().unwrap();
    assert!(done.status.success());
    assert_eq!(String::from_utf8(done.stderr).unwrap(), format!("geoid: note: {text}: 5 of 6 pairs are absent and taken as 0\n"));
}

#[test]
#[cfg(unix)]
fn what_is_no_ordinary_file_is_not_replaced() {
    use std::os::unix::fs::FileTypeExt;
    let folder = Folder::new();
    let socket = folder.file("socket");
    let _listener = std::os::unix::net::UnixListener::bind(&socket).unwrap();
    assert!(geoid(&["sample", &socket, "--degree", "2"]).unwrap_err().contains("socket: cannot be written: "));
    assert!(fs::metadata(&socket).unwrap().file_type().is_socket());
}
