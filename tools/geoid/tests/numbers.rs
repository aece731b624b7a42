//! No wrong number is handed out quietly: the normal field, heights, and what is refused.

mod support;

use std::fs;
use std::process::Command;

use geoid::normal::{GRS80, NormalGravity, WGS84};
use geopotential::{Coefficients, Functional, model_file};
use support::{Folder, geoid};

const GM: f64 = 3.986004415e14;
const RADIUS: f64 = 6378136.3;

/// A file of a field whose first coefficients are those of a real model, to degree 2.
fn write(path: &str, gm: f64, radius: f64, first: f64) {
    let mut field = Coefficients::zeros(gm, radius, 2);
    field.set(0, 0, first, 0.0);
    field.set(2, 0, -4.84165217061e-4, 0.0);
    field.set(2, 2, 2.43938e-6, -1.40027e-6);
    fs::write(path, model_file::write(&field).unwrap()).unwrap();
}

/// A kernel's file: the share of the sphere, and a part of degree 1.
fn write_kernel(path: &str, share: f64) {
    let mut kernel = Coefficients::zeros(1.0, 1.0, 2);
    kernel.set(0, 0, share, 0.0);
    kernel.set(1, 0, share / 2.0, 0.0);
    fs::write(path, model_file::write(&kernel).unwrap()).unwrap();
}

/// Standard output and standard error of the program.
fn texts(words: &[&str]) -> (String, String) {
    let output = Command::new(env!("CARGO_BIN_EXE_geoid")).args(words).output().unwrap();
    assert!(output.status.success(), "{words:?}: {}", String::from_utf8_lossy(&output.stderr));
    (String::from_utf8(output.stdout).unwrap(), String::from_utf8(output.stderr).unwrap())
}

fn field_of(path: &str) -> Coefficients {
    model_file::read(&fs::read(path).unwrap()).unwrap()
}

/// The values of a .csv file.
fn values(path: &str) -> Vec<f64> {
    fs::read_to_string(path).unwrap().lines().skip(1).map(|line| line.rsplit(',').next().unwrap().parse().unwrap()).collect()
}

#[test]
fn grid_and_average_take_the_same_normal_field_off() {
    let folder = Folder::new();
    let [model, sphere, csv] = ["m.model", "sphere.model", "g.csv"].map(|name| folder.file(name));
    write(&model, GM, RADIUS, 1.0);
    let mut kernel = Coefficients::zeros(1.0, 1.0, 0);
    kernel.set(0, 0, 1.0, 0.0);
    fs::write(&sphere, model_file::write(&kernel).unwrap()).unwrap();
    for (options, expected) in [(&[][..], Some(GRS80)), (&["--normal", "wgs84"], Some(WGS84)), (&["--normal", "none"], None)] {
        // The mean over the whole sphere is degree 0 alone.
        let first = 1.0 - expected.map_or(0.0, |normal: NormalGravity| normal.gm / GM);
        let average: f64 = texts(&[&["average", &model, &sphere][..], options].concat()).0.trim().parse().unwrap();
        assert!((average - first * RADIUS).abs() < 1e-8, "{options:?}: {average}");
        // A grid of degree 0 is the same number.
        geoid(&[&["grid", &model, "--out", &csv, "--step", "90", "--degree", "0"][..], options].concat()).unwrap();
        assert!(values(&csv).iter().all(|value| (value - average).abs() < 1e-8), "{options:?}");
    }
}

#[test]
fn what_is_taken_off_is_told() {
    let folder = Folder::new();
    let [month, change, kernel, csv, love] = ["m.model", "d.model", "k.model", "g.csv", "l.txt"].map(|name| folder.file(name));
    write(&month, GM, RADIUS, 1.0);
    write(&change, GM, RADIUS, 0.0);
    write_kernel(&kernel, 0.1);
    fs::write(&love, "0 0.0\n1 0.027\n2 -0.303\n").unwrap();
    let water = ["--functional", "water-height", "--love", &love];
    for command in [vec!["average", &month, &kernel], vec!["grid", &month, "--out", &csv, "--step", "90"]] {
        let mut words = command;
        let mut notes = |file, options: &[&str]| {
            words[1] = file;
            texts(&[&words[..], options].concat()).1
        };
        let taken = "geoid: note: the normal field GRS80 is taken off (--normal says otherwise)\n";
        assert!(notes(&month, &[]).starts_with(taken));
        let whole = notes(&month, &water);
        assert!(whole.contains("no normal field is taken off: that is the rule of water heights"));
        assert!(whole.contains("C(0,0) is 1: the water height of a whole field is no change of water; expected a difference"));
        assert!(!notes(&change, &water).contains("whole field"));
        assert!(notes(&change, &[]).contains("no normal field is taken off: C(0,0) is 0, as of a difference of fields"));
        assert!(notes(&change, &["--normal", "grs80"]).contains("a whole normal field is taken off it"));
        assert!(!notes(&month, &["--normal", "none"]).contains("taken off"));
    }
}

#[test]
fn water_heights_and_differences_keep_their_even_zonals() {
    let folder = Folder::new();
    let [change, csv] = ["d.model", "g.csv"].map(|name| folder.file(name));
    write(&change, GM, RADIUS, 0.0);
    geoid(&["grid", &change, "--out", &csv, "--step", "90"]).unwrap();
    let expected = field_of(&change).grid(&Functional::GeoidHeight, RADIUS, &[90f64.to_radians()], &[(-180f64).to_radians()]);
    assert_eq!(values(&csv)[0], expected[0]);
}

#[test]
fn heights_by_the_ellipsoid_are_the_librarys_times_one_factor() {
    let folder = Folder::new();
    let [model, csv] = ["m.model", "g.csv"].map(|name| folder.file(name));
    geoid(&["sample", &model, "--degree", "12"]).unwrap();
    let grid = |options: &[&str]| {
        let words = [&["grid", &model, "--out", &csv, "--step", "30", "--ellipsoid", "grs80"], options].concat();
        let notes = texts(&words).1;
        (values(&csv), notes)
    };
    let (by_ellipsoid, notes) = grid(&[]);
    assert!(notes.contains("heights are the library's times one factor a row, (GM/r²)/γ with γ the normal gravity of GRS80"), "{notes}");
    assert!(
        notes.contains(
            "the margin is proved of the library's (finite; coefficients, cosines and sines up to 1 in size, as the tool's \
             cosines and sines should be), and geoid average has no such factor"
        ),
        "{notes}"
    );
    assert_eq!(by_ellipsoid, grid(&["--gamma", "ellipsoid"]).0);
    let (by_sphere, notes) = grid(&["--gamma", "sphere"]);
    assert!(!notes.contains("factor"), "{notes}");
    let rest = GRS80.taken_from(&field_of(&model)).unwrap();
    for (place, (ellipsoid, sphere)) in by_ellipsoid.iter().zip(&by_sphere).enumerate() {
        let (row, column) = (place / 13, place % 13);
        let geodetic = (90.0 - 30.0 * row as f64).to_radians();
        let (latitude, r) = GRS80.geocentric(geodetic);
        let longitude = (-180.0 + 30.0 * column as f64).to_radians();
        assert_eq!(rest.grid(&Functional::GeoidHeight, r, &[latitude], &[longitude]), [*sphere]);
        let potential = rest.grid(&Functional::Potential, r, &[latitude], &[longitude])[0];
        assert!((ellipsoid - potential / GRS80.surface_gravity(geodetic)).abs() < 1e-12);
    }
}

#[test]
fn heights_by_the_ellipsoid_are_those_of_geographiclib() {
    // GeographicLib 2.1.2's `Gravity -H -p 12` of the sample field of degree 96, as a model of its own with the ellipsoid GRS80.
    let known = [(45, -180, 52.472311749325), (45, 60, 31.310477327919), (0, 120, -65.918905230330), (-45, -60, 1.470683657518)];
    let folder = Folder::new();
    let [model, csv] = ["m.model", "g.csv"].map(|name| folder.file(name));
    geoid(&["sample", &model]).unwrap();
    geoid(&["grid", &model, "--out", &csv, "--step", "15", "--ellipsoid", "grs80"]).unwrap();
    let text = fs::read_to_string(&csv).unwrap();
    for (lat, lon, height) in known {
        let start = format!("{lat},{lon},");
        let value: f64 = text.lines().find_map(|line| line.strip_prefix(&start)).unwrap().parse().unwrap();
        assert!((value - height).abs() < 1e-10, "{lat} {lon}: {value}");
    }
}

#[test]
fn the_zero_degree_and_the_geoids_potential_are_told() {
    let folder = Folder::new();
    let [model, csv] = ["m.model", "g.csv"].map(|name| folder.file(name));
    write(&model, GM, RADIUS, 1.0);
    let grid = |options: &[&str]| {
        let notes = texts(&[&["grid", &model, "--out", &csv, "--step", "45", "--ellipsoid", "grs80"], options].concat()).1;
        (values(&csv)[9], notes) // 45 degrees north, 180 west
    };
    let (kept, notes) = grid(&[]);
    assert!(notes.contains("degree 0 is kept: about -0.936 m of every height (--zero-degree drop leaves it out)"), "{notes}");
    let (dropped, notes) = grid(&["--zero-degree", "drop"]);
    assert!(!notes.contains("degree 0 is kept"));
    // (GM - GM0)/(rγ) at 45 degrees: r = 6367489.54 m, γ = 9.806199203 m/s².
    assert!((kept - dropped + 5.85e7 / (6_367_489.54 * 9.806199203)).abs() < 1e-8, "{}", kept - dropped);
    let (raised, notes) = grid(&["--w0", "62636853.4"]);
    assert!(notes.contains("W0 62636853.4 against U0 62636860.850 of GRS80: (W0 - U0)/γ is taken off every height"), "{notes}");
    assert!((raised - kept - 0.759_728).abs() < 1e-6, "{}", raised - kept);
    for (options, expected) in [
        (&["--w0", "62636853.4", "--normal", "none"][..], "--w0 needs a normal field"),
        (&["--w0", "6263685.34"], "expected the geoid's potential in m²/s², near 62636860.850 (U0 of GRS80)"),
        (&["--w0", "62636853.4", "--functional", "potential"], "--w0 is for geoid-height; the functional is potential"),
        (&["--gamma", "ellipsoid"], "--gamma ellipsoid needs --ellipsoid"),
        (&["--gamma", "mean"], "--gamma is 'mean'; expected sphere or ellipsoid"),
        (&["--zero-degree", "none"], "--zero-degree is 'none'; expected keep or drop"),
    ] {
        let error = geoid(&[&["grid", &model, "--out", &csv, "--step", "45"], options].concat()).unwrap_err();
        assert!(error.contains(expected), "{error}");
    }
}

#[test]
fn maps_name_their_gravity_and_their_latitudes() {
    let folder = Folder::new();
    let [model, png] = ["m.model", "g.png"].map(|name| folder.file(name));
    geoid(&["sample", &model, "--degree", "4"]).unwrap();
    let description = |options: &[&str]| {
        geoid(&[&["grid", &model, "--out", &png, "--step", "30"], options].concat()).unwrap();
        String::from_utf8_lossy(&fs::read(&png).unwrap()).into_owned()
    };
    let sphere = description(&[]);
    assert!(sphere.contains(
        "m.model, to degree 4; less the normal field GRS80, degree 0 kept; sphere r = 6378137 m (geocentric latitudes), heights by GM/r"
    ));
    let ellipsoid = description(&["--ellipsoid", "wgs84", "--zero-degree", "drop"]);
    assert!(
        ellipsoid.contains("to degree 4; less the normal field WGS84 and degree 0; ellipsoid WGS84 (geodetic latitudes), heights by its")
    );
    assert!(!description(&["--functional", "gravity-anomaly"]).contains("heights by"));
}

#[test]
fn nonsense_in_a_head_is_refused_by_every_command() {
    let folder = Folder::new();
    let [model, good, kernel, out] = ["m.model", "good.model", "k.model", "out.csv"].map(|name| folder.file(name));
    write(&good, GM, RADIUS, 1.0);
    write_kernel(&kernel, 0.1);
    for (gm, radius, expected) in [
        (GM, RADIUS / 1e3, "its radius is 6378.1363 m (given in km?), more than 1 % from the Earth's 6378137.0"),
        (GM, -RADIUS, "its radius is -6378136.3; expected a number above 0"),
        (0.0, RADIUS, "its GM is 0; expected a number above 0"),
        (GM / 1e9, RADIUS, "its GM is 398600.4415 m³/s² (given in km³/s²?)"),
        (4.902800222e12, 1738000.0, "its GM is 4902800222000.0 m³/s², more than 1 % from the Earth's"),
    ] {
        write(&model, gm, radius, 1.0);
        for words in [
            &["grid", &model, "--out", &out, "--step", "90"][..],
            &["average", &model, &kernel],
            &["average", &good, &kernel, "--minus", &model],
            &["subtract", &good, &model, "--out", &out],
            &["info", &model],
            &["convert", &model, &out],
        ] {
            let error = geoid(words).unwrap_err();
            assert!(error.starts_with(&format!("{model}: {expected}")), "{words:?}: {error}");
        }
    }
    // The Moon, where it is meant.
    assert!(geoid(&["info", &model, "--any-body"]).unwrap().contains("radius       1738000 m"));
    assert!(
        texts(&["average", &model, &kernel, "--any-body"]).1.contains("no normal field is taken off: GM and radius are not the Earth's")
    );
}

#[test]
fn fields_and_kernels_are_told_apart() {
    let folder = Folder::new();
    let [field, kernel, empty, out] = ["f.model", "k.model", "zero.model", "out.csv"].map(|name| folder.file(name));
    write(&field, GM, RADIUS, 1.0);
    write_kernel(&kernel, 0.1);
    write_kernel(&empty, 0.0);
    let kernels_head = "its head has GM 1 and radius 1: a kernel's or a region function's, not a field's";
    assert!(geoid(&["average", &kernel, &field]).unwrap_err().contains(kernels_head));
    assert!(geoid(&["grid", &kernel, "--out", &out]).unwrap_err().contains(kernels_head));
    assert!(geoid(&["average", &field, &field]).unwrap_err().contains("a field's, not a kernel's (FIELD stands before KERNEL)"));
    assert!(geoid(&["average", &field, &empty]).unwrap_err().contains("its C(0,0) is 0: a kernel that covers nothing has no average"));
    // A kernel may be looked at, converted and, where it is meant, drawn.
    geoid(&["info", &kernel]).unwrap();
    geoid(&["convert", &kernel, folder.path().join("k.gfc").to_str().unwrap()]).unwrap();
    geoid(&["grid", &kernel, "--out", &out, "--step", "90", "--functional", "potential", "--any-body"]).unwrap();
    assert!((values(&out)[0] - (0.1 + 0.05 * 3f64.sqrt())).abs() < 1e-15);
}

#[test]
fn love_numbers_that_divide_by_nothing_are_refused() {
    let folder = Folder::new();
    let [field, kernel, love] = ["f.model", "k.model", "love.txt"].map(|name| folder.file(name));
    write(&field, GM, RADIUS, 1.0);
    write_kernel(&kernel, 0.1);
    let refused = |numbers: &str| {
        fs::write(&love, numbers).unwrap();
        geoid(&["average", &field, &kernel, "--functional", "water-height", "--love", &love]).unwrap_err()
    };
    assert!(refused("0 0\n1 -1.0\n2 -0.303\n").starts_with(&format!("{love}: k' of degree 1 is -1; a water height divides by 1 + k'")));
    assert!(refused("0 0\n1 0.027\n2 -1\n").contains("k' of degree 2 is -1; a water height divides by 1 + k', expected k' above -1"));
    assert!(refused("0 0\n1 -0.29\n2 -1.001\n").contains("h' has such numbers"));
    assert_eq!(refused("0 0\n1 0.027\n"), format!("refused (5 LOVE): {love} has 2 load Love numbers; degree 2 needs 3"));
}

#[test]
fn a_radius_in_kilometres_is_refused_as_an_option_too() {
    let folder = Folder::new();
    let [field, kernel, out] = ["f.model", "k.model", "out.csv"].map(|name| folder.file(name));
    write(&field, GM, RADIUS, 1.0);
    write_kernel(&kernel, 0.1);
    for words in [&["grid", &field, "--out", &out][..], &["average", &field, &kernel]] {
        let error = geoid(&[words, &["--radius", "6378.137"]].concat()).unwrap_err();
        assert!(error.starts_with("--radius is 6378.137 m (given in km?), deep below the field's own 6378136.3"), "{error}");
    }
}
