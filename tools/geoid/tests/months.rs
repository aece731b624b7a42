//! The desks' monthly question: this month against another, over many basins.

mod support;

use std::fs;
use std::process::Command;

use geopotential::slepian::basin_average;
use geopotential::{Coefficients, Functional, TideSystem, model_file};
use support::{Folder, geoid};

const GM: f64 = 3.986004415e14;
const RADIUS: f64 = 6378136.3;

/// Load Love numbers of the size of the real ones, to degree 96.
fn love() -> Vec<f64> {
    (0..=96).map(|n| if n == 0 { 0.0 } else { -0.31 / (1.0 + 0.1 * n as f64) }).collect()
}

fn write_love(path: &str) {
    let lines: Vec<String> = love().iter().enumerate().map(|(n, k)| format!("{n} {k}")).collect();
    fs::write(path, lines.join("\n") + "\n").unwrap();
}

/// A month: the same mean field each time, and some water of its own.
fn month(degree: usize, seed: u64) -> Coefficients {
    let mut field = geoid::sample::sample(degree, 1).unwrap().rescaled(GM, RADIUS);
    field.tide_system = TideSystem::ZeroTide;
    let water = geoid::sample::sample(degree, seed).unwrap();
    for n in 2..=degree {
        for m in 0..=n {
            field.set(n, m, field.c(n, m) + 1e-5 * water.c(n, m), field.s(n, m) + 1e-5 * water.s(n, m));
        }
    }
    field
}

/// A basin's kernel: of a round basin, turned to a longitude.
fn kernel(degree: usize, share: f64, longitude: f64) -> Coefficients {
    let mut kernel = Coefficients::zeros(1.0, 1.0, degree);
    for n in 0..=degree {
        let size = share * (-0.01 * (n * n) as f64).exp();
        for m in 0..=n {
            let (sin, cos) = (m as f64 * longitude).sin_cos();
            kernel.set(n, m, size * cos, size * sin);
        }
    }
    kernel
}

fn write(path: &str, field: &Coefficients) {
    fs::write(path, model_file::write(field).unwrap()).unwrap();
}

fn read(path: &str) -> Coefficients {
    model_file::read(&fs::read(path).unwrap()).unwrap()
}

#[test]
fn one_field_less_another_has_the_first_ones_constants() {
    let folder = Folder::new();
    let [a, b, out] = ["a.model", "b.model", "d.model"].map(|name| folder.file(name));
    let (first, second) = (month(12, 2), month(12, 3));
    write(&a, &first);
    // The other month in another centre's constants: the potential is the same.
    let rescaled = second.rescaled(3.986004418e14, 6378137.0);
    write(&b, &rescaled);
    let text = geoid(&["subtract", &a, &b, "--out", &out]).unwrap();
    assert_eq!(text, format!("{out}: degree 12, 91 pairs, {a} less {b}\n"));
    let rest = read(&out);
    assert_eq!((rest.gm, rest.radius, rest.tide_system), (GM, RADIUS, TideSystem::ZeroTide));
    let again = rescaled.rescaled(GM, RADIUS);
    for n in 0..=12 {
        for m in 0..=n {
            assert_eq!((rest.c(n, m), rest.s(n, m)), (first.c(n, m) - again.c(n, m), first.s(n, m) - again.s(n, m)));
            assert!((rest.c(n, m) - (first.c(n, m) - second.c(n, m))).abs() < 1e-15);
        }
    }
}

#[test]
fn two_centres_masses_are_told() {
    let folder = Folder::new();
    let [a, b, out] = ["a.model", "b.model", "d.model"].map(|name| folder.file(name));
    let (first, mut second) = (month(4, 2), month(4, 2));
    // The same coefficients with another GM: its own C(0,0) is 1 too.
    second.gm = 3.986004418e14;
    write(&a, &first);
    write(&b, &second);
    let run = |options: &[&str]| {
        let words = [&["subtract", &a, &b, "--out", &out], options].concat();
        let output = Command::new(env!("CARGO_BIN_EXE_geoid")).args(words).output().unwrap();
        (read(&out).c(0, 0), String::from_utf8(output.stderr).unwrap())
    };
    let (kept, notes) = run(&[]);
    assert!((kept + 7.526e-10).abs() < 1e-12);
    assert!(notes.contains("the fields' GM differ, and C(0,0) of their difference is -7.5") && notes.contains("-8.8"), "{notes}");
    assert_eq!(run(&["--zero-degree", "drop"]).0, 0.0);
}

#[test]
fn months_that_do_not_match_are_refused_unless_told() {
    let folder = Folder::new();
    let [a, b, free, out] = ["a.model", "b.model", "free.model", "d.model"].map(|name| folder.file(name));
    write(&a, &month(12, 2));
    write(&b, &month(8, 3));
    let mut tide_free = month(12, 3);
    tide_free.tide_system = TideSystem::TideFree;
    write(&free, &tide_free);
    let subtract = |b: &str, options: &[&str]| geoid(&[&["subtract", &a, b, "--out", &out], options].concat());
    let error = subtract(&b, &[]).unwrap_err();
    assert_eq!(error, format!("{a} has degree 12, {b} degree 8; --degree smaller (or a number) cuts both to the same"));
    assert!(subtract(&b, &["--degree", "9"]).unwrap_err().ends_with("expected at most 8"));
    assert!(!fs::exists(&out).unwrap());
    subtract(&b, &["--degree", "smaller"]).unwrap();
    assert_eq!(read(&out).max_degree(), 8);
    subtract(&b, &["--degree", "5"]).unwrap();
    assert_eq!(read(&out).max_degree(), 5);
    let error = subtract(&free, &[]).unwrap_err();
    assert!(error.contains("a.model is zero tide") && error.contains("free.model tide-free: C(2,0) would differ by the permanent tide"));
    subtract(&free, &["--tide-as-is"]).unwrap();
    assert!(geoid(&["average", &a, &a, "--minus", &free]).unwrap_err().contains("--tide-as-is subtracts them as they are"));
    assert_eq!(geoid(&["subtract", &a, &b]).unwrap_err(), "--out D is missing; see geoid subtract --help");
}

/// One field less another of the same degree.
fn difference(first: &Coefficients, second: &Coefficients) -> Coefficients {
    let mut change = first.clone();
    for n in 0..=first.max_degree() {
        for m in 0..=n {
            change.set(n, m, first.c(n, m) - second.c(n, m), first.s(n, m) - second.s(n, m));
        }
    }
    change
}

#[test]
fn many_basins_make_one_table() {
    let folder = Folder::new();
    let [a, b, numbers, table] = ["a.model", "b.model", "love.txt", "basins.csv"].map(|name| folder.file(name));
    let (first, second) = (month(40, 2), month(40, 3));
    write(&a, &first);
    write(&b, &second);
    write_love(&numbers);
    let names = ["Amazon", "Ob", "Murray, Darling"];
    let kernels = [kernel(40, 0.0115, 1.0), kernel(30, 0.0058, 2.0), kernel(60, 0.0021, 3.0)];
    let paths = names.map(|name| folder.file(&format!("{name}.model")));
    paths.iter().zip(&kernels).for_each(|(path, kernel)| write(path, kernel));
    let [amazon, ob, murray] = paths.each_ref().map(String::as_str);
    let options = ["--minus", &b, "--functional", "water-height", "--love", &numbers];
    let text = geoid(&[&["average", &a, amazon, ob, murray], &options[..]].concat()).unwrap();
    let (change, love) = (difference(&first, &second), love());
    let mean = |kernel| 1e3 * basin_average(&change, kernel, &Functional::WaterHeight { love: &love }, RADIUS);
    let expected = format!(
        "name,average (mm of water),share of the sphere,degree used\nAmazon,{:?},0.0115,40\nOb,{:?},0.0058,30\n\"Murray, Darling\",{:?},0.0021,40\n",
        mean(&kernels[0]),
        mean(&kernels[1]),
        mean(&kernels[2])
    );
    assert_eq!(text, expected);
    let told = geoid(&[&["average", &a, amazon, ob, murray, "--out", &table], &options[..]].concat()).unwrap();
    assert_eq!(told, format!("{table}: 3 averages in mm of water\n"));
    assert_eq!(fs::read_to_string(&table).unwrap(), expected);
    // One kernel alone answers the library's number, in metres.
    let one: f64 = geoid(&[&["average", &a, ob], &options[..]].concat()).unwrap().trim().parse().unwrap();
    assert_eq!(1e3 * one, mean(&kernels[1]));
    // A subtraction first gives the same bits.
    let d = folder.file("d.model");
    geoid(&["subtract", &a, &b, "--out", &d]).unwrap();
    assert_eq!(geoid(&[&["average", &d, amazon, ob, murray], &options[2..]].concat()).unwrap(), expected);
}

#[test]
fn tables_of_other_functionals_are_in_their_si_unit() {
    let folder = Folder::new();
    let [a, one, two] = ["a.model", "k1.model", "k2.model"].map(|name| folder.file(name));
    write(&a, &month(12, 2));
    write(&one, &kernel(12, 0.5, 0.0));
    write(&two, &kernel(12, 0.25, 1.0));
    let text = geoid(&["average", &a, &one, &two, "--functional", "gravity-disturbance", "--degree", "9"]).unwrap();
    assert!(text.starts_with("name,average (m/s²),share of the sphere,degree used\nk1,"), "{text}");
    assert!(text.lines().skip(1).all(|line| line.ends_with(",9")), "{text}");
    assert!(geoid(&["average", &a]).unwrap_err().starts_with("KERNEL is missing"));
    assert_eq!(geoid(&["average", &a, &one, "--degree", "13"]).unwrap_err(), format!("--degree is 13, but {a} has degree 12"));
    // A kernel that is wrong is named, and no table is written.
    let out = folder.file("t.csv");
    assert!(geoid(&["average", &a, &one, &a, "--out", &out]).unwrap_err().starts_with(&format!("{a}: its GM is")));
    assert_eq!(fs::read_dir(folder.path()).unwrap().count(), 3);
}
