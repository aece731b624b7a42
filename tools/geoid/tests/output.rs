//! Files that are written: through links, by names that are no text, whole or not at all when a signal comes; and grids that are not
//! all finite.
#![cfg(unix)]

mod support;

use std::ffi::OsString;
use std::fs;
use std::os::unix::ffi::OsStringExt;
use std::os::unix::fs::symlink;
use std::os::unix::process::ExitStatusExt;
use std::path::Path;
use std::process::{Command, Stdio};
use std::time::{Duration, Instant};

use geopotential::{Coefficients, model_file};
use support::{Folder, geoid};

/// A model file with one coefficient that is no number.
fn strange_model(path: &str, value: f64) {
    let mut field = Coefficients::zeros(3.986004415e14, 6378136.3, 2);
    field.set(0, 0, 1.0, 0.0);
    field.set(2, 1, value, 0.0);
    fs::write(path, model_file::write(&field).unwrap()).unwrap();
}

#[test]
fn a_grid_says_how_many_values_are_not_finite() {
    let folder = Folder::new();
    let [model, csv, asc, png] = ["m.model", "g.csv", "g.asc", "g.png"].map(|name| folder.file(name));
    strange_model(&model, f64::NAN);
    for out in [&csv, &asc, &png] {
        let said = geoid(&["grid", &model, "--out", out, "--step", "45"]).unwrap();
        assert_eq!(said, format!("{out}: 5 x 9 values in m; 45 of 45 values are not finite (45 NaN, 0 infinite)\n"));
    }
    let piece = folder.file("1.rows");
    let said = geoid(&["grid", &model, "--out", &piece, "--step", "45", "--rows", "1/2"]).unwrap();
    assert_eq!(said, format!("{piece}: rows 1 to 2 of 5; 18 of 18 values are not finite (18 NaN, 0 infinite)\n"));
    strange_model(&model, f64::INFINITY);
    let said = geoid(&["grid", &model, "--out", &csv, "--step", "45"]).unwrap();
    assert!(said.contains("values are not finite ("), "{said}");
    let count = |text: &str| fs::read_to_string(&csv).unwrap().lines().filter(|line| line.ends_with(text)).count();
    assert!(said.contains(&format!("({} NaN, {} infinite)", count("NaN"), count("inf"))), "{said}");
    geoid(&["sample", &model, "--degree", "2"]).unwrap();
    assert!(!geoid(&["grid", &model, "--out", &csv, "--step", "45"]).unwrap().contains("finite"));
}

#[test]
fn a_link_stays_a_link() {
    let folder = Folder::new();
    let [link, hop, target] = ["link.gfc", "hop", "data/real.gfc"].map(|name| folder.file(name));
    fs::create_dir(folder.file("data")).unwrap();
    symlink("hop", &link).unwrap();
    symlink("data/real.gfc", &hop).unwrap();
    // First the file that the links name does not exist, then it is replaced.
    for degree in ["2", "3"] {
        geoid(&["sample", &link, "--degree", degree]).unwrap();
        assert!(fs::symlink_metadata(&link).unwrap().is_symlink() && fs::symlink_metadata(&hop).unwrap().is_symlink());
        assert!(fs::symlink_metadata(&target).unwrap().is_file());
        assert!(geoid(&["info", &target]).unwrap().contains(&format!("\ndegree       {degree}\n")));
    }
    assert_eq!(fs::read_dir(folder.path().join("data")).unwrap().count(), 1);
    let circle = folder.file("circle");
    symlink("circle", &circle).unwrap();
    assert!(geoid(&["sample", &circle]).unwrap_err().contains("circle: cannot be written: "));
}

#[test]
fn names_that_are_no_text() {
    let folder = Folder::new();
    let model = folder.file("m.model");
    geoid(&["sample", &model, "--degree", "2"]).unwrap();
    let name = OsString::from_vec([folder.path().as_os_str().as_encoded_bytes(), b"/g\xe9o=\xff.csv"].concat());
    let mut joined = OsString::from("--out=");
    joined.push(&name);
    let words = [OsString::from("grid"), model.into(), joined, "--step=90".into()];
    geoid::commands::run(words.to_vec()).unwrap();
    assert!(fs::read_to_string(Path::new(&name)).unwrap().lines().count() > 15);
}

/// Names in a folder that are parts of files.
fn parts(folder: &Folder) -> usize {
    let names = fs::read_dir(folder.path()).unwrap().map(|entry| entry.unwrap().file_name());
    names.filter(|name| name.to_string_lossy().ends_with(".part")).count()
}

/// Whether a signal is ignored here, and so by the programs that are started here (a job in the background may ignore 1 and 2).
fn is_ignored(number: u32) -> bool {
    let status = fs::read_to_string("/proc/self/status").unwrap_or_default();
    let mask = status.lines().find_map(|line| line.strip_prefix("SigIgn:")).and_then(|mask| u64::from_str_radix(mask.trim(), 16).ok());
    mask.is_some_and(|mask| mask >> (number - 1) & 1 == 1)
}

#[test]
fn a_signal_leaves_nothing_behind() {
    let folder = Folder::new();
    let [model, csv] = ["m.model", "g.csv"].map(|name| folder.file(name));
    geoid(&["sample", &model, "--degree", "2"]).unwrap();
    fs::write(&csv, "older").unwrap();
    for (name, number) in [("TERM", 15), ("INT", 2), ("HUP", 1)].into_iter().filter(|&(_, number)| !is_ignored(number)) {
        let words = ["grid", &model, "--out", &csv, "--step", "1/8"];
        let mut run = Command::new(env!("CARGO_BIN_EXE_geoid")).args(words).stderr(Stdio::null()).spawn().unwrap();
        let start = Instant::now();
        while parts(&folder) == 0 {
            assert!(start.elapsed() < Duration::from_secs(120) && run.try_wait().unwrap().is_none(), "no part file was seen");
            std::thread::sleep(Duration::from_millis(1));
        }
        assert!(Command::new("kill").args(["-s", name, &run.id().to_string()]).status().unwrap().success());
        assert_eq!(run.wait().unwrap().signal(), Some(number as i32));
        assert_eq!(parts(&folder), 0);
        assert_eq!(fs::read_to_string(&csv).unwrap(), "older");
    }
}
