//! What a month goes through before water heights: cut, rescaled, replaced, smoothed.

mod support;

use std::fs;

use geopotential::{Coefficients, Functional, TideSystem, model_file};
use support::{Folder, geoid};

const GM: f64 = 3.986004415e14;
const RADIUS: f64 = 6378136.3;

/// A file of technical note 14, as GSFC writes it: text, then ten columns a month; C(3,0) is NaN before GRACE's last years.
const NOTE_14: &str = "\
===============================================================================
NASA GSFC SLR C20 and C30 solutions
Contact: Bryant Loomis

Columns:
  1: MJD start of solution span
  2: Year and fraction of year of start
  3: C20 SLR
  4: C20 SLR - mean C20 (1.0E-10)
  5: C20 SLR solution 1-sigma uncertainty (1.0E-10)
  6: C30 SLR
  7: C30 SLR - mean C30 (1.0E-10)
  8: C30 SLR solution 1-sigma uncertainty (1.0E-10)
  9: MJD end of solution span
 10: Year and fraction of year of end

Product:
54557.0000  2008.2486  -4.841695014727E-04   -0.0571  0.2690            NaN     NaN     NaN  54587.0000  2008.3306
55850.0000  2011.7890  -4.841694273127E-04    0.6845  0.2850            NaN     NaN     NaN  55880.0000  2011.8712
55865.0000  2011.8301  -4.841694180010E-04    0.7776  0.2850            NaN     NaN     NaN  55894.0000  2011.9096
58423.0000  2018.8329  -4.841696142831E-04   -1.1852  0.2518   9.571987123456E-07 -2.4411  0.3871  58453.0000  2018.9151
";

/// A file of technical note 13: text, then two lines a month.
const NOTE_13: &str = "\
header:
  title : TN-13 GEOC, monthly estimates of degree-1 (geocenter) gravity coefficients
  institution : NASA/JPL
end of header ===============================================================
GRCOF2    1    0  4.61050021e-10  0.00000000e+00   2.1e-11   0.0e+00 20080401.0000 20080501.0000
GRCOF2    1    1 -1.25004521e-10  3.30400712e-10   2.1e-11   2.4e-11 20080401.0000 20080501.0000
GRCOF2    1    0 -3.00000000e-10  0.00000000e+00   2.1e-11   0.0e+00 20181101.0000 20181201.0000
GRCOF2    1    1  1.50000000e-10 -2.50000000e-10   2.1e-11   2.4e-11 20181101.0000 20181201.0000
";

/// A month with C(2,0) of GRACE's size in the zero tide.
fn month() -> Coefficients {
    let mut field = Coefficients::zeros(GM, RADIUS, 60);
    field.tide_system = TideSystem::ZeroTide;
    field.set(0, 0, 1.0, 0.0);
    field.set(2, 0, -4.84169312e-4, 0.0);
    field.set(3, 0, 9.5718e-7, 0.0);
    field.set(60, 60, 1e-11, -2e-11);
    field
}

fn write(path: &str, field: &Coefficients) {
    fs::write(path, model_file::write(field).unwrap()).unwrap();
}

fn read(path: &str) -> Coefficients {
    model_file::read(&fs::read(path).unwrap()).unwrap()
}

struct Desk {
    folder: Folder,
    field: String,
    note_13: String,
    note_14: String,
    out: String,
}

impl Desk {
    fn new() -> Desk {
        let folder = Folder::new();
        let [field, note_13, note_14, out] = ["m.model", "TN-13.txt", "TN-14.txt", "out.model"].map(|name| folder.file(name));
        write(&field, &month());
        fs::write(&note_13, NOTE_13).unwrap();
        fs::write(&note_14, NOTE_14).unwrap();
        Desk { folder, field, note_13, note_14, out }
    }

    fn replace(&self, month: &str, options: &[&str]) -> Result<String, String> {
        let answer = geoid(&[&["replace", &self.field, &self.out, "--month", month], options].concat());
        answer.map_err(|error| error.replace(self.folder.path().to_str().unwrap(), ""))
    }
}

#[test]
fn coefficients_come_from_the_technical_notes() {
    let desk = Desk::new();
    let (note_13, note_14) = (desk.note_13.as_str(), desk.note_14.as_str());
    let text = desk.replace("2018-11", &["--c20", note_14, "--c30", note_14, "--degree1", note_13]).unwrap();
    let lines: Vec<&str> = text.lines().collect();
    assert_eq!(lines[0], format!("{}: degree 60, solution of 2018-11-01 to 2018-12-01", desk.out));
    assert_eq!(lines[4], "C(2,0)  -4.84169312e-4 -> -4.841696142831e-4");
    let out = read(&desk.out);
    assert_eq!((out.c(1, 0), out.c(1, 1), out.s(1, 1)), (-3e-10, 1.5e-10, -2.5e-10));
    assert_eq!((out.c(2, 0), out.c(3, 0)), (-4.841696142831e-4, 9.571987123456e-7));
    // All else keeps its bits.
    let (mut again, old) = (out.clone(), month());
    [(1, 0), (1, 1), (2, 0), (3, 0)].into_iter().for_each(|(n, m)| again.set(n, m, old.c(n, m), old.s(n, m)));
    assert_eq!(again, old);
}

#[test]
fn the_notes_values_take_the_fields_constants() {
    let desk = Desk::new();
    write(&desk.field, &month().rescaled(3.986004418e14, 6378137.0));
    desk.replace("2008-04", &["--c20", &desk.note_14, "--degree1", &desk.note_13]).unwrap();
    let mut expected = month();
    expected.set(1, 0, 4.61050021e-10, 0.0);
    expected.set(1, 1, -1.25004521e-10, 3.30400712e-10);
    expected.set(2, 0, -4.841695014727e-4, 0.0);
    assert_eq!(read(&desk.out), expected.rescaled(3.986004418e14, 6378137.0));
}

#[test]
fn months_that_are_absent_double_or_nan_are_refused() {
    let desk = Desk::new();
    let note_14 = desk.note_14.as_str();
    let refused = |month: &str, options: &[&str]| desk.replace(month, options).unwrap_err();
    assert_eq!(refused("2008-04", &["--c30", note_14]), "/TN-14.txt: has no C(3,0) for 2008-04 (2008-04-01 to 2008-05-01): it says NaN");
    assert!(
        refused("2017-08", &["--c20", note_14]).starts_with("/TN-14.txt: has no C(2,0) for 2017-08; its 4 solutions are from 2008-04-01")
    );
    // Solutions that overlap belong to the months of their middles; two of one month are told apart by a day.
    for (month, expected) in [("2011-10", -4.841694273127e-4), ("2011-11", -4.841694180010e-4)] {
        desk.replace(month, &["--c20", note_14]).unwrap();
        assert_eq!(read(&desk.out).c(2, 0), expected);
    }
    fs::write(&desk.note_14, NOTE_14.replace("55865.0000", "55850.0000").replace("55894.0000", "55881.0000")).unwrap();
    let double = "/TN-14.txt: has 2 C(2,0) for 2011-10 (2011-10-16 to 2011-11-15, 2011-10-16 to 2011-11-16); --month YYYY-MM-DD names";
    assert!(refused("2011-10", &["--c20", note_14]).starts_with(double));
    desk.replace("2011-11-15", &["--c20", note_14]).unwrap();
    assert_eq!(read(&desk.out).c(2, 0), -4.841694180010e-4);
    assert!(refused("2008-04", &[]).starts_with("nothing to replace"));
    assert!(refused("2008-4", &["--c20", note_14]).starts_with("--month is '2008-4'; expected YYYY-MM"));
    assert!(refused("2008-04", &["--c20", &desk.note_13]).ends_with("expected a file of technical note 14"));
    assert!(refused("2008-04", &["--degree1", note_14]).ends_with("expected a file of technical note 13"));
    let silent = geoid(&["replace", &desk.field, &desk.out, "--c20", note_14]).unwrap_err();
    assert_eq!(silent, format!("{}: does not tell its month; expected --month YYYY-MM", desk.field));
}

#[test]
fn another_tide_system_or_a_difference_is_refused() {
    let desk = Desk::new();
    let c20 = ["--c20", &desk.note_14];
    let mut field = month();
    // The tide-free C(2,0) is 4.17e-9 larger.
    field.set(2, 0, -4.84165143e-4, 0.0);
    write(&desk.field, &field);
    let error = desk.replace("2008-04", &c20).unwrap_err();
    assert!(error.contains("4.4e-9 apart, as much as the permanent tide (4.2e-9) or more: another tide system?"), "{error}");
    desk.replace("2008-04", &["--c20", &desk.note_14, "--tide-as-is"]).unwrap();
    field.set(0, 0, 0.0, 0.0);
    write(&desk.field, &field);
    assert!(desk.replace("2008-04", &c20).unwrap_err().contains("expected a month itself (replace first, then subtract)"));
    write(&desk.field, &month().truncated(1));
    assert!(desk.replace("2008-04", &c20).unwrap_err().contains("has degree 1; C(2,0) has no place in it"));
}

#[test]
fn smoothing_multiplies_by_the_weight_of_the_degree() {
    let desk = Desk::new();
    let text = geoid(&["smooth", &desk.field, &desk.out, "--gauss", "300"]).unwrap();
    assert_eq!(text, format!("{}: degree 60, 1891 pairs, Gauss 300 km\n", desk.out));
    let out = read(&desk.out);
    assert_eq!((out.c(0, 0), out.tide_system), (1.0, TideSystem::ZeroTide));
    // The weights of 60 digits: 0.995210195510014 at degree 2, 0.0535833348909062 at degree 60.
    assert!((out.c(2, 0) / month().c(2, 0) - 0.995_210_195_510_014).abs() < 1e-14);
    assert!((out.c(60, 60) / 1e-11 - 0.053_583_334_890_906_2).abs() < 1e-14);
    assert!((out.s(60, 60) / -2e-11 - 0.053_583_334_890_906_2).abs() < 1e-14);
    for (value, expected) in [("0.5", "expected kilometres from 1 to 10000"), ("300000", "expected kilometres"), ("-3", "above 0")] {
        assert!(geoid(&["smooth", &desk.field, &desk.out, "--gauss", value]).unwrap_err().contains(expected));
    }
    assert!(geoid(&["smooth", &desk.field, &desk.out]).unwrap_err().starts_with("--gauss KM is missing"));
}

#[test]
fn converting_cuts_and_rescales_by_the_library() {
    let desk = Desk::new();
    let convert = |options: &[&str]| {
        geoid(&[&["convert", &desk.field, &desk.out], options].concat()).unwrap();
        read(&desk.out)
    };
    assert_eq!(convert(&["--degree", "12"]), month().truncated(12));
    assert_eq!(convert(&["--gm", "3.986005e14", "--radius", "6378137"]), month().rescaled(3.986005e14, 6378137.0));
    let both = convert(&["--degree", "20", "--radius", "6371000"]);
    assert_eq!(both, month().truncated(20).rescaled(GM, 6371000.0));
    // The potential stays the same.
    let at = |field: &Coefficients| field.grid(&Functional::Potential, 6.6e6, &[0.3], &[1.0])[0];
    assert!((at(&both) / at(&month().truncated(20)) - 1.0).abs() < 1e-15);
    assert!(geoid(&["convert", &desk.field, &desk.out, "--gm", "0"]).unwrap_err().contains("--gm is 0; expected a number above 0"));
    assert!(geoid(&["convert", &desk.field, &desk.out, "--radius", "6378.137"]).unwrap_err().contains("(given in km?)"));
}
