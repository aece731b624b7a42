//! Fields as the desks get them: ICGEM texts, fields that change with time, monthly GRACE texts, and files of other kinds.

mod support;

use std::fs;
use std::process::Command;

use geoid::date::Date;
use geoid::field_file::Choices;
use geoid::random::SplitMix64;
use geoid::text::decoded;
use geoid::{foreign, gfc, gsm};
use geopotential::{Coefficients, TideSystem, model_file};
use support::{Folder, geoid};

/// A text's field by way of `convert`, with the notes on standard error.
fn convert(folder: &Folder, bytes: &[u8], options: &[&str]) -> Result<(Coefficients, String), String> {
    let [input, output] = ["in.txt", "out.model"].map(|name| folder.file(name));
    fs::write(&input, bytes).unwrap();
    let words = [&["convert", &input, &output][..], options].concat();
    let done = Command::new(env!("CARGO_BIN_EXE_geoid")).args(words).output().unwrap();
    let said = String::from_utf8(done.stderr).unwrap().replace(&input, "in.txt");
    if !done.status.success() {
        return Err(said.strip_prefix("geoid: ").unwrap().trim_end().to_string());
    }
    Ok((model_file::read(&fs::read(&output).unwrap()).unwrap(), said))
}

/// A model in the way of EIGEN's: a text in front, Fortran's numbers, no degree 1.
fn eigen() -> String {
    let mut text = String::from(
        "      EIGEN-6C4 is a static global combined gravity field model up to degree and order 2190.\n\
         radius and gravity constant as in the\nradius line below\n\n\
         begin_of_head ==========================================================================\n\
         product_type                gravity_field\n\
         modelname                   EIGEN-TEST\n\
         earth_gravity_constant      0.3986004415E+15\n\
         radius                      0.6378136460E+07\n\
         max_degree                  4\n\
         errors                      formal\n\
         norm                        fully_normalized\n\
         tide_system                 tide_free\n\n\
         key     L    M             C                      S                    sigma C         sigma S\n\
         end_of_head ============================================================================\n\
         gfc     0    0  0.100000000000D+01  0.000000000000D+00  0.0000D+00  0.0000D+00\n\
         gfc     2    0 -0.484165217061D-03  0.000000000000D+00  0.2700D-12  0.0000D+00\n",
    );
    for (n, m) in [(2, 1), (2, 2), (3, 0), (3, 1), (3, 2), (3, 3), (4, 0), (4, 1), (4, 2), (4, 3), (4, 4)] {
        text += &format!("gfc   {n:3}  {m:3} {:19.12}D-06 {:19.12}D-06  0.2700D-12  0.2700D-12\n", 0.1 * n as f64, -0.01 * m as f64);
    }
    text
}

#[test]
fn a_model_in_the_way_of_eigen() {
    let folder = Folder::new();
    let (field, notes) = convert(&folder, eigen().as_bytes(), &[]).unwrap();
    assert_eq!((field.gm, field.radius, field.max_degree()), (3.986004415e14, 6378136.46, 4));
    assert_eq!((field.tide_system, field.c(2, 0), field.s(4, 4)), (TideSystem::TideFree, -0.484165217061e-3, -0.04e-6));
    assert_eq!(notes, "geoid: note: in.txt: degree 1 is absent and taken as 0, as in a model of the Earth about its centre of mass\n");
}

#[test]
fn a_model_in_latin_1() {
    let folder = Folder::new();
    let text =
        eigen().replace("EIGEN-6C4 is", "F\u{f6}rste et al.: EIGEN-6C4 is").replace("modelname  ", "comment  M\u{e9}tivier\nmodelname  ");
    let latin: Vec<u8> = text.chars().map(|c| c as u32 as u8).collect();
    assert!(std::str::from_utf8(&latin).is_err());
    assert_eq!(convert(&folder, &latin, &[]).unwrap().0, convert(&folder, text.as_bytes(), &[]).unwrap().0);
    // A mark of UTF-8 in front is no part of the text.
    assert!(convert(&folder, format!("\u{feff}{}", text.trim_start()).as_bytes(), &[]).is_ok());
}

#[test]
fn a_cut_model_is_refused_wherever_it_is_cut() {
    let folder = Folder::new();
    let whole = eigen();
    let data = whole.find("gfc     2    0").unwrap();
    for cut in (data..whole.len()).step_by(7) {
        let error = convert(&folder, &whole.as_bytes()[..cut], &[]).unwrap_err();
        assert!(error.starts_with("in.txt: "), "{error}");
    }
    // Inside the last number, where today's tools take what is left of it.
    let inside = convert(&folder, &whole.as_bytes()[..whole.len() - 4], &[]).unwrap_err();
    assert!(inside.contains("line 29: the file ends inside this line"), "{inside}");
    // At a line's end.
    let at_end = whole.trim_end().rfind('\n').unwrap() + 1;
    let lost = convert(&folder, &whole.as_bytes()[..at_end], &[]).unwrap_err();
    assert_eq!(lost, "in.txt: the pair (4, 4) is absent; expected every pair to degree 4, or --absent-as-zero");
    assert!(
        convert(&folder, &whole.as_bytes()[..at_end], &["--absent-as-zero"]).unwrap().1.contains("1 of 15 pairs are absent and taken as 0")
    );
}

/// A model in the way of GOCO's, version 1.0: the pair (2, 0) changes with time.
fn goco(lines: &str) -> String {
    format!(
        "GOCO-like test model\nbegin_of_head\nproduct_type gravity_field\nmodelname GOCO-TEST\n\
         earth_gravity_constant 3.9860044150e+14\nradius 6.3781363000e+06\nmax_degree 2\nnorm fully_normalized\n\
         tide_system zero_tide\nerrors formal\n\
         key     L    M             C                  S             sigma C      sigma S    t0/period\n\
         end_of_head\n\
         gfc     0    0  1.0  0.0  0.0  0.0\ngfc     1    0  0.0  0.0  0.0  0.0\ngfc     1    1  0.0  0.0  0.0  0.0\n\
         {lines}\
         gfc     2    2  2.4393e-06 -1.4003e-06  1e-13  1e-13\n"
    )
}

const MOVING: &str = "\
gfct    2    0 -4.8416948e-04  0.0      1e-13  0.0    20100101
trnd    2    0 -1.0e-11        0.0      1e-13  0.0
acos    2    0  5.0e-11        0.0      1e-13  0.0    1.0
asin    2    0  3.0e-11        0.0      1e-13  0.0    1.0
acos    2    0  2.0e-11        0.0      1e-13  0.0    0.5
gfct    2    1 -2.0e-10        1.4e-09  1e-13  1e-13  20100101
dot     2    1  1.0e-12       -2.0e-12  1e-13  1e-13
";

#[test]
fn a_field_that_changes_with_time_needs_an_epoch() {
    let folder = Folder::new();
    let error = convert(&folder, goco(MOVING).as_bytes(), &[]).unwrap_err();
    assert_eq!(error, "in.txt: line 16: a 'gfct' line, of a field that changes with time; expected --epoch DATE");
    let expected = "; expected YYYY-MM-DD or a decimal year such as 2010.5";
    for (wrong, what) in [("2010-02-30", ": 2010-02 has no day 30"), ("soon", expected), ("10", expected)] {
        let error = convert(&folder, goco(MOVING).as_bytes(), &["--epoch", wrong]).unwrap_err();
        assert_eq!(error, format!("--epoch: '{wrong}' is no date{what}"));
    }
}

#[test]
fn a_field_is_that_of_its_epoch() {
    let folder = Folder::new();
    // At t0 the trend and the sines are 0 and the cosines are 1.
    let (field, notes) = convert(&folder, goco(MOVING).as_bytes(), &["--epoch", "2010-01-01"]).unwrap();
    assert_eq!((field.c(2, 0), field.c(2, 1), field.s(2, 1)), (-4.8416948e-4 + 5e-11 + 2e-11, -2e-10, 1.4e-9));
    let told = "geoid: note: in.txt: the field of 2010-01-01 (the 2 pairs that change with time)\n";
    assert_eq!(notes, format!("{told}geoid: note: in.txt: its date is 2010-01-01, the day of --epoch\n"));
    assert_eq!(field.date, Some(3653));
    // What an option says goes before that, and the time is told all the same.
    for (option, date) in [("none", None), ("2010-01-15", Some(3667))] {
        let (other, notes) = convert(&folder, goco(MOVING).as_bytes(), &["--epoch", "2010-01-01", "--date", option]).unwrap();
        assert_eq!((other.date, notes.as_str()), (date, told));
    }
    assert_eq!(convert(&folder, goco(MOVING).as_bytes(), &["--epoch", "2010.0"]).unwrap().0, field);
    // 1461 days are four years: whole periods, so only the trend is added.
    let later = convert(&folder, goco(MOVING).as_bytes(), &["--epoch", "2014-01-01"]).unwrap().0;
    assert!((later.c(2, 0) - (field.c(2, 0) - 4e-11)).abs() < 1e-18);
    assert!((later.c(2, 1) - (-2e-10 + 4e-12)).abs() < 1e-24 && (later.s(2, 1) - (1.4e-9 - 8e-12)).abs() < 1e-23);
    // 487 days after t0 are a third of that: the formula by hand.
    let third = convert(&folder, goco(MOVING).as_bytes(), &["--epoch", "2011-05-03"]).unwrap().0;
    let years: f64 = 487.0 / 365.25;
    let angle = std::f64::consts::TAU * years;
    let expected = -4.8416948e-4 - 1e-11 * years + 5e-11 * angle.cos() + 3e-11 * angle.sin() + 2e-11 * (2.0 * angle).cos();
    assert!((third.c(2, 0) - expected).abs() < 1e-18, "{:e} {expected:e}", third.c(2, 0));
}

#[test]
fn an_epoch_goes_wherever_a_field_goes() {
    let folder = Folder::new();
    let [text, model, kernel, csv] = ["moving.gfc", "still.model", "kernel.gfc", "out.csv"].map(|name| folder.file(name));
    fs::write(&text, goco(MOVING)).unwrap();
    fs::write(&kernel, "gravity_constant 1\nradius 1\nmax_degree 0\nend_of_head\ngfc 0 0 1 0\n").unwrap();
    geoid(&["convert", &text, &model, "--epoch", "2012-06-30"]).unwrap();
    let info = geoid(&["info", &text, "--epoch", "2012-06-30"]).unwrap();
    assert!(info.starts_with("model        GOCO-TEST\ntime         2012-06-30 (the 2 pairs that change with time)\nGM "), "{info}");
    assert!(info.contains("\ndate         2012-06-30 (day 4564), the day of --epoch\n"), "{info}");
    assert_eq!(geoid(&["average", &text, &kernel, "--epoch", "2012-06-30"]), geoid(&["average", &model, &kernel]));
    let grid = |field: &str, options: &[&str]| {
        geoid(&[&["grid", field, "--out", &csv, "--step", "45"][..], options].concat()).unwrap();
        fs::read(&csv).unwrap()
    };
    assert_eq!(grid(&text, &["--epoch", "2012-06-30"]), grid(&model, &[]));
    for command in [&["info", &text][..], &["average", &text, &kernel], &["grid", &text, "--out", &csv]] {
        assert!(geoid(command).unwrap_err().ends_with("expected --epoch DATE"));
    }
}

#[test]
fn love_numbers_with_gaps_are_noted() {
    let folder = Folder::new();
    let [month_file, kernel, love] = ["month", "kernel.gfc", "love.txt"].map(|name| folder.file(name));
    fs::write(&month_file, month()).unwrap();
    fs::write(&kernel, "gravity_constant 1\nradius 1\nmax_degree 2\nend_of_head\ngfc 0 0 1 0\ngfc 2 0 1 0\n").unwrap();
    let average = |numbers: &str| {
        fs::write(&love, numbers).unwrap();
        let words = ["average", &month_file, &kernel, "--absent-as-zero", "--functional", "water-height", "--love", &love];
        let done = Command::new(env!("CARGO_BIN_EXE_geoid")).args(words).output().unwrap();
        (String::from_utf8(done.stdout).unwrap(), String::from_utf8(done.stderr).unwrap())
    };
    let (given, quiet) = average("0 0.0\n1 0.027\n2 -0.25\n3 -0.1875\n4 -0.125\n");
    let (between, noted) = average("0 0.0D0\n1 2.7d-2\n2 -0.25\n4 -0.125\n");
    assert_eq!(given, between);
    let note = format!("geoid: note: {love}: 1 degrees are not given (the first is 3); linear between their neighbours\n");
    assert_eq!((quiet.contains("linear"), noted.contains(&note)), (false, true), "{noted}");
}

#[test]
fn intervals_of_version_2() {
    let folder = Folder::new();
    let lines = "\
gfct 2 0 -4.8416e-04 0.0 1e-13 0.0 19500101.0000 20020815.0000
trnd 2 0  1.0e-11    0.0 1e-13 0.0 19500101.0000 20020815.0000
gfct 2 0 -4.8417e-04 0.0 1e-13 0.0 20020815.0000 20500101.0000
trnd 2 0  2.0e-11    0.0 1e-13 0.0 20020815.0000 20500101.0000
asin 2 0  5.0e-11    0.0 1e-13 0.0 20020815.0000 20500101.0000 1.0
gfc  2 1 -2.0e-10 1.4e-09 1e-13 1e-13
";
    let text = goco(lines).replace("begin_of_head\n", "begin_of_head\nformat icgem2.0\n");
    let c20 = |epoch: &str| convert(&folder, text.as_bytes(), &["--epoch", epoch]).map(|(field, _)| field.c(2, 0));
    assert_eq!(c20("1950-01-01"), Ok(-4.8416e-4));
    assert!((c20("1954-01-01").unwrap() - (-4.8416e-4 + 4e-11)).abs() < 1e-18);
    // The end of an interval is the next one's.
    assert_eq!(c20("2002-08-15"), Ok(-4.8417e-4));
    assert!((c20("2006-08-15").unwrap() - (-4.8417e-4 + 8e-11)).abs() < 1e-18);
    let error = c20("2060.5").unwrap_err();
    assert!(
        error.ends_with("no 'gfct' line of the pair (2, 0) has an interval with 2060-07-02; expected one with t0 <= t < t1"),
        "{error}"
    );
    // Two intervals that both hold the epoch are a mistake.
    let error =
        convert(&folder, text.replace("20020815.0000 20500101", "19600101.0000 20500101").as_bytes(), &["--epoch", "1990"]).unwrap_err();
    assert!(error.contains("'gfct' of the pair (2, 0) is given a second time (first in line 17)"), "{error}");
}

#[test]
fn a_cut_in_the_last_pair_that_changes_is_noted() {
    let folder = Folder::new();
    let lines = "gfct 2 1 -2e-10 1e-09 0 0 20100101\ntrnd 2 1 1e-12 0 0 0\nacos 2 1 1e-12 0 0 0 1.0\n";
    let last = "gfct 2 2 2.4e-6 -1.4e-06 0 0 20100101\ntrnd 2 2 1e-12 0 0 0\nacos 2 2 1e-12 0 0 0 1.0\n";
    let head = goco("gfc 2 0 -4.8416948e-04 0 0 0\n");
    let whole = format!("{}{lines}{last}", &head[..head.find("gfc     2    2").unwrap()]);
    let notes = |text: &str| convert(&folder, text.as_bytes(), &["--epoch", "2012"]).unwrap().1;
    assert!(!notes(&whole).contains("whole?"));
    let cut = &whole[..whole.rfind("acos").unwrap()];
    let note = "its last pair that changes with time, (2, 2), has 2 lines and the one before it 3; is the file whole?";
    assert!(notes(cut).contains(note), "{}", notes(cut));
    // Where other pairs follow, it is no end.
    let before = goco(&format!("{lines}gfct 2 0 -4.8416948e-04 0 0 0 20100101\n"));
    assert!(!notes(&before).contains("whole?"));
}

#[test]
fn control_characters_are_not_shown() {
    let folder = Folder::new();
    let text = folder.file("x.gfc");
    fs::write(&text, eigen().replace("EIGEN-TEST", "\x1b[31mRED")).unwrap();
    assert!(geoid(&["info", &text]).unwrap().starts_with("model        ?[31mRED\n"));
}

#[test]
fn mistakes_in_lines_that_change_with_time() {
    let folder = Folder::new();
    let refused = |from: &str, to: &str| {
        assert_eq!(MOVING.matches(from).count(), 1, "{from}");
        convert(&folder, goco(&MOVING.replace(from, to)).as_bytes(), &["--epoch", "2010-01-01"]).unwrap_err()
    };
    let cases = [
        (
            "1e-13  0.0    20100101",
            "1e-13  0.0",
            "line 16: 4 numbers behind n and m; expected 5 by the head's 'errors': C, S, 2 standard deviations, 1 for the time",
        ),
        ("1e-13  0.0    20100101", "1e-13  0.0    2010.0", "line 16: '2010.0' is no date; expected yyyymmdd or yyyymmdd.hhmm"),
        ("0.0    0.5", "0.0    0.0", "line 20: the period is 0; expected years above 0"),
        ("0.0    0.5", "0.0    1.0", "line 20: 'acos' of the pair (2, 0) is given a second time (first in line 18) for the epoch"),
        ("dot     2    1", "dot     2    2", "line 22: the pair (2, 2) has no 'gfct' line; expected one for its changes"),
        ("gfct    2    1", "gfct    2    2", "line 22: the pair (2, 1) has no 'gfct' line; expected one for its changes"),
    ];
    for (from, to, expected) in cases {
        assert_eq!(refused(from, to), format!("in.txt: {expected}"));
    }
    let error = convert(&folder, goco(&MOVING.replace("-1.0e-11  ", "1.0e308  ")).as_bytes(), &["--epoch", "2110"]).unwrap_err();
    assert_eq!(error, "in.txt: line 16: at 2110-01-01 its pair is too large for a double; expected finite numbers");
    let both = goco(&format!("{MOVING}gfc 2 1 0.0 0.0 0.0 0.0\n"));
    let error = convert(&folder, both.as_bytes(), &["--epoch", "2010"]).unwrap_err();
    assert_eq!(error, "in.txt: line 21: the pair (2, 1) is given a second time (first in line 23); expected each pair once");
}

#[test]
fn an_epoch_without_effect_is_noted() {
    let folder = Folder::new();
    let (field, notes) = convert(&folder, eigen().as_bytes(), &["--epoch", "2010"]).unwrap();
    assert_eq!(field.date, None);
    assert!(notes.ends_with("in.txt: nothing in it changes with time; --epoch has no effect\n"), "{notes}");
}

/// A month in the way of release 06, with some of its head's lines.
fn month() -> String {
    let mut text = String::from(
        "header:\n  dimensions:\n    degree                         : 3\n    order                          : 3\n  global_attributes:\n    \
         acknowledgement                : GRACE-FO is a joint mission of NASA (USA) and GFZ (Germany). Use the digital object identifier: id\n    \
         conventions                    : CF-1.6, ACDD-1.3, ISO 8601\n    creator_email                  : grace@csr.utexas.edu\n    \
         date_issued                    : 2019-05-22T00:00:00\n    history                        : Level-2 product made of Level-1B data\n    \
         id                             : 10.5067/GFL20-MC060\n    keywords                       : GRACE-FO, Level-2, SPHERICAL HARMONIC MODEL\n    \
         processing_level               : 2\n    product_name                   : GSM-2_2018152-2018181_GRFO_UTCSR_BA01_0600\n    \
         product_version                : 6.0\n    time_coverage_end              : 2018-06-30T23:59:59.999\n    \
         time_coverage_start            : 2018-06-01T00:00:00.000\n    title                          : GRACE-FO Geopotential Coefficients CSR RL06\n  \
         non-standard_attributes:\n    earth_gravity_param:\n      long_name                    : gravitational constant times mass of Earth\n      \
         units                        : m3/s2\n      value                        : 3.9860044150E+14\n    \
         mean_equator_radius:\n      long_name                    : mean equator radius\n      units                        : meters\n      \
         value                        : 6.3781363000E+06\n    normalization                  : fully normalized\n    \
         permanent_tide_flag            : inclusive\n    product_id                     : GSM\n  variables:\n    degree_index:\n      \
         comment                      : 2nd column\n      long_name                    : spherical harmonic degree l\n# End of YAML header\n",
    );
    for (n, m, c, s) in PAIRS {
        text += &format!("GRCOF2{n:5}{m:5} {c:>19} {s:>19} 0.1234E-12 0.1234E-12 20180601.0000 20180701.0000 yyyn\n");
    }
    text
}

const PAIRS: [(usize, usize, &str, &str); 8] = [
    (0, 0, "1.00000000000E+00", "0.00000000000E+00"),
    (2, 0, "-4.84169276871E-04", "0.00000000000E+00"),
    (3, 0, "9.57190157320E-07", "0.00000000000E+00"),
    (2, 1, "-3.12345678901E-10", "1.45678901234E-09"),
    (3, 1, "2.03044637580E-06", "2.48200416020E-07"),
    (2, 2, "2.43935730000E-06", "-1.40028000000E-06"),
    (3, 2, "9.04787894810E-07", "-6.19005475180E-07"),
    (3, 3, "7.21321757120E-07", "1.41434926190E-06"),
];

#[test]
fn a_month_of_grace() {
    let folder = Folder::new();
    let (field, notes) = convert(&folder, month().as_bytes(), &[]).unwrap();
    assert_eq!((field.gm, field.radius, field.max_degree()), (3.986004415e14, 6378136.3, 3));
    assert_eq!(field.tide_system, TideSystem::ZeroTide);
    for (n, m, c, s) in PAIRS {
        assert_eq!((field.c(n, m), field.s(n, m)), (c.parse().unwrap(), s.parse().unwrap()));
    }
    assert_eq!((field.c(1, 0), field.c(1, 1)), (0.0, 0.0));
    let lines: Vec<&str> = notes.lines().collect();
    assert_eq!(lines[0], "geoid: note: in.txt: degree 1 is absent and taken as 0, as in a model of the Earth about its centre of mass");
    assert_eq!(lines[1], "geoid: note: in.txt: the field of 2018-06-01T00:00:00.000 to 2018-06-30T23:59:59.999");
    assert_eq!(lines[2..], ["geoid: note: in.txt: its date is 2018-06-16, the day in the middle of its head's span"]);
    assert_eq!(field.date, Some(6741));
    let (free, _) = convert(&folder, month().replace(": inclusive", ": exclusive").as_bytes(), &[]).unwrap();
    assert_eq!(free.tide_system, TideSystem::TideFree);
    let (crlf, _) = convert(&folder, month().replace('\n', "\r\n").as_bytes(), &[]).unwrap();
    assert_eq!(crlf, field);
}

#[test]
fn the_date_of_a_month_is_its_middle() {
    let folder = Folder::new();
    let date = |text: String| convert(&folder, text.as_bytes(), &[]).unwrap().0.date;
    // The head's own times go before those of the lines, which are taken where the head's are not written as times.
    let (start, end) = ("2018-06-01T00:00:00.000", "2018-06-30T23:59:59.999");
    assert_eq!(date(month().replace(end, "2018-07-01T00:00:00.000")), Some(6741));
    assert_eq!(date(month().replace(start, "2018-05-22T00:00:00.000").replace(end, "2018-06-20T23:59:59.00")), Some(6731));
    assert_eq!(date(month().replace(start, "June 2018").replace("20180601.0000 20180701", "20180601.0000 20180702")), Some(6741));
    assert_eq!(date(month().replace("time_coverage_end ", "time_coverage_stop").replace(" 20180601.0000", " 20180611.0000")), Some(6746));
    // What an option says goes before both, and the time is told all the same.
    for (option, date) in [("none", None), ("2018-06-30", Some(6755))] {
        let (field, notes) = convert(&folder, month().as_bytes(), &["--date", option]).unwrap();
        assert_eq!((field.date, notes.lines().count()), (date, 2), "{notes}");
        assert!(notes.ends_with(&format!("in.txt: the field of {start} to {end}\n")), "{notes}");
    }
}

#[test]
fn the_times_of_a_head_are_held_against_its_lines() {
    let folder = Folder::new();
    let (start, end) = ("2018-06-01T00:00:00.000", "2018-06-30T23:59:59.999");
    let notes = |from: &str, to: &str| {
        let (field, notes) = convert(&folder, month().replace(start, from).replace(end, to).as_bytes(), &[]).unwrap();
        assert_eq!(field.date, Some(6741));
        notes.lines().skip(1).map(|line| line.replace("geoid: note: in.txt: ", "")).collect::<Vec<_>>().join("; ")
    };
    let by = |span: &str| format!("its date is 2018-06-16, the day in the middle of its {span} span");
    // Times of the world's clock, and words that are no time.
    let [from, to] = ["2018-06-01T00:00:00Z", "2018-06-30T23:59:59Z"];
    assert_eq!(notes(from, to), format!("the field of {from} to {to}; {}", by("head's")));
    assert_eq!(notes("June", "June"), format!("the field of June to June; {}", by("lines'")));
    // A head whose middle is none of the lines' days is told, and not taken.
    for (from, to) in [(from, "2018-12-31T23:59:59Z"), ("2018-05-01T00:00:00", "2018-05-31T23:59:59")] {
        let told = format!("its head says {from} to {to}, but its lines are of 2018-06-01 to 2018-07-01, which are taken");
        assert_eq!(notes(from, to), format!("{told}; the field of 2018-06-01 to 2018-07-01; {}", by("lines'")));
    }
}

#[test]
fn a_month_goes_wherever_a_field_goes() {
    let folder = Folder::new();
    let [text, model, kernel, csv] = ["month", "month.model", "kernel.gfc", "out.csv"].map(|name| folder.file(name));
    fs::write(&text, month()).unwrap();
    let info = geoid(&["info", &text]).unwrap();
    assert!(
        info.starts_with("model        GSM-2_2018152-2018181_GRFO_UTCSR_BA01_0600\ntime         2018-06-01T00:00:00.000 to 2018-06-30"),
        "{info}"
    );
    let date = "date         2018-06-16 (day 6741), the day in the middle of its head's span";
    assert!(info.contains(&format!("\ntide system  zero tide\n{date}\ndegree       3\n")), "{info}");
    geoid(&["convert", &text, &model]).unwrap();
    fs::write(&kernel, "gravity_constant 1\nradius 1\nmax_degree 0\nend_of_head\ngfc 0 0 1 0\n").unwrap();
    assert_eq!(geoid(&["average", &text, &kernel]).unwrap(), geoid(&["average", &model, &kernel]).unwrap());
    let grid = |field: &str| {
        geoid(&["grid", field, "--out", &csv, "--step", "45"]).unwrap();
        fs::read(&csv).unwrap()
    };
    assert_eq!(grid(&text), grid(&model));
    geoid(&["grid", &text, "--out", &csv, "--step", "45"]).unwrap();
    let beside = fs::read_to_string(format!("{csv}.aux.xml")).unwrap();
    assert!(beside.contains("file month, to degree 3, of 2018-06-01T00:00:00.000 to 2018-06-30T23:59:59.999</MDI>"), "{beside}");
}

#[test]
fn a_month_is_prepared_as_it_comes() {
    let folder = Folder::new();
    let [text, model, other, list, note] = ["month", "month.model", "other.gfc", "list.csv", "TN-14"].map(|name| folder.file(name));
    let [one, two] = ["one.model", "two.model"].map(|name| folder.file(name));
    fs::write(&text, month()).unwrap();
    geoid(&["convert", &text, &model]).unwrap();
    geoid(&["sample", &other, "--degree", "3"]).unwrap();
    fs::write(&list, "lat,lon,h\n50,10,0\n").unwrap();
    // The solution that the month's own days lie in, and one before it.
    let line = |from: &str, c20: &str, to: &str| format!("{from} 2018.3 {c20} 0.1 0.2 NaN NaN NaN {to} 2018.5\n");
    fs::write(&note, line("58239.0", "-4.84169E-04", "58270.0") + &line("58270.0", "-4.841692D-04", "58300.0")).unwrap();
    assert_eq!(geoid(&["points", &text, "--at", &list]).unwrap(), geoid(&["points", &model, "--at", &list]).unwrap());
    let same = |before: &[&str], after: &[&str]| {
        let run = |field: &str, out: &str| {
            geoid(&[&[before[0], field], &before[1..], &[out], after].concat()).unwrap();
            fs::read(out).unwrap()
        };
        assert_eq!(run(&text, &one), run(&model, &two), "{before:?}");
    };
    same(&["subtract", &other, "--out"], &["--tide-as-is"]);
    same(&["smooth"], &["--gauss", "300"]);
    same(&["convert"], &["--degree", "2", "--gm", "3.986004418e14", "--radius", "6378137"]);
    same(&["replace"], &["--c20", &note, "--month", "2018-06"]);
    let answer = geoid(&["replace", &text, &one, "--c20", &note]).unwrap();
    assert!(answer.contains("solution of 2018-06-01 to 2018-07-01\nC(2,0)  -4.84169276871e-4 -> -4.841692e-4\n"), "{answer}");
    assert_eq!(fs::read(&one).unwrap(), fs::read(&two).unwrap());
    assert_eq!(model_file::read(&fs::read(&one).unwrap()).unwrap().date, Some(6741));
    // The model's date names the same solution.
    assert_eq!(geoid(&["replace", &model, &two, "--c20", &note]).unwrap().replace(&two, &one), answer);
    assert_eq!(fs::read(&one).unwrap(), fs::read(&two).unwrap());
}

#[test]
fn a_month_and_its_model_take_the_same_solution() {
    let folder = Folder::new();
    let [text, model, note, out] = ["month", "month.model", "TN-14", "out.model"].map(|name| folder.file(name));
    fs::write(&text, month()).unwrap();
    geoid(&["convert", &text, &model]).unwrap();
    let replace = |field: &str, spans: &[(u32, u32)]| {
        let lines = spans.iter().map(|(from, to)| format!("{from} 2018.3 -4.84169E-04 0.1 0.2 NaN NaN NaN {to} 2018.5\n"));
        fs::write(&note, lines.collect::<String>()).unwrap();
        geoid(&["replace", field, &out, "--c20", &note])
    };
    // June 2018, less some days or shifted by some; and solutions that the date lies in too, with middles two weeks off.
    let (before, after) = ((58256, 58286), (58284, 58314));
    for own in [(58270, 58300), (58274, 58300), (58266, 58296), (58276, 58304)] {
        let [one, two] = [&text, &model].map(|field| replace(field, &[before, own, after]).unwrap());
        assert_eq!(one, two);
        let [from, to] = [own.0, own.1].map(|mjd| Date::of_mjd(mjd.into()).unwrap());
        assert!(one.contains(&format!("solution of {from} to {to}\n")), "{one}");
    }
    for field in [&text, &model] {
        assert!(replace(field, &[before, after]).unwrap_err().contains("has no C(2,0) for 2018-06-"));
    }
}

#[test]
fn an_epoch_goes_into_every_preparation() {
    let folder = Folder::new();
    let [text, model, list, out] = ["goco.gfc", "goco.model", "list.csv", "out.model"].map(|name| folder.file(name));
    fs::write(&text, goco(MOVING)).unwrap();
    geoid(&["convert", &text, &model, "--epoch", "2012-06-01"]).unwrap();
    fs::write(&list, "lat,lon,h\n50,10,0\n").unwrap();
    let at = |words: &[&str]| geoid(&[words, &["--epoch", "2012-06-01"]].concat()).unwrap();
    assert_eq!(at(&["points", &text, "--at", &list]), geoid(&["points", &model, "--at", &list]).unwrap());
    at(&["subtract", &text, &model, "--out", &out]);
    assert_eq!(geoid(&["info", &out, "--all"]).unwrap().matches(" 0.000000e0").count(), 2 * (1 + 2));
    assert!(geoid(&["smooth", &text, &out, "--gauss", "300"]).unwrap_err().contains("expected --epoch DATE"));
    at(&["smooth", &text, &out, "--gauss", "300"]);
}

#[test]
fn mistakes_in_a_month() {
    let folder = Folder::new();
    let refused = |from: &str, to: &str| {
        assert_eq!(month().matches(from).count(), 1, "{from}");
        convert(&folder, month().replace(from, to).as_bytes(), &[]).unwrap_err()
    };
    let last = "7.21321757120E-07   1.41434926190E-06 0.1234E-12 0.1234E-12 20180601.0000 20180701.0000 yyyn\n";
    let cases = [
        (
            last,
            "7.21321757120E-07   1.41434926190E-06 0.1234E-12 0.1234E-12 20180601.0000 20180701.0000\n",
            "line 43: 8 words behind GRCOF2; expected 9: 'GRCOF2 n m C S sigmaC sigmaS begin end flags'",
        ),
        (
            last,
            "7.21321757120E-07   1.4143492",
            "line 43: the file ends inside this line, without a line break: it is cut; expected a line break at its end",
        ),
        (
            last,
            "7.21321757120E-07   1.41434926190E-06 0.1234E-12 0.1234E-12 20180601.0000 201807 yyyn\n",
            "line 43: '201807' is no date; expected yyyymmdd or yyyymmdd.hhmm",
        ),
        ("GRCOF2    2    1", "GRCOF2    4    1", "line 39: the pair (4, 1) is outside the head's dimensions; expected m <= n <= 3"),
        ("GRCOF2    2    1", "GRDOTA    2    1", "line 39: 'GRDOTA' is no keyword of a data line; expected 'GRCOF2'"),
        (
            "GRCOF2    2    1",
            "GRCOF2    2    0",
            "line 39: the pair (2, 0) is given a second time (first in line 37); expected each pair once",
        ),
        (": fully normalized", ": unnormalized", "line 28: normalization is 'unnormalized'; expected 'fully normalized'"),
        (": inclusive", ": perhaps", "line 29: permanent_tide_flag is 'perhaps'; expected inclusive or exclusive"),
        (
            "mean_equator_radius:",
            "mean_pole_radius:",
            "line 35: the head ends without 'mean_equator_radius/value'; expected the head of a release 06 field",
        ),
        (
            "time_coverage_end              : 2018-06-30T23:59:59.999",
            "time_coverage_end              : 2018-05-01T00:00:00Z",
            "line 16: time_coverage_end: the time from 2018-06-01 to 2018-05-01 is empty; expected a start before the end",
        ),
        (
            "time_coverage_end              : 2018-06-30T23:59:59.999",
            "time_coverage_end              : 2018-06-01T00:00:00",
            "line 16: time_coverage_end: the time from 2018-06-01 to 2018-06-01 is empty; expected a start before the end",
        ),
        (
            last,
            "7.21321757120E-07   1.41434926190E-06 0.1234E-12 0.1234E-12 20180701.0000 20180601.0000 yyyn\n",
            "line 43: the time from 2018-07-01 to 2018-06-01 is empty; expected a start before the end",
        ),
        (
            ": 3.9860044150E+14",
            ": about 4E14",
            "line 23: earth_gravity_param/value: 'about 4E14' is no number; expected one such as -4.84165D-04",
        ),
    ];
    for (from, to, expected) in cases {
        assert_eq!(refused(from, to), format!("in.txt: {expected}"));
    }
    let without = month().lines().filter(|line| !line.starts_with("GRCOF2    3    2")).fold(String::new(), |text, line| text + line + "\n");
    let error = convert(&folder, without.as_bytes(), &[]).unwrap_err();
    assert_eq!(error, "in.txt: the pair (3, 2) is absent; expected every pair to degree 3, or --absent-as-zero");
}

#[test]
fn a_change_of_months_has_no_degree_zero_of_its_own() {
    // The difference of two months that leaves out degree 0: to take it as 1 would add the whole Earth.
    let folder = Folder::new();
    let change = month()
        .replace("-4.84169276871E-04", " 1.23456789012E-10")
        .lines()
        .filter(|line| !line.starts_with("GRCOF2    0"))
        .fold(String::new(), |text, line| text + line + "\n");
    let error = convert(&folder, change.as_bytes(), &[]).unwrap_err();
    assert!(error.starts_with("in.txt: the pair (0, 0) is absent (and 2 more); "), "{error}");
    assert_eq!(convert(&folder, change.as_bytes(), &["--absent-as-zero"]).unwrap().0.c(0, 0), 0.0);
}

#[test]
fn files_of_other_kinds_are_named() {
    let folder = Folder::new();
    let cases: [(&[u8], &str); 21] = [
        (b"\x1f\x8b\x08\x00 packed", "compressed by gzip (.gz): unpack it first"),
        (b"\x1f\x9d\x90 packed", "compressed by compress (.Z): unpack it first"),
        (b"PK\x03\x04 packed", "a zip archive: unpack it first"),
        (b"\x89HDF\r\n\x1a\n", "NetCDF-4 or HDF5"),
        (b"CDF\x01\0\0\0\0", "NetCDF-3, a grid and no coefficients"),
        (b"%=SNX 2.02 COD 21:001:00000", "SINEX"),
        (b"<!DOCTYPE html>\n<html><head><title>404 Not Found</title>", "a web page (HTML), perhaps a download's error"),
        (
            b"FIRST   GSM-2_2002095-2002120_0021_UTCSR_0060_0005\nCMMNT\nEARTH 0.3986004415E+15 0.6378136300E+07\nGRCOF2 2 0 -4.8E-04 0.0\n",
            "a monthly GRACE text before release 06 (lines FIRST, CMMNT, EARTH, SHM)",
        ),
        (
            b"  2    0   -0.484165143790815D-03    0.000000000000000D+00    0.7481239490D-11    0.0000000000D+00\n",
            "a table 'n m C S' without a head (as EGM2008's own), whose GM and radius stand elsewhere",
        ),
        (b"0.6378136300E+04,0.3986004415E+06,0.1E-03,60,60,1,0.0,0.0\n", "a PDS table of coefficients (SHADR)"),
        (b"header:\n  dimensions:\n    degree : 60\n", "a monthly GRACE text that is cut in its YAML head"),
        (b"ncols 4\nnrows 3\n", "an ESRI ASCII grid, values and no coefficients"),
        (b"\xff\xfep\0r\0o\0", "UTF-16 text: save it as UTF-8"),
        (b"\x89PNG\r\n", "a PNG picture"),
        (b"BZh91AY", "compressed by bzip2: unpack it first"),
        (b"\xfd7zXZ\0", "compressed by xz: unpack it first"),
        (b"CDF\x02\0\0\0\0", "NetCDF-3, a grid and no coefficients"),
        (b"%PDF-1.7", "a PDF document"),
        (b"\xfe\xff\0p\0r", "UTF-16 text: save it as UTF-8"),
        (b"<?xml version='1.0'?><model/>", "XML"),
        (b"lat,lon,z\n50,-10,36.9\n", "a grid of values (.csv), no coefficients"),
    ];
    for (bytes, kind) in cases {
        let expected = "expected a model file, ICGEM text (.gfc) or a monthly GRACE text (GSM-2, release 06)";
        assert_eq!(convert(&folder, bytes, &[]).unwrap_err(), format!("in.txt: looks like {kind}; {expected}"));
    }
    assert!(!folder.path().join("out.model").exists());
}

#[test]
fn damaged_texts_are_read_or_refused() {
    let mut random = SplitMix64::new(7);
    let choices = [Choices::default(), Choices { absent_as_zero: true, epoch: Date::parse("2011.3").ok() }];
    for whole in [eigen(), goco(MOVING), month()] {
        for round in 0..600 {
            let mut bytes = whole.clone().into_bytes();
            for _ in 0..=random.word() % 4 {
                let place = random.word() as usize % bytes.len();
                match random.word() % 4 {
                    0 => bytes[place] = random.word() as u8,
                    1 => bytes.truncate(place.max(1)),
                    2 => drop(bytes.drain(place..(place + 30).min(bytes.len()))),
                    _ => bytes.insert(place, b" \n.-9eD\xe9"[random.word() as usize % 8]),
                }
                if bytes.is_empty() {
                    bytes.push(b' ');
                }
            }
            let text = decoded(&bytes);
            for reading in [gfc::read(&text, &choices[round % 2]), gsm::read(&text, &choices[round % 2])] {
                let lists = reading.map(|file| file.field.degree_variances());
                assert!(lists.is_err() || lists.is_ok_and(|list| !list.is_empty()));
            }
            let _ = (foreign::by_signature(&bytes), foreign::by_text(&text));
        }
    }
}
