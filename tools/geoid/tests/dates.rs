//! Fields with a date: it is shown, set, kept and told, so that two months are told apart.

mod support;

use std::fs;
use std::process::Command;

use geopotential::{Coefficients, model_file};
use support::{Folder, geoid};

/// Two months' days: 2024-03-15 and 2023-03-16.
const MARCH: i32 = 8840;
const BEFORE: i32 = 8475;

/// The sample of a degree, with a date or without.
fn sample(degree: usize, date: Option<i32>) -> Coefficients {
    let mut field = geoid::sample::sample(degree, 1).unwrap();
    assert_eq!(field.date, None, "a sample is of no day");
    field.date = date;
    field
}

/// A kernel that covers half of the sphere, with a date or without.
fn kernel(date: Option<i32>) -> Coefficients {
    let mut kernel = Coefficients::zeros(1.0, 1.0, 2);
    kernel.set(0, 0, 0.5, 0.0);
    kernel.set(1, 0, 0.4, 0.0);
    kernel.date = date;
    kernel
}

fn write(path: &str, field: &Coefficients) {
    fs::write(path, model_file::write(field).unwrap()).unwrap();
}

fn read(path: &str) -> Coefficients {
    model_file::read(&fs::read(path).unwrap()).unwrap()
}

/// What the program prints, and its notes.
fn run(words: &[&str]) -> (String, String) {
    let done = Command::new(env!("CARGO_BIN_EXE_geoid")).args(words).output().unwrap();
    assert!(done.status.success(), "{words:?}");
    (String::from_utf8(done.stdout).unwrap(), String::from_utf8(done.stderr).unwrap())
}

#[test]
fn info_shows_the_date() {
    let folder = Folder::new();
    let path = folder.file("a.model");
    for (date, expected) in [
        (None, "not stated"),
        (Some(MARCH), "2024-03-15 (day 8840)"),
        (Some(0), "2000-01-01 (day 0)"),
        (Some(-1), "1999-12-31 (day -1)"),
        (Some(i32::MIN), "-5877611-06-22 (day -2147483648)"),
        (Some(i32::MAX), "5881610-07-11 (day 2147483647)"),
    ] {
        write(&path, &sample(3, date));
        let info = geoid(&["info", &path]).unwrap();
        assert!(info.contains(&format!("\ntide system  tide-free\ndate         {expected}\ndegree       3\n")), "{info}");
        assert!(!info.contains("time "), "{info}");
    }
}

#[test]
fn convert_sets_keeps_and_takes_away_the_date() {
    let folder = Folder::new();
    let [plain, dated, out] = ["plain.model", "dated.model", "out.model"].map(|name| folder.file(name));
    write(&plain, &sample(4, None));
    let answer = geoid(&["convert", &plain, &dated, "--date", "2024-03-15"]).unwrap();
    assert_eq!(answer, format!("{dated}: degree 4, 15 pairs, date 2024-03-15\n"));
    let bytes = fs::read(&dated).unwrap();
    assert_eq!((bytes[0], bytes.len(), &bytes[20..24]), (4, 25 + 17 * 15, &MARCH.to_le_bytes()[..]));
    let convert = |options: &[&str]| {
        geoid(&[&["convert", &dated, &out], options].concat()).unwrap();
        read(&out)
    };
    assert_eq!(convert(&[]), sample(4, Some(MARCH)));
    assert_eq!(convert(&["--degree", "2", "--radius", "6371000"]), sample(4, Some(MARCH)).truncated(2).rescaled(3.986005e14, 6371e3));
    assert_eq!(convert(&["--date", "2023-03-16"]), sample(4, Some(BEFORE)));
    assert_eq!(convert(&["--date", "none"]), sample(4, None));
    assert_eq!(fs::read(&out).unwrap(), fs::read(&plain).unwrap());
    for (text, days) in [("-5877611-06-22", i32::MIN), ("5881610-07-11", i32::MAX), ("2000-01-01", 0), ("0000-02-29", -730_426)] {
        assert_eq!(convert(&["--date", text]).date, Some(days));
        assert!(geoid(&["info", &out]).unwrap().contains(&format!("date         {text} (day {days})\n")));
    }
}

#[test]
fn what_is_no_date_is_refused() {
    let folder = Folder::new();
    let [plain, out] = ["plain.model", "out.model"].map(|name| folder.file(name));
    write(&plain, &sample(2, None));
    let refused = |text: &str| geoid(&["convert", &plain, &out, "--date", text]).unwrap_err();
    for wrong in ["2024-3-15", "2024-03", "2024.2", "8840", "None", "", "today"] {
        assert_eq!(refused(wrong), format!("--date is '{wrong}'; expected YYYY-MM-DD or none"));
    }
    // A day that is written well, but that the calendar lacks.
    for (absent, lack) in [
        ("2023-02-29", "2023-02 has no day 29"),
        ("2024-04-31", "2024-04 has no day 31"),
        ("2024-03-00", "2024-03 has no day 00"),
        ("2024-13-01", "a year has no month 13"),
        ("2024-00-15", "a year has no month 00"),
    ] {
        assert_eq!(refused(absent), format!("--date is '{absent}': {lack}"));
    }
    for beyond in ["-5877611-06-21", "5881610-07-12", "2147483647-12-31", "-2147483648-01-01"] {
        assert_eq!(refused(beyond), format!("--date is '{beyond}'; expected a day from -5877611-06-22 to 5881610-07-11"));
    }
    assert_eq!(fs::read_dir(folder.path()).unwrap().count(), 1, "nothing is written");
}

#[test]
fn damaged_dated_files_are_named() {
    let folder = Folder::new();
    let [model, out] = ["m.model", "out.model"].map(|name| folder.file(name));
    let whole = model_file::write(&sample(3, Some(MARCH))).unwrap();
    for (bytes, expected) in [(&whole[..22], "6 SHORT"), (&whole[..whole.len() - 1], "6 SHORT"), (&[&whole[..], &[0]].concat(), "8 AFTER")]
    {
        fs::write(&model, bytes).unwrap();
        assert!(geoid(&["convert", &model, &out]).unwrap_err().starts_with(&format!("{model}: refused ({expected})")));
    }
}

#[test]
fn a_dated_field_has_the_numbers_of_an_undated_one() {
    let folder = Folder::new();
    let [plain, dated, list, basin, csv] = ["plain", "dated", "list.csv", "k.model", "g.csv"].map(|name| folder.file(name));
    write(&plain, &sample(6, None));
    write(&dated, &sample(6, Some(MARCH)));
    write(&basin, &kernel(Some(BEFORE)));
    fs::write(&list, "lat,lon,h\n50,10,0\n").unwrap();
    let (points, notes) = run(&["points", &dated, "--at", &list]);
    assert_eq!(points, run(&["points", &plain, "--at", &list]).0);
    assert!(notes.starts_with(&format!("geoid: note: {dated}: the field of 2024-03-15\n")), "{notes}");
    // A kernel's date is nobody's month.
    let (average, notes) = run(&["average", &dated, &basin]);
    assert_eq!(average, run(&["average", &plain, &basin]).0);
    assert!(notes.contains("the field of 2024-03-15") && !notes.contains("2023"), "{notes}");
    let grid = |field: &str| {
        geoid(&["grid", field, "--out", &csv, "--step", "45"]).unwrap();
        fs::read(&csv).unwrap()
    };
    assert_eq!(grid(&plain), grid(&dated));
}

#[test]
fn icgem_text_has_the_date_in_a_comment() {
    let folder = Folder::new();
    let [plain, dated, text, out] = ["plain.model", "dated.model", "x.gfc", "out.model"].map(|name| folder.file(name));
    write(&plain, &sample(3, None));
    write(&dated, &sample(3, Some(MARCH)));
    let (_, quiet) = run(&["convert", &plain, &text]);
    let without = fs::read_to_string(&text).unwrap();
    assert!(quiet.is_empty() && without.starts_with("product_type            gravity_field\nmodelname               x\n"));
    let (_, notes) = run(&["convert", &dated, &text]);
    let with = fs::read_to_string(&text).unwrap();
    let comment = "comment: the field of 2024-03-15 (day 8840 from 2000-01-01)\nbegin_of_head ==================================\n";
    assert_eq!(with, format!("{comment}{without}"));
    let told = "ICGEM text has no key for a date: 2024-03-15 stands in a comment, which is not read back";
    assert!(notes.ends_with(&format!("geoid: note: {text}: {told}\n")), "{notes}");
    // The reader passes the comment by.
    geoid(&["convert", &text, &out]).unwrap();
    assert_eq!(fs::read(&out).unwrap(), fs::read(&plain).unwrap());
    geoid(&["convert", &text, &out, "--date", "2024-03-15"]).unwrap();
    assert_eq!(fs::read(&out).unwrap(), fs::read(&dated).unwrap());
}

#[test]
fn grids_of_two_months_are_told_apart() {
    let folder = Folder::new();
    let model = folder.file("m.model");
    let grid = |date: Option<i32>, name: &str, options: &[&str]| {
        let out = folder.file(name);
        write(&model, &sample(4, date));
        geoid(&[&["grid", &model, "--out", &out, "--step", "30"], options].concat()).unwrap();
        let beside = if name.ends_with(".csv") || name.ends_with(".asc") { format!("{out}.aux.xml") } else { out };
        String::from_utf8_lossy(&fs::read(beside).unwrap()).into_owned()
    };
    for name in ["g.csv", "g.asc", "g.nc", "g.png"] {
        for (date, day) in [(MARCH, "2024-03-15"), (BEFORE, "2023-03-16")] {
            let said = grid(Some(date), name, &[]);
            assert!(said.contains(&format!("Geoid height, {day}")), "{name}");
            assert!(said.contains(&format!("m.model, to degree 4, of {day}")), "{name}");
            let titled = grid(Some(date), name, &["--title", "Essai"]);
            assert!(titled.contains("Essai") && !titled.contains("Geoid height, ") && titled.contains(&format!(", of {day}")), "{name}");
        }
        let plain = grid(None, name, &[]);
        assert!(plain.contains("m.model, to degree 4") && !plain.contains("degree 4, of") && !plain.contains("Geoid height, "), "{name}");
    }
}

#[test]
fn tables_of_averages_have_the_months_in_them() {
    let folder = Folder::new();
    let [a, b, plain, one, two, table] = ["a", "b", "plain", "one", "two", "t.csv"].map(|name| folder.file(name));
    write(&a, &sample(2, Some(MARCH)));
    write(&b, &sample(2, Some(BEFORE)));
    write(&plain, &sample(2, None));
    write(&one, &kernel(None));
    write(&two, &kernel(None));
    let columns = |field: &str, minus: &[&str]| {
        let words = [&["average", field, &one, &two, "--functional", "potential", "--out", &table], minus].concat();
        let (_, notes) = run(&words);
        let text = fs::read_to_string(&table).unwrap();
        let behind: Vec<String> = text.lines().map(|line| line.splitn(5, ',').nth(4).unwrap_or("").to_string()).collect();
        assert!(text.starts_with("name,average (m²/s²),share of the sphere,degree used") && behind[1] == behind[2], "{text}");
        (behind[..2].join(" "), notes)
    };
    assert_eq!(columns(&plain, &[]).0, " ");
    assert_eq!(columns(&plain, &["--minus", &plain]).0, " ");
    assert_eq!(columns(&a, &[]).0, "date 2024-03-15");
    let (both, notes) = columns(&a, &["--minus", &b]);
    assert_eq!(both, "date,minus date 2024-03-15,2023-03-16");
    assert!(notes.contains("note: the averages are those of a field of 2024-03-15 less one of 2023-03-16\n"), "{notes}");
    assert_eq!(columns(&a, &["--minus", &plain]).0, "date,minus date 2024-03-15,");
    let (second, notes) = columns(&plain, &["--minus", &b]);
    assert_eq!(second, "date,minus date ,2023-03-16");
    assert!(notes.contains("a field of no stated date less one of 2023-03-16\n"), "{notes}");
}

#[test]
fn a_difference_has_no_date_of_its_own() {
    let folder = Folder::new();
    let [a, b, plain, out] = ["a", "b", "plain", "d"].map(|name| folder.file(name));
    write(&a, &sample(2, Some(MARCH)));
    write(&b, &sample(2, Some(BEFORE)));
    write(&plain, &sample(2, None));
    let (answer, notes) = run(&["subtract", &a, &b, "--out", &out]);
    assert_eq!((answer, read(&out).date), (format!("{out}: degree 2, 6 pairs, {a} less {b}\n"), None));
    let months = format!("geoid: note: {out}: a field of 2024-03-15 less one of 2023-03-16");
    assert!(notes.ends_with(&format!("{months}, with no date of its own (--date gives it one)\n")), "{notes}");
    let (answer, notes) = run(&["subtract", &a, &b, "--out", &out, "--date", "2024-03-15"]);
    assert_eq!((answer, read(&out).date), (format!("{out}: degree 2, 6 pairs, date 2024-03-15, {a} less {b}\n"), Some(MARCH)));
    assert!(notes.ends_with(&format!("{months}\n")), "{notes}");
    // Who says that there is none is not told how to give one.
    let (_, notes) = run(&["subtract", &a, &b, "--out", &out, "--date", "none"]);
    assert!(read(&out).date.is_none() && notes.ends_with(&format!("{months}, with no date of its own\n")), "{notes}");
    assert!(run(&["subtract", &a, &plain, "--out", &out]).1.contains("a field of 2024-03-15 less one of no stated date, with no date"));
    assert_eq!(run(&["subtract", &plain, &plain, "--out", &out]).1, "");
    assert!(geoid(&["subtract", &a, &b, "--out", &out, "--date", "soon"]).unwrap_err().starts_with("--date is 'soon'"));
}

#[test]
fn a_prepared_month_keeps_its_date() {
    let folder = Folder::new();
    let [month, note, out] = ["m.model", "TN-14.txt", "out.model"].map(|name| folder.file(name));
    let mut field = sample(4, Some(MARCH)).rescaled(3.986004415e14, 6378136.3);
    write(&month, &field);
    let smoothed = geoid(&["smooth", &month, &out, "--gauss", "300"]).unwrap();
    assert_eq!((smoothed, read(&out).date), (format!("{out}: degree 4, 15 pairs, date 2024-03-15, Gauss 300 km\n"), Some(MARCH)));
    field.set(2, 0, -4.841694e-4, 0.0);
    write(&month, &field);
    fs::write(&note, solutions()).unwrap();
    assert!(geoid(&["replace", &month, &out, "--c20", &note]).unwrap().contains("solution of 2024-03-01 to 2024-04-01\n"));
    assert_eq!((read(&out).date, read(&out).c(2, 0)), (Some(MARCH), -4.8416931e-4));
}

/// Lines of technical note 14: March and April 2024, and a solution of May that overlaps April's.
fn solutions() -> String {
    let lines = [(60370, "-4.8416931e-4", 60401), (60401, "-4.8416932e-4", 60440), (60431, "-4.8416933e-4", 60462)];
    lines.map(|(from, c20, to)| format!("{from} 2024.2 {c20} 0.1 0.2 NaN NaN NaN {to} 2024.3\n")).concat()
}

/// The solution that a month of a date gets, or the error.
fn replaced(folder: &Folder, date: &str, options: &[&str]) -> Result<String, String> {
    let [month, note, out] = ["m.model", "TN-14.txt", "out.model"].map(|name| folder.file(name));
    let mut field = sample(4, None).rescaled(3.986004415e14, 6378136.3);
    field.set(2, 0, -4.841694e-4, 0.0);
    write(&month, &field);
    fs::write(&note, solutions()).unwrap();
    geoid(&["convert", &month, &month, "--date", date]).unwrap();
    let answer = geoid(&[&["replace", &month, &out, "--c20", &note], options].concat());
    let answer = answer.map_err(|error| error.replace(folder.path().to_str().unwrap(), ""))?;
    let state = geoid(&["info", &out]).unwrap();
    assert!(state.contains(&format!("date         {date}")), "{state}");
    Ok(answer.lines().next().unwrap().rsplit_once("solution of ").unwrap().1.to_string())
}

#[test]
fn a_date_names_the_solution_about_it() {
    let folder = Folder::new();
    let (march, april, may) = ("2024-03-01 to 2024-04-01", "2024-04-01 to 2024-05-10", "2024-05-01 to 2024-06-01");
    for (date, expected) in [("2024-03-10", march), ("2024-03-22", march), ("2024-04-20", april), ("2024-05-16", may)] {
        assert_eq!(replaced(&folder, date, &[]).as_deref(), Ok(expected), "{date}");
    }
    // A date about the middle of no solution, though it lies in two, in one, or in none of them.
    for date in ["2024-05-05", "2024-03-01", "2023-03-15"] {
        let rule = "(middles less than a week apart; --month names another)";
        let reach = "its 3 solutions are from 2024-03-01 to 2024-04-01 on to 2024-05-01 to 2024-06-01";
        assert_eq!(replaced(&folder, date, &[]), Err(format!("/TN-14.txt: has no C(2,0) for {date} {rule}; {reach}")));
    }
}

#[test]
fn a_month_that_contradicts_the_date_is_refused() {
    let folder = Folder::new();
    let (march, april, may) = ("2024-03-01 to 2024-04-01", "2024-04-01 to 2024-05-10", "2024-05-01 to 2024-06-01");
    let out = folder.file("out.model");
    // Any day of the month or of the solution is as good as its middle.
    for (date, month, solution, taken) in [
        ("2024-03-15", "2024-03", march, true),
        ("2024-03-01", "2024-03", march, true),
        ("2024-03-31", "2024-03-15", march, true),
        ("2024-05-05", "2024-04", april, true),
        ("2024-05-05", "2024-05", may, true),
        ("2024-05-05", "2024-05-20", may, true),
        ("2024-03-15", "2024-04", april, false),
        ("2009-11-14", "2024-03", march, false),
        ("2024-03-31", "2024-04", april, false),
        ("2024-04-01", "2024-03-15", march, false),
        ("2024-06-01", "2024-05-20", may, false),
    ] {
        let said = format!("its date is {date}, but the solution for --month {month} is that of {solution}");
        let way = "expected a --month about its date, or another date by geoid convert --date first";
        let due = if taken { Ok(solution.to_string()) } else { Err(format!("/m.model: {said}; {way}")) };
        fs::remove_file(&out).unwrap_or_default();
        assert_eq!(replaced(&folder, date, &["--month", month]), due, "{date} {month}");
        assert_eq!(fs::exists(&out).unwrap(), taken);
    }
    let words = ["replace", &folder.file("m.model"), &folder.file("o"), "--c20", &folder.file("TN-14.txt"), "--month", "2024-03"];
    assert_eq!(Command::new(env!("CARGO_BIN_EXE_geoid")).args(words).status().unwrap().code(), Some(1));
}
