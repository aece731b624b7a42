//! The reader and writer of ICGEM text.

use std::path::Path;

use geoid::field_file::{Choices, FieldFile};
use geoid::gfc;
use geoid::random::SplitMix64;
use geopotential::{Coefficients, TideSystem, model_file};

const HEAD: &str = "\
free text before the head, radius of no account
begin_of_head =======
product_type gravity_field
modelname    TEST
earth_gravity_constant 0.3986004415D+15
radius 6378136.3
max_degree 2
errors formal
norm fully_normalized
tide_system zero_tide
key L M C S sigma C sigma S
end_of_head =========
";
const DATA: &str = "\
gfc 0 0 1.0 0.0 0.0 0.0
gfc 2 0 -0.484165D-03 0.0d0 1e-12 0.0

gfc 2 1 -2.0E-10 1.4e-9 1e-13 2e-13
gfc 1 0 0.0 0.0 0.0 0.0
gfc 1 1 0.0 0.0 0.0 0.0
gfc 2 2 2.4e-6 -1.4e-6 1e-13 1e-13
";

fn read(text: &str) -> Result<FieldFile, String> {
    read_with(text, Choices::default())
}

fn read_with(text: &str, choices: Choices) -> Result<FieldFile, String> {
    gfc::read(text, &choices).map_err(|fault| fault.in_file(Path::new("x.gfc")).to_string())
}

/// The error of the sample file after one text in it is replaced.
fn refused(from: &str, to: &str) -> String {
    let text = format!("{HEAD}{DATA}");
    assert_eq!(text.matches(from).count(), 1, "{from}");
    read(&text.replace(from, to)).unwrap_err()
}

#[test]
fn a_file_with_everything() {
    let reading = read(&format!("{HEAD}{DATA}")).unwrap();
    let field = reading.field;
    assert_eq!((field.gm, field.radius, field.max_degree()), (3.986004415e14, 6378136.3, 2));
    assert_eq!(field.tide_system, TideSystem::ZeroTide);
    assert_eq!((field.c(0, 0), field.c(2, 0), field.c(2, 1), field.s(2, 1), field.c(2, 2)), (1.0, -4.84165e-4, -2e-10, 1.4e-9, 2.4e-6));
    assert_eq!((reading.name.as_deref(), reading.time, reading.notes.len()), (Some("TEST"), None, 0));
}

#[test]
fn line_ends_of_other_systems() {
    let reading = read(&format!("{HEAD}{DATA}").replace('\n', "\r\n")).unwrap();
    assert_eq!(reading.field.c(2, 0), -4.84165e-4);
}

#[test]
fn keys_that_may_be_absent() {
    let text = "earth_gravity_constant 1\nradius 1\nmax_degree 0\nend_of_head\ngfc 0 0 2 0\n";
    let reading = read(text).unwrap();
    assert_eq!((reading.field.tide_system, reading.field.c(0, 0), reading.name), (TideSystem::Unknown, 2.0, None));
}

#[test]
fn mistakes_in_the_head() {
    let cases = [
        ("product_type gravity_field", "product_type topography", "line 3: product_type is 'topography'; expected gravity_field"),
        ("norm fully_normalized", "norm unnormalized", "line 9: norm is 'unnormalized'; expected fully_normalized"),
        ("errors formal", "errors some", "line 8: errors is 'some'; expected no or calibrated or formal or calibrated_and_formal"),
        (
            "tide_system zero_tide",
            "tide_system low_tide",
            "line 10: tide_system is 'low_tide'; expected tide_free or zero_tide or mean_tide or unknown",
        ),
        ("radius 6378136.3", "radius six", "line 6: radius: 'six' is no number; expected one such as -4.84165D-04"),
        ("radius 6378136.3", "radius", "line 6: radius: '' is no number; expected one such as -4.84165D-04"),
        ("radius 6378136.3", "", "line 12: the head ends without the key 'radius'; expected a line 'radius VALUE'"),
        (
            "earth_gravity_constant 0.3986004415D+15",
            "",
            "line 12: the head ends without the key 'earth_gravity_constant'; expected a line 'earth_gravity_constant VALUE'",
        ),
        ("max_degree 2", "", "line 12: the head ends without the key 'max_degree'; expected a line 'max_degree VALUE'"),
        ("max_degree 2", "max_degree 2.0", "line 7: max_degree: '2.0' is no whole number; expected one from 0"),
        ("max_degree 2", "max_degree 2701", "line 7: max_degree: degree 2701 is above the library's limit; expected at most 2700"),
        ("errors formal", "radius 1", "line 8: the key 'radius' is given a second time (first in line 6); expected each key once"),
        (
            "end_of_head",
            "end_of_tail",
            "line 19: the file stops before 'end_of_head'; expected an ICGEM head (a model file begins with the byte 1 or 4)",
        ),
    ];
    for (from, to, expected) in cases {
        assert_eq!(refused(from, to), format!("x.gfc: {expected}"));
    }
}

#[test]
fn mistakes_in_the_data() {
    let cases = [
        (
            "gfc 2 1 -2.0E-10",
            "gfc 2 0 -2.0E-10",
            "line 16: the pair (2, 0) is given a second time (first in line 14); expected each pair once",
        ),
        ("gfc 2 1 -2.0E-10", "gfc 1 2 -2.0E-10", "line 16: order 2 is above degree 1; expected m from 0 to n"),
        ("gfc 2 1 -2.0E-10", "gfc 3 1 -2.0E-10", "line 16: degree 3 is above the head's max_degree; expected n from 0 to 2"),
        ("gfc 2 1 -2.0E-10", "gfc two 1 -2.0E-10", "line 16: 'two' is no whole number; expected one from 0"),
        ("gfc 2 1 -2.0E-10", "gfc 2 -1 -2.0E-10", "line 16: '-1' is no whole number; expected one from 0"),
        ("-2.0E-10", "-2.0X-10", "line 16: '-2.0X-10' is no number; expected one such as -4.84165D-04"),
        ("-2.0E-10", "nan", "line 16: 'nan' is no number; expected one such as -4.84165D-04"),
        ("-2.0E-10", "1e999", "line 16: '1e999' is too large for a double; expected a finite number"),
        ("gfc 2 1 -2.0E-10 1.4e-9 1e-13 2e-13", "gfc 2", "line 16: the order m is missing; expected 'gfc n m C S'"),
        ("gfc 2 1", "coefficient 2 1", "line 16: 'coefficient' is no keyword of a data line; expected 'gfc n m C S'"),
    ];
    for (from, to, expected) in cases {
        assert_eq!(refused(from, to), format!("x.gfc: {expected}"));
    }
}

#[test]
fn the_count_of_sigmas_is_the_heads() {
    let line = "gfc 2 1 -2.0E-10 1.4e-9 1e-13 2e-13";
    let due = "expected 4 by the head's 'errors': C, S, 2 standard deviations";
    for count in [0, 1, 2, 3, 5, 6] {
        let numbers = ["-2.0E-10", "1.4e-9", "1e-13", "2e-13", "3e-13", "4e-13"][..count].join(" ");
        let expected = format!("x.gfc: line 16: {count} numbers behind n and m; {due}");
        assert_eq!(refused(line, &format!("gfc 2 1 {numbers}")), expected);
    }
    let due = "expected 2 by the head's 'errors': C, S";
    assert_eq!(refused("errors formal", "errors no"), format!("x.gfc: line 13: 4 numbers behind n and m; {due}"));
    let due = "expected 6 by the head's 'errors': C, S, 4 standard deviations";
    assert_eq!(refused("errors formal", "errors calibrated_and_formal"), format!("x.gfc: line 13: 4 numbers behind n and m; {due}"));
    // Without the key the first line decides.
    let text = format!("{HEAD}{DATA}").replace("errors formal\n", "");
    assert!(read(&text).is_ok());
    let due = "expected 4 as in the first line: C, S, 2 standard deviations";
    assert_eq!(
        read(&text.replace(line, "gfc 2 1 -2.0E-10 1.4e-9")).unwrap_err(),
        format!("x.gfc: line 15: 2 numbers behind n and m; {due}")
    );
}

#[test]
fn a_text_cut_anywhere_is_refused() {
    let text = format!("{HEAD}{DATA}");
    for cut in 1..=text.trim_end().len() {
        assert!(read(&text[..cut]).is_err(), "cut to {cut} bytes: {:?}", &text[..cut].lines().last());
    }
    // Only what stands behind the last number may be lost.
    assert!(read(&format!("{text}  ")).is_ok());
    let error = read(text.trim_end()).unwrap_err();
    assert_eq!(error, "x.gfc: line 19: the file ends inside this line, without a line break: it is cut; expected a line break at its end");
}

#[test]
fn absent_pairs_are_refused_by_name() {
    let text = format!("{HEAD}{DATA}");
    let without = |lines: &[&str]| {
        text.lines().filter(|line| !lines.iter().any(|front| line.starts_with(front))).fold(String::new(), |text, line| text + line + "\n")
    };
    let error = read(&without(&["gfc 2 1"])).unwrap_err();
    assert_eq!(error, "x.gfc: the pair (2, 1) is absent; expected every pair to degree 2, or --absent-as-zero");
    let error = read(&without(&["gfc 2 1", "gfc 1 1", "gfc 2 2"])).unwrap_err();
    assert_eq!(error, "x.gfc: the pair (1, 1) is absent (and 2 more); expected every pair to degree 2, or --absent-as-zero");
    let zeros = Choices { absent_as_zero: true, ..Choices::default() };
    let reading = read_with(&without(&["gfc 2 1", "gfc 2 2"]), zeros).unwrap();
    assert_eq!((reading.field.c(2, 1), reading.field.c(2, 2)), (0.0, 0.0));
    assert_eq!(reading.notes, ["2 of 6 pairs are absent and taken as 0"]);
}

#[test]
fn a_whole_model_of_the_earth_may_begin_with_degree_two() {
    let text = format!("{HEAD}{DATA}").replace("gfc 0 0 1.0 0.0 0.0 0.0\n", "");
    let reading = read(&text).unwrap();
    assert_eq!(reading.field.c(0, 0), 1.0);
    assert_eq!(reading.notes, ["C(0,0) is absent and taken as 1, as in a model of the Earth whose GM stands for it"]);
    let text = text.replace("gfc 1 0 0.0 0.0 0.0 0.0\ngfc 1 1 0.0 0.0 0.0 0.0\n", "");
    let reading = read(&text).unwrap();
    assert_eq!((reading.field.c(0, 0), reading.field.c(1, 0), reading.field.c(1, 1)), (1.0, 0.0, 0.0));
    assert!(reading.notes[1].starts_with("degree 1 is absent and taken as 0"));
    // A difference of months, a kernel and another body may not.
    for (from, to) in [("-0.484165D-03", "1.2D-10"), ("0.3986004415D+15", "1.0"), ("0.3986004415D+15", "4.28283D+13")] {
        let error = read(&text.replace(from, to)).unwrap_err();
        let rule = "expected every pair to degree 2 (only a whole model of the Earth may leave out C(0,0)), or --absent-as-zero";
        assert_eq!(error, format!("x.gfc: the pair (0, 0) is absent (and 2 more); {rule}"));
    }
    // With --absent-as-zero the convention still holds where it is known to.
    let zeros = Choices { absent_as_zero: true, ..Choices::default() };
    assert_eq!(read_with(&text, zeros).unwrap().field.c(0, 0), 1.0);
    assert_eq!(read_with(&text.replace("-0.484165D-03", "1.2D-10"), zeros).unwrap().field.c(0, 0), 0.0);
}

#[test]
fn words_may_be_in_capitals() {
    let text = format!("{HEAD}{DATA}").to_uppercase().replace("FREE TEXT", "free text");
    let (small, capital) = (read(&format!("{HEAD}{DATA}")).unwrap(), read(&text).unwrap());
    assert_eq!(small.field, capital.field);
}

#[test]
fn gravity_constant_is_another_word() {
    let text = format!("{HEAD}{DATA}");
    assert_eq!(read(&text.replace("earth_gravity_constant", "gravity_constant")).unwrap().field.gm, 3.986004415e14);
    let both = text.replace("errors formal", "errors formal\ngravity_constant 1");
    let error = read(&both).unwrap_err();
    assert!(error.starts_with("x.gfc: line 9: the key 'earth_gravity_constant' is given a second time"), "{error}");
}

#[test]
fn free_text_before_the_head_may_begin_with_keys() {
    let text = format!("radius of the Earth and\nradius of the orbit\nmodelname ANOTHER\nerrors are\nerrors\n{HEAD}{DATA}");
    let reading = read(&text).unwrap();
    assert_eq!((reading.field.radius, reading.name.as_deref()), (6378136.3, Some("TEST")));
}

/// A field of random finite bits, subnormals and both zeros among them.
fn any_field(random: &mut SplitMix64, max_degree: usize) -> Coefficients {
    let mut number = || loop {
        let x = match random.word() % 16 {
            0 => 0.0,
            1 => -0.0,
            2 => f64::from_bits(random.word() >> 13),
            _ => f64::from_bits(random.word()),
        };
        if x.is_finite() {
            break x;
        }
    };
    let mut field = Coefficients::zeros(number(), number(), max_degree);
    for n in 0..=max_degree {
        for m in 0..=n {
            field.set(n, m, number(), number());
        }
    }
    field
}

#[test]
fn every_bit_comes_back() {
    let mut random = SplitMix64::new(11);
    let tides = [TideSystem::TideFree, TideSystem::ZeroTide, TideSystem::MeanTide, TideSystem::Unknown];
    for max_degree in 0..24 {
        let mut field = any_field(&mut random, max_degree);
        field.tide_system = tides[max_degree % 4];
        let text = gfc::write("any name", &field).unwrap();
        assert_eq!(text.lines().filter(|line| line.starts_with("gfc ")).count(), (max_degree + 1) * (max_degree + 2) / 2);
        let back = read(&text).unwrap();
        assert_eq!(back.notes.len(), 0);
        assert_eq!(model_file::write(&back.field).unwrap(), model_file::write(&field).unwrap());
    }
}

#[test]
fn numbers_that_are_not_finite_are_not_written() {
    let mut field = Coefficients::zeros(1.0, 1.0, 2);
    field.set(2, 1, 0.0, f64::NAN);
    let error = gfc::write("x", &field).unwrap_err().to_string();
    assert_eq!(error, "S of the pair (2, 1) is NaN; a .gfc file has finite numbers only");
    field.gm = f64::INFINITY;
    assert!(gfc::write("x", &field).unwrap_err().to_string().starts_with("earth_gravity_constant is inf"));
}
