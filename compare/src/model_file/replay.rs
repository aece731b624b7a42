//! Small files with what they hold, by the plain writer. What a list has behind its answer is written out too: it must stay as it was.

use super::format::{Model, file};
use crate::constants::{array, bytes, hexadecimal};
use crate::refusals::{DAYS, date_number};

/// A list that is lent has so many places behind the answer.
const BEHIND: usize = 2;
/// What stands in lists before a call.
const WORD: u64 = 0x5a5a_1234_5a5a_9876;
const BYTE: u8 = 0xa5;

const QUIET: u64 = 0x7ff8_dead_beef_0001;
const NEGATIVE_QUIET: u64 = 0xfffc_0bad_cafe_7e57;
const SIGNALLING: u64 = 0x7ff0_0000_0000_0001;
const NEGATIVE_SIGNALLING: u64 = 0xfff4_0123_4567_89ab;
const NEGATIVE_ZERO: u64 = 1 << 63;

const GM: u64 = 3.986004415e14f64.to_bits();
const RADIUS: u64 = 6378136.3f64.to_bits();

fn model(gm: u64, radius: u64, tide: u8, nmax: usize, c: &[u64], s: &[u64]) -> Model {
    Model { gm, radius, tide, date: None, nmax, c: c.to_vec(), s: s.to_vec() }
}

/// Degrees 0 to 3 and tides 0 to 3; gm is never radius, c never s; NaNs of every kind and -0 stand among the pairs, in gm and in radius.
fn undated() -> [Model; 8] {
    let (gm, radius) = (GM, RADIUS);
    let number = |x: f64| x.to_bits();
    let long_c = [1.0, 0.25, -0.3, -4.841694e-4, -1.9e-10, 2.4393836e-6, 9.5716e-7, 2.0304e-6].map(number);
    let long_s = [0.0, 1e-310, 0.7, f64::INFINITY, 1.2e-9, -1.4002737e-6, f64::MAX, 2.482e-7].map(number);
    [
        model(gm, radius, 0, 0, &[number(1.0)], &[NEGATIVE_ZERO]),
        model(gm, radius, 1, 1, &[NEGATIVE_ZERO, QUIET, 1], &[0, SIGNALLING, number(f64::NEG_INFINITY)]),
        model(
            radius,
            gm,
            2,
            2,
            &[NEGATIVE_SIGNALLING, NEGATIVE_QUIET, number(0.1), number(-0.7), 0x0102_0304_0506_0708, u64::MAX],
            &[QUIET, NEGATIVE_ZERO, SIGNALLING, number(5.0), 0xf1e2_d3c4_b5a6_9788, 0x7fff_ffff_ffff_ffff],
        ),
        model(
            gm,
            radius,
            3,
            3,
            &[&long_c[..], &[SIGNALLING, NEGATIVE_ZERO]].concat(),
            &[&long_s[..], &[NEGATIVE_QUIET, NEGATIVE_SIGNALLING]].concat(),
        ),
        model(QUIET, NEGATIVE_SIGNALLING, 3, 0, &[QUIET], &[NEGATIVE_QUIET]),
        model(NEGATIVE_ZERO, SIGNALLING, 2, 1, &[2, 3, 4], &[5, 6, 7]),
        model(NEGATIVE_QUIET, NEGATIVE_ZERO, 1, 0, &[SIGNALLING], &[QUIET]),
        model(0x0123_4567_89ab_cdef, 0xfedc_ba98_7654_3210, 0, 2, &[1, 2, 3, 4, 5, 6], &[11, 12, 13, 14, 15, 16]),
    ]
}

/// A model for each count of days that the programs know, the last two, whose counts have four different bytes, of degree 1 and 2.
fn dated() -> Vec<Model> {
    let of = |model: Model, days: i32| Model { date: Some(days), ..model };
    let [small @ .., first, second] = DAYS;
    let tides = (0..4).cycle();
    let mut list: Vec<Model> =
        small.into_iter().zip(tides).map(|(days, tide)| of(model(GM, RADIUS, tide, 0, &[SIGNALLING], &[NEGATIVE_QUIET]), days)).collect();
    list.push(of(model(RADIUS, GM, 1, 1, &[1, QUIET, 3], &[NEGATIVE_ZERO, 5, SIGNALLING]), first));
    list.push(of(model(QUIET, NEGATIVE_ZERO, 2, 2, &[21, 22, 23, 24, 25, 26], &[31, 32, 33, 34, 35, 36]), second));
    list
}

/// A list at the front of the one that is lent.
fn lent<T: Copy>(list: &[T], rest: T) -> Vec<T> {
    [list, &[rest; BEHIND]].concat()
}

pub fn replay() -> String {
    let mut text = String::from("// Model files as their bytes, and what they hold as bit patterns, by a writer of its own.\n");
    text += "// Written by `compare/run replay model_file FILE` (see compare/README.md), never by hand.\n";
    let words = |list: &[u64]| list.iter().map(|&bits| hexadecimal(bits)).collect::<Vec<_>>();
    for (i, model) in undated().iter().chain(&dated()).enumerate() {
        let file = lent(&file(model), BYTE);
        text += &bytes(&format!("file {i}: its bytes, and two of the list behind them"), &format!("FILE_{i}"), &file);
        let head = [model.gm, model.radius, model.tide as u64, model.nmax as u64, date_number(model.date)];
        text += &array("its gm, radius, tide, N and date", &format!("HEAD_{i}"), &words(&head));
        text += &array("its c, and two of the list behind them", &format!("C_{i}"), &words(&lent(&model.c, WORD)));
        text += &array("its s, and two of the list behind them", &format!("S_{i}"), &words(&lent(&model.s, WORD)));
    }
    text
}
