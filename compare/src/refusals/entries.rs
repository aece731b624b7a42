//! What the C entries refuse by themselves: numbers that are no functional's, tides that are none, and lists of fixed lengths; and that of two lists the
//! one refused is that of the table. The cases of `grow` are all of them.

use super::fields::{ANALYSIS, GRID};
use super::files::{DATE, WRITE, WRITE_DATED, model};
use super::points::{self, SECOND_PARTIALS_ALONG, point_to_list};
use super::{Call, Input, Love, Output, Value, constants, distinct, front, title};
use crate::constants::bytes;
use crate::model_file::format::{HEAD_WORDS, Model, file, read};
use crate::refusal::{SPACE, TIDE, pairs};

/// The columns of a case.
const WIDTH: usize = 12;

/// The calls that take a functional.
const FACTOR: Call =
    Call { name: "factor", limits: &[2700], small: &[&[1]], functionals: &[0], lists: |n| vec![(Love, n[0] as u128 + 1), (Value, 1)] };

const DEGREE_AMPLITUDES: Call = Call {
    name: "degree_amplitudes",
    limits: &[2700],
    small: &[&[1]],
    functionals: &[0],
    lists: |n| vec![(Input, pairs(n[0])), (Input, pairs(n[0])), (Love, n[0] as u128 + 1), (Output, n[0] as u128 + 1)],
};

const BASIN_AVERAGE: Call = Call {
    name: "basin_average",
    limits: &[2700, 2700],
    small: &[&[1, 0]],
    functionals: &[0],
    lists: |n| {
        let (field, kernel) = (pairs(n[0]), pairs(n[1]));
        vec![(Input, field), (Input, field), (Input, kernel), (Input, kernel), (Love, n[0].min(n[1]) as u128 + 1), (Value, 1)]
    },
};

/// One point, whose numbers go to a list.
const PARTIALS: Call = Call { lists: |n| point_to_list(4, 4, n[0]), ..points::PARTIALS };

const SECOND_PARTIALS: Call = Call { lists: |n| point_to_list(5, 10, n[0]), ..points::SECOND_PARTIALS };

/// N, the tide, the lengths of c, s and of the bytes, and `dated`. A tide above 3 comes before every check.
fn model_write() -> String {
    let (mut rows, mut dues) = (Vec::new(), Vec::new());
    for (call, dated) in [(WRITE, 0), (WRITE_DATED, 1), (WRITE_DATED, 2), (WRITE_DATED, 1 << 31), (WRITE_DATED, u32::MAX)] {
        for (tide, case) in writes(&call, dated < 2) {
            let due = if tide > 3 { TIDE } else { call.due(&case) };
            let sizes = [case.sizes[0] as u64, tide as u64].into_iter();
            let lengths = case.lengths.iter().map(|&length| length as u64);
            rows.push(sizes.chain(lengths).chain([dated as u64]).collect::<Vec<u64>>());
            dues.push([due as u64, if due == 0 { front(0, call.stated(&[0]).lengths[2] as u64) } else { 0 }]);
        }
    }
    constants("model_write", WIDTH, &rows, &dues)
}

/// Tides with the sizes and lengths of a call, a few of them where not all are asked for.
fn writes(call: &Call, all: bool) -> Vec<(u32, super::Case)> {
    let stated = || call.stated(&[0]);
    let bytes = stated().lengths[2];
    let short = |nmax, lengths: [usize; 3]| super::Case { sizes: vec![nmax], functional: None, lengths: lengths.to_vec() };
    if !all {
        return vec![(0, stated()), (3, short(0, [1, 1, bytes - 1]))];
    }
    let mut cases: Vec<(u32, super::Case)> = (0..=4).chain([5, 255, 256, u32::MAX]).map(|tide| (tide, stated())).collect();
    for tide in [3, 4] {
        for (nmax, c, s, out) in [(2701, 1, 1, bytes), (0, 0, 1, bytes), (0, 1, 0, bytes), (0, 1, 1, bytes - 1), (2701, 0, 0, 0)] {
            cases.push((tide, short(nmax, [c, s, out])));
        }
        cases.extend(call.two_lists().into_iter().map(|case| (tide, case)));
    }
    distinct(cases)
}

/// A copy of a file: the length kept, the tide's byte; then the lengths of c, s and of the head's words; 1 for the file with a date.
fn model_read() -> String {
    let files = [None, DATE].map(|date| file(&model(date)));
    let (mut rows, mut dues) = (Vec::new(), Vec::new());
    for (dated, whole) in files.iter().enumerate() {
        for case in reads(whole.len()) {
            let mut bytes = whole.clone();
            bytes[17] = case[1] as u8;
            let due = match read(&bytes[..case[0]], &mut Model::default()) {
                Ok(()) if case[2] < 3 || case[3] < 3 || case[4] < HEAD_WORDS => SPACE,
                other => other.err().unwrap_or(0),
            };
            rows.push(case.into_iter().chain([dated]).map(|x| x as u64).collect());
            dues.push([due as u64, if due == 0 { front(0, 3) + front(1, 3) + front(2, HEAD_WORDS as u64) } else { 0 }]);
        }
    }
    let [undated, dated] = files;
    bytes("the file that is read, and as many bytes behind it as the other has", "FILE", &[&undated[..], &[0; 4]].concat())
        + &bytes("the file with a date", "DATED_FILE", &dated)
        + &constants("model_read", WIDTH, &rows, &dues)
}

/// The first five columns, of a file of this length.
fn reads(length: usize) -> Vec<[usize; 5]> {
    let mut cases: Vec<[usize; 5]> = [3, 4, 5, 6, 7, 0].map(|head| [length, 2, 3, 3, head]).to_vec();
    cases.extend([[length, 2, 2, 3, 6], [length, 2, 3, 2, 6], [length, 2, 2, 2, 5], [length, 0, 4, 4, 6], [length, 3, 4, 4, 6]]);
    // The file's own mistakes come first, before each list.
    cases.extend([[length, 4, 3, 3, 5], [length - 1, 2, 3, 3, 5], [0, 2, 2, 2, 0]]);
    cases.extend([19, 20, 23, 24].map(|kept| [kept, 4, 3, 3, 5]));
    for (kept, tide) in [(length, 4), (length - 1, 2)] {
        cases.extend([[kept, tide, 2, 3, 6], [kept, tide, 3, 2, 6]]);
    }
    distinct(cases)
}

/// So many numbers to a list, whose length is the only column.
fn fixed(name: &str, numbers: u64) -> String {
    let rows = [0, numbers - 1, numbers, numbers + 1].map(|length| vec![length]);
    let due = |row: Vec<u64>| if row[0] < numbers { [SPACE as u64, 0] } else { [0, front(0, numbers)] };
    constants(name, WIDTH, &rows, &rows.clone().map(due))
}

pub fn replay() -> String {
    let mut text = title("What the C entries refuse by themselves", "refusals_c");
    for call in [FACTOR, DEGREE_AMPLITUDES, GRID, BASIN_AVERAGE, ANALYSIS] {
        text += &call.constants_of(&distinct([call.functionals(), call.two_lists()].concat()), WIDTH);
    }
    for call in [PARTIALS, SECOND_PARTIALS, SECOND_PARTIALS_ALONG] {
        text += &call.constants(WIDTH);
    }
    text + &model_write() + &model_read() + &fixed("three", 3) + &fixed("nine", 9) + &super::grow::refusals(WIDTH)
}
