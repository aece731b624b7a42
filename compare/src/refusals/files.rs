//! The calls on model files: damaged copies of two files for the reader, without a date and with one; lengths about the stated ones for the writer.

use super::{Call, Input, Output, constants, distinct, front, title};
use crate::constants::{array, bytes};
use crate::model_file::format::{DATED_HEAD, Model, file, file_length, head_length, read};
use crate::refusal::{SHORT, SPACE, pairs};

/// The columns of a case.
const WIDTH: usize = 8;

/// The files that are damaged: degree 1, 72 bytes, or 76 with a date, whose bytes are 2, 3, 4 and 133: the first could be the kind of a pair.
pub(super) fn model(date: Option<i32>) -> Model {
    Model { gm: 3.5f64.to_bits(), radius: 7.25f64.to_bits(), tide: 2, date, nmax: 1, c: vec![1, 2, 3], s: vec![4, 5, 6] }
}

pub(super) const DATE: Option<i32> = Some(0x8504_0302_u32 as i32);

/// Copies of a file: the length kept of it (one more byte, a 3, behind its end), and two places with the bytes that are put there.
fn copies(date: Option<i32>) -> Vec<[usize; 5]> {
    let (whole, body) = (file_length(1, date.is_some()), head_length(date.is_some()));
    let one = |length, place, byte| [length, place, byte, place, byte];
    let kind = file(&model(date))[0] as usize;
    let mut list = vec![one(whole, 0, kind), one(whole + 1, 0, kind)];
    // Every kind byte with another kind; each tide and two that are none.
    let kinds = [0, body, body + 17, body + 34, body + 51];
    list.extend(kinds.into_iter().flat_map(|place| [0, 1, 2, 3, 4, 255].map(|byte| one(whole, place, byte))));
    list.extend([0, 1, 2, 3, 4, 255].map(|tide| one(whole, 17, tide)));
    // N: 0, 2, 257, 2700, 2701, 65,535.
    list.extend([(0, 0), (2, 0), (1, 1), (0x8c, 0x0a), (0x8d, 0x0a), (255, 255)].map(|(low, high)| [whole, 18, low, 19, high]));
    // Cut.
    let cuts = [body - 1, body, body + 1, body + 16, body + 17, body + 18, body + 33, body + 34, body + 50, body + 51];
    list.extend([0, 1, 17, 18, 19, 20].into_iter().chain(cuts).map(|length| one(length, 0, kind)));
    // Two mistakes, of which the one in front counts: kind, then what is missing; tide, then N, then the body; the end's kind, then a byte after it.
    list.extend([one(1, 0, 2), one(19, 17, 4), one(20, 17, 4), one(body - 1, 17, 4), one(body, 17, 4), one(body - 1, 19, 0x0b)]);
    list.extend([[whole, 17, 4, 19, 0x0b], [body, 17, 4, 19, 0x0b], one(body, 19, 0x0b), one(body + 16, body, 3), one(body + 51, body, 3)]);
    list.extend([one(whole + 1, body + 51, 2), one(whole + 1, 17, 4), one(whole + 1, 0, 3)]);
    list
}

/// A case of the reader: a copy, and the lengths of c and s.
type Reading = ([usize; 5], [usize; 2]);

/// Lists that are too short for every model of these files: SPACE comes last, behind every mistake of the file.
const TOO_SHORT: [usize; 2] = [2, 0];

/// Every copy with lists that are long enough, the whole file with lists about the stated ones, and every fourth copy with lists that are too short.
fn readings(date: Option<i32>) -> Vec<Reading> {
    let copies = copies(date);
    let mut cases: Vec<Reading> = copies.iter().map(|&copy| (copy, [4, 4])).collect();
    cases.extend([[3, 3], [2, 3], [3, 2], [2, 2], [4, 3], [0, 0]].map(|lengths| (copies[0], lengths)));
    cases.extend(copies.iter().skip(1).step_by(4).map(|&copy| (copy, TOO_SHORT)));
    distinct(cases)
}

/// The copies between those with lists that are too short, so that no copy is left out, however the list of copies grows.
fn other_readings(date: Option<i32>) -> Vec<Reading> {
    let (had, all) = (readings(date), copies(date).into_iter().map(|copy| (copy, TOO_SHORT)));
    distinct(all.filter(|case| !had.contains(case)).collect())
}

/// A damaged copy, as long as it is kept.
fn damaged(whole: &[u8], copy: [usize; 5]) -> Vec<u8> {
    let mut bytes = whole.to_vec();
    (bytes[copy[1]], bytes[copy[3]]) = (copy[2] as u8, copy[4] as u8);
    bytes.truncate(copy[0]);
    bytes
}

/// Cases of the reader, and of each the refusal of the call and what it writes.
fn reading_constants(name: &str, whole: &[u8], cases: &[Reading]) -> String {
    let (mut rows, mut dues) = (Vec::new(), Vec::new());
    for &(copy, lengths) in cases {
        let mut model = Model::default();
        let due = match read(&damaged(whole, copy), &mut model) {
            Ok(()) if lengths.iter().any(|&length| length < model.c.len()) => SPACE,
            other => other.err().unwrap_or(0),
        };
        let written = if due == 0 { (0..2).map(|place| front(place, model.c.len() as u64)).sum() } else { 0 };
        rows.push(copy.into_iter().chain(lengths).map(|x| x as u64).collect::<Vec<u64>>());
        dues.push([due as u64, written]);
    }
    constants(name, WIDTH, &rows, &dues)
}

/// Due of each copy are also the refusals of the calls that look at the head alone, and at the whole file without lists.
fn reader(name: &str, date: Option<i32>) -> String {
    let mut whole = [&file(&model(date))[..], &[3]].concat();
    let cases = readings(date);
    let verdicts = cases.iter().flat_map(|&(copy, _)| {
        let bytes = damaged(&whole, copy);
        [head_due(&bytes), read(&bytes, &mut Model::default()).err().unwrap_or(0)]
    });
    let verdicts: Vec<String> = verdicts.map(|due| due.to_string()).collect();
    let title = name.to_uppercase();
    let text = reading_constants(name, &whole, &cases)
        + &array("due of the head alone, and of the whole file without lists", &format!("{title}_VERDICT_DUE"), &verdicts)
        + &reading_constants(&format!("{name}_too_short"), &whole, &other_readings(date));
    whole.resize(77, 0);
    bytes("the file that is damaged, a byte behind it, and zeros up to the length of the longest", &format!("{title}_FILE"), &whole) + &text
}

/// What is due of the head alone, whatever stands behind it: a copy that is cut behind its head is short there, and no other mistake is left.
pub(super) fn head_due(bytes: &[u8]) -> u32 {
    let length = head_length(bytes.first() == Some(&DATED_HEAD));
    let head = read(&bytes[..length.min(bytes.len())], &mut Model::default()).err().unwrap_or(0);
    if head == SHORT && bytes.len() >= length { 0 } else { head }
}

pub(super) const WRITE: Call = Call {
    name: "write",
    limits: &[2700],
    small: &[&[0]],
    functionals: &[],
    lists: |n| vec![(Input, pairs(n[0])), (Input, pairs(n[0])), (Output, 21 + 17 * pairs(n[0]))],
};

pub(super) const WRITE_DATED: Call =
    Call { name: "write_dated", lists: |n| vec![(Input, pairs(n[0])), (Input, pairs(n[0])), (Output, 25 + 17 * pairs(n[0]))], ..WRITE };

pub fn replay() -> String {
    let readers = reader("read", None) + &reader("read_dated", DATE);
    title("Model files", "refusals_files") + &readers + &WRITE.constants(WIDTH) + &WRITE_DATED.constants(WIDTH)
}
