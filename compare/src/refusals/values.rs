//! What the C entries hand on: a factor of every functional, entries of a field, model files; beside them refusals of the same calls that `entries.rs`
//! has not. First comes the refusal's number or 0, then all that the lists and the number that are lent hold afterwards.

use oracle::Coefficients;

use super::files::head_due;
use crate::constants::{array, bytes, hexadecimal, number};
use crate::functional::{WATER_HEIGHT, functional};
use crate::model_file::format::{END, HEAD_WORDS, Model, file, file_length, read};
use crate::refusal::{LOVE, MAX_DEGREE, PLACE, SIZE, pairs};

/// What stands in lists and in the number before a call.
pub(super) const MARK: f64 = 1234.5;
const MARK_WORD: u64 = 0x5a5a_1234_5a5a_9876;
pub(super) const MARK_LENGTH: usize = 1234;

/// Love numbers of degree 0 to 3.
const LOVES: [f64; 4] = [0.125, 0.25, 0.5, 0.75];
/// The entries of a field of degree 1.
const C: [f64; 3] = [1.0, 2.0, 3.0];
const S: [f64; 3] = [4.0, 5.0, 6.0];
/// Places of its table, and places that are none.
const PLACES: [(usize, usize); 3] = [(1, 0), (1, 2), (2, 0)];

fn refused(refusal: u32) -> String {
    refusal.to_string()
}

pub(super) fn numbers(list: &[f64]) -> Vec<String> {
    list.iter().map(|&x| number(x)).collect()
}

/// A factor of degree 3 of each functional, then those of the last two with one Love number too few.
fn factors() -> Vec<String> {
    let of = |which| [refused(0), number(functional(which, &LOVES).factor(3, 3.5, 7.25, 8.0))];
    let all = (0..=WATER_HEIGHT).flat_map(of);
    all.chain(of(WATER_HEIGHT - 1)).chain([refused(LOVE), number(MARK)]).collect()
}

pub(super) fn field() -> Coefficients {
    let mut field = Coefficients::zeros(3.5, 7.25, 1);
    (field.c, field.s) = (C.to_vec(), S.to_vec());
    field
}

fn inside((n, m): (usize, usize)) -> bool {
    m <= n && n <= 1
}

fn entries(value: impl Fn(usize, usize) -> f64) -> Vec<String> {
    let of = |place: (usize, usize)| {
        if inside(place) { [refused(0), number(value(place.0, place.1))] } else { [refused(PLACE), number(MARK)] }
    };
    PLACES.into_iter().flat_map(of).collect()
}

/// c and s after an entry was set, or not.
fn set() -> Vec<String> {
    let of = |place: (usize, usize)| {
        let mut field = field();
        if inside(place) {
            field.set(place.0, place.1, 0.625, -0.375);
        }
        let refusal = if inside(place) { 0 } else { PLACE };
        [vec![refused(refusal)], numbers(&field.c), numbers(&field.s)].concat()
    };
    PLACES.into_iter().take(2).flat_map(of).collect()
}

fn zeros() -> Vec<String> {
    let zeros = Coefficients::zeros(3.5, 7.25, 1);
    [vec![refused(0)], numbers(&zeros.c), numbers(&[MARK]), numbers(&zeros.s), numbers(&[MARK])].concat()
}

fn model(date: Option<i32>) -> Model {
    let (c, s) = (vec![0x0102_0304_0506_0708, 1, u64::MAX], vec![0xf1e2_d3c4_b5a6_9788, 2, 1 << 63]);
    Model { gm: 0x0123_4567_89ab_cdef, radius: 0xfedc_ba98_7654_3210, tide: 2, date, nmax: 1, c, s }
}

/// What is read of a file: c, s and the head, each with one place behind it.
fn reading(bytes: &[u8]) -> Vec<String> {
    let mut model = Model::default();
    let words = match read(bytes, &mut model) {
        Ok(()) => {
            let head = model.words().to_vec();
            [vec![0], model.c, vec![MARK_WORD], model.s, vec![MARK_WORD], head, vec![MARK_WORD]].concat()
        }
        Err(refusal) => [vec![refusal as u64], vec![MARK_WORD; 9 + HEAD_WORDS]].concat(),
    };
    words.into_iter().map(hexadecimal).collect()
}

/// What is told of lists: the refusal or 0, then their lengths, and the mark in every place behind them, so many in all.
pub(super) fn told(refusal: u32, lengths: &[usize], places: usize) -> Vec<String> {
    let lengths = lengths.iter().filter(|_| refusal == 0).chain(std::iter::repeat(&MARK_LENGTH)).take(places);
    std::iter::once(refusal as usize).chain(lengths.copied()).map(|x| x.to_string()).collect()
}

/// The front of a file of degree 1, and what is told of its lists: its bytes, c, s, the words of its head.
fn read_lengths(name: &str, front: &[u8], dated: bool) -> String {
    let lengths = [file_length(1, dated), 3, 3, HEAD_WORDS];
    let due = array("what is told of its lists", &format!("LENGTHS_{name}"), &told(head_due(front), &lengths, 5));
    if front.len() < file_length(1, dated) { bytes("the front of that file", name, front) + &due } else { due }
}

/// What is told of the lists of a file that is written: c, s, its bytes.
fn write_lengths(name: &str, nmax: usize, dated: bool) -> String {
    let (refusal, pairs) = (if nmax > MAX_DEGREE { SIZE } else { 0 }, pairs(nmax) as usize);
    let lengths = told(refusal, &[pairs, pairs, file_length(nmax, dated)], 4);
    array(&format!("of a file of degree {nmax}{}", if dated { " with a date" } else { "" }), &format!("WRITE_LENGTHS{name}"), &lengths)
}

/// What is told of lists of both kinds of file.
fn lengths(whole: &[u8], dated: &[u8]) -> String {
    let read = read_lengths("CUT", &whole[..19], false) + &read_lengths("HEAD", &whole[..20], false) + &read_lengths("FILE", whole, false);
    let cut = read_lengths("DATED_CUT", &dated[..23], true);
    let read_dated = cut + &read_lengths("DATED_HEAD", &dated[..24], true) + &read_lengths("DATED", dated, true);
    let write = write_lengths("", 1, false) + &write_lengths("_DATED", 1, true);
    read + &read_dated + &write + &write_lengths("_LARGE", 2700, true) + &write_lengths("_BEYOND", 2701, true)
}

pub fn replay() -> String {
    let mut text =
        String::from("// What the C entries hand on, numbers as bit patterns, the refusal first; the mark where nothing is handed on.\n");
    text += "// Written by `compare/run replay values_c FILE` (see compare/README.md), never by hand.\n";
    text += &array("factors by their functional's number, then 4 and 5 with a Love number too few", "FACTOR", &factors());
    text += &array("entries of c at (1, 0), (1, 2), (2, 0)", "COEFFICIENT_C", &entries(|n, m| field().c(n, m)));
    text += &array("of s", "COEFFICIENT_S", &entries(|n, m| field().s(n, m)));
    text += &array("c and s after an entry was set at (1, 0), (1, 2)", "SET", &set());
    text += &array("c and s of zeros", "ZEROS", &zeros());
    let (whole, dated) = (file(&model(None)), file(&model(Some(0x89ab_cdef_u32 as i32))));
    let (mut kind, long) = (whole.clone(), [&whole[..], &[END]].concat());
    kind[20] = END;
    text += &bytes("a model file", "FILE", &whole);
    text += &array("what it holds: c, s, gm, radius, tide, N, dated and the bits of the date", "READ", &reading(&whole));
    text += &bytes("the same with a date", "DATED", &dated);
    text += &array("what that holds", "READ_DATED", &reading(&dated));
    text += &array("with a record of another kind at byte 20", "READ_KIND", &reading(&kind));
    text += &bytes("with a byte too many", "LONG", &long);
    text += &array("what is read of that", "READ_LONG", &reading(&long));
    text + &lengths(&whole, &dated) + &super::tensors::text() + &super::grow::text()
}
