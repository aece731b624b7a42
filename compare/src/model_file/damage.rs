//! Files with mistakes: damaged, cut, too long, with records left out or doubled.

use super::format::{DATED_HEAD, END, HEAD, Model, PAIR, file, file_length, head_length};
use super::{dates, model};
use crate::cases::Cases;
use crate::refusal::MAX_DEGREE;

/// Every file that one change of one byte makes of a small file, everywhere cut, with bytes behind the end, and pairs of those.
pub fn systematic(cases: &mut Cases, mut one: impl FnMut(&[u8])) {
    one(&[]);
    for first in 0..=255 {
        one(&[first]);
        (0..=255).for_each(|second| one(&[first, second]));
    }
    for nmax in 0..4 {
        for date in dates::both(cases) {
            one_mistake(&file(&model(cases, nmax, date)), &mut one);
        }
    }
    for nmax in [0, 1] {
        for date in dates::both(cases) {
            let whole = file(&model(cases, nmax, date));
            two_mistakes(cases, &whole, &mut one);
        }
    }
    for date in dates::both(cases) {
        let whole = file(&model(cases, 2, date));
        heads(&whole, head_length(date.is_some()), &mut one);
    }
}

fn one_mistake(whole: &[u8], one: &mut impl FnMut(&[u8])) {
    for place in 0..whole.len() {
        one(&whole[..place]);
        let mut damaged = whole.to_vec();
        for byte in 0..=255 {
            damaged[place] = byte;
            one(&damaged);
        }
    }
    for last in 0..=255 {
        one(&[whole, &[last]].concat());
    }
}

/// Two mistakes in one file: the one in front decides.
fn two_mistakes(cases: &mut Cases, whole: &[u8], one: &mut impl FnMut(&[u8])) {
    for first in 0..whole.len() {
        for second in first..whole.len() {
            for byte in [0, HEAD, PAIR, END, DATED_HEAD, 5, 0xff] {
                let mut damaged = whole.to_vec();
                damaged[first] = byte;
                one(&damaged[..second]);
                damaged[second] = cases.bits() as u8;
                one(&damaged);
                damaged.push(byte);
                one(&damaged);
            }
        }
    }
}

/// Every tide with degrees about those that pass, whole or cut within the head or behind it, under the kinds of both heads and under another.
fn heads(whole: &[u8], start: usize, one: &mut impl FnMut(&[u8])) {
    for tide in 0..=255 {
        for nmax in [0u16, 1, 2, 3, 86, 87, 255, 256, 512, 2699, 2700, 2701, 2702, 0x8c0a, 0x8d0a, 32_768, 65_535] {
            let mut damaged = whole.to_vec();
            damaged[17] = tide;
            damaged[18..20].copy_from_slice(&nmax.to_le_bytes());
            for kind in [HEAD, DATED_HEAD] {
                damaged[0] = kind;
                one(&damaged);
                (16..26).for_each(|length| one(&damaged[..length]));
            }
            damaged[0] = whole[0];
            damaged[start] = 7;
            one(&damaged);
            damaged[0] = PAIR;
            one(&damaged);
        }
    }
}

/// The places of the records of a file.
fn starts(nmax: usize, dated: bool) -> Vec<usize> {
    std::iter::once(0).chain((head_length(dated)..file_length(nmax, dated)).step_by(17)).collect()
}

/// A small file with up to four random mistakes, most of them at the bytes that are looked at.
pub fn random(cases: &mut Cases) -> Vec<u8> {
    let (nmax, date) = (cases.below(7) as usize, dates::any(cases));
    let mut bytes = file(&model(cases, nmax, date));
    let starts = starts(nmax, date.is_some());
    for _ in 0..cases.below(5) {
        let start = starts[cases.below(starts.len() as u64) as usize].min(bytes.len());
        let place = cases.below(bytes.len() as u64 + 1) as usize;
        let byte = cases.bits() as u8;
        match cases.below(10) {
            0 => change(&mut bytes, place, byte),
            1 => change(&mut bytes, start, byte),
            2 => change(&mut bytes, start, byte % 6),
            3..=5 => head(cases, &mut bytes),
            6 => bytes.truncate(if byte.is_multiple_of(2) { start } else { place }),
            7 => (0..1 + byte % 20).for_each(|_| bytes.push(cases.bits() as u8)),
            8 => {
                let stop = (start + 17).min(bytes.len());
                bytes.drain(start..stop);
            }
            _ => {
                let record = bytes[start..(start + 17).min(bytes.len())].to_vec();
                bytes.splice(start..start, record);
            }
        }
    }
    bytes
}

/// One mistake in a head: another kind, tide or degree, a date too many or too few, an end within it. Sometimes it is none.
pub fn head(cases: &mut Cases, bytes: &mut Vec<u8>) {
    let byte = cases.bits() as u8;
    let degree = bytes.get(18).copied().unwrap_or(0);
    match cases.below(8) {
        0 => change(bytes, 0, byte % 6),
        1 => change(bytes, 0, if byte.is_multiple_of(2) { HEAD } else { DATED_HEAD }),
        2 => change(bytes, 17, byte % 8),
        3 => change(bytes, 18, degree.wrapping_add(1).wrapping_sub(byte % 3)),
        4 => change(bytes, 19, byte % 16),
        5 => change(bytes, 20 + byte as usize % 4, byte),
        6 => bytes.truncate(16 + byte as usize % 10),
        _ if bytes.len() >= 24 && byte.is_multiple_of(2) => {
            bytes.drain(20..24);
        }
        _ => {
            let place = bytes.len().min(20);
            bytes.splice(place..place, (cases.bits() as u32).to_le_bytes());
        }
    }
}

/// Change one byte, where there is one.
fn change(bytes: &mut [u8], place: usize, byte: u8) {
    if let Some(cell) = bytes.get_mut(place) {
        *cell = byte;
    }
}

/// Mistakes of a model's large file, each undone before the next: in the head, in a kind byte, cut short, a byte too many.
pub fn large(cases: &mut Cases, model: &Model, mut one: impl FnMut(&[u8])) {
    let (mut bytes, dated) = (file(model), model.date.is_some());
    let (start, starts) = (head_length(dated), starts(model.nmax, dated));
    let (random, length) = (starts[cases.below(starts.len() as u64) as usize], bytes.len());
    // A file of degree 2700 takes long to look through, so it gets the last of these mistakes only.
    let skipped = if model.nmax < MAX_DEGREE { 0 } else { 4 };
    for place in [17, 18, 19, start, random, length - 1].into_iter().skip(skipped) {
        let kept = bytes[place];
        bytes[place] = if place == 18 { kept.wrapping_sub(1) } else { 7 };
        one(&bytes);
        bytes[place] = kept;
    }
    for cut in [start, start + 1, length - 17, random, random + 1, length - 1].into_iter().skip(skipped) {
        one(&bytes[..cut]);
    }
    bytes.push(END);
    one(&bytes);
}
