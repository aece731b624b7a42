//! Dates: counts of days in every form, in files and as the writer is told them.

use super::format::{HEAD_WORDS, file, file_length};
use super::{Told, damage, model, read, write};
use crate::cases::Cases;
use crate::refusal::pairs;
use crate::tally::Tally;

/// What a caller may state for whether there is a date: 0 is none, every other number is one, whatever its low bits are.
const DATED: [u32; 8] = [0, 1, 2, 7, 256, 65_536, 1 << 31, u32::MAX];

/// Counts about 0 and at both ends of 32 bits, and those with one byte that is unlike the other three.
fn counts() -> Vec<i32> {
    let bytes = (0..4).flat_map(|place| [1, 0x7f, 0x80, 0xff].map(|byte: u32| byte << (8 * place)));
    let apart = bytes.flat_map(|pattern| [pattern as i32, !pattern as i32]);
    [0, 1, -1, 8840, i32::MIN, i32::MIN + 1, i32::MAX, i32::MAX - 1].into_iter().chain(apart).collect()
}

/// One of those, or a count of any bits.
pub fn count(cases: &mut Cases) -> i32 {
    let edges = counts();
    if cases.below(2) == 0 { edges[cases.below(edges.len() as u64) as usize] } else { cases.bits() as i32 }
}

/// No date, and some date.
pub fn both(cases: &mut Cases) -> [Option<i32>; 2] {
    [None, Some(count(cases))]
}

/// One of the two.
pub fn any(cases: &mut Cases) -> Option<i32> {
    both(cases)[cases.below(2) as usize]
}

pub fn compare(tally: &mut Tally, cases: &mut Cases) {
    for nmax in [0, 1, 2] {
        // Every byte of the count with every value, beside three of any value.
        let changed = (0..4).flat_map(|place| (0..=255).map(move |byte| (place, byte))).map(|(place, byte)| {
            let mut bytes = (cases.bits() as i32).to_le_bytes();
            bytes[place] = byte;
            i32::from_le_bytes(bytes)
        });
        let days: Vec<i32> = counts().into_iter().chain(changed).collect();
        days.into_iter().for_each(|days| one_count(tally, cases, nmax, days));
    }
    for _ in cases.times(200_000) {
        let nmax = cases.below(7) as usize;
        any_numbers(tally, cases, nmax);
    }
}

/// A file with this count, into heads of every length about six; written for every number that states whether there is a date.
fn one_count(tally: &mut Tally, cases: &mut Cases, nmax: usize, days: i32) {
    let (model, count) = (model(cases, nmax, Some(days)), pairs(nmax) as usize);
    let bytes = file(&model);
    (0..HEAD_WORDS + 2).for_each(|head| read(tally, &bytes, [count, count, head]));
    for dated in DATED {
        let told = Told { dated, ..Told::of(&model) };
        let length = file_length(nmax, dated != 0);
        // One byte too few, as many as are needed, and as many as a date would need: none of them may change without one.
        for out in [length - 1, length, file_length(nmax, true)] {
            write(tally, &model, told, [count, count, out]);
        }
    }
}

/// A length: mostly the stated one, else one too few or one too many.
fn about(cases: &mut Cases, length: usize) -> usize {
    match cases.below(8) {
        0 => length - 1,
        1 => length + 1,
        _ => length,
    }
}

/// A writer's call with numbers that may be wrong, and a dated file whose head is damaged.
fn any_numbers(tally: &mut Tally, cases: &mut Cases, nmax: usize) {
    let (days, count) = (count(cases), pairs(nmax) as usize);
    let model = model(cases, nmax, Some(days));
    let dated = if cases.below(4) == 0 { cases.bits() as u32 } else { DATED[cases.below(8) as usize] };
    let lengths = [count, count, file_length(nmax, dated != 0)].map(|length| about(cases, length));
    let nmax = if cases.below(8) == 0 { cases.bits() as usize >> cases.below(64) } else { nmax };
    write(tally, &model, Told { tide: cases.below(5) as u32, dated, days, nmax }, lengths);

    let mut bytes = file(&model);
    damage::head(cases, &mut bytes);
    let lengths = [count, count, HEAD_WORDS].map(|length| about(cases, length));
    read(tally, &bytes, lengths);
}
