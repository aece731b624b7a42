//! Lengths of lent lists: the stated ones, and those about them.

use crate::refusal::{BEYOND, MAX_DEGREE, pairs};

/// T as a length.
pub fn table(nmax: usize) -> usize {
    pairs(nmax) as usize
}

/// Lengths, each beside the stated one.
pub fn beside(lengths: &[usize], stated: u128) -> Vec<(usize, u128)> {
    lengths.iter().map(|&length| (length, stated)).collect()
}

/// Every choice of one of 0, the stated length and its neighbours for each list.
fn choices(stated: &[usize], about: impl Fn(usize) -> Vec<usize>) -> Vec<Vec<usize>> {
    stated.iter().fold(vec![vec![]], |lists, &length| {
        lists.iter().flat_map(|list| about(length).into_iter().map(|length| [list.as_slice(), &[length]].concat())).collect()
    })
}

/// Degrees and lengths for tables of degree N: every mixture of wrong and right lengths, degrees that are too large, and
/// degrees that don't belong to the lengths.
pub fn around(nmax: usize, stated: &[usize], mut one: impl FnMut(usize, &[usize])) {
    for lengths in choices(stated, |length| vec![0, length - 1, length, length + 1]) {
        one(nmax, &lengths);
    }
    for lengths in choices(stated, |length| vec![0, length]) {
        BEYOND.iter().for_each(|&degree| one(degree, &lengths));
        one(MAX_DEGREE, &lengths);
    }
    one(nmax + 1, stated);
    one(nmax.saturating_sub(1), stated);
}
