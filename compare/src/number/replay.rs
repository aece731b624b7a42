//! The fixed list of the oracle's answers for the crate `number`, edges first. A NaN is the canonical one, except in PATTERNS.

use oracle::standins::{Number, falling};

use super::{ranks_before, root_cases};
use crate::cases::Cases;
use crate::constants::{array, hexadecimal, number};
use crate::tally::pattern;

/// The smallest subnormal, the largest subnormal, the smallest normal number.
const TINY: f64 = f64::from_bits(1);
const LARGEST_SUBNORMAL: f64 = f64::from_bits(0x000f_ffff_ffff_ffff);
const NORMAL: f64 = f64::MIN_POSITIVE;

const EDGES: [f64; 16] = [
    0.0,
    -0.0,
    1.0,
    -1.0,
    TINY,
    -TINY,
    LARGEST_SUBNORMAL,
    -LARGEST_SUBNORMAL,
    NORMAL,
    -NORMAL,
    f64::MAX,
    f64::MIN,
    f64::INFINITY,
    f64::NEG_INFINITY,
    f64::NAN,
    0.1,
];

/// A few numbers, random but always the same.
fn drawn(count: usize) -> Vec<f64> {
    let mut cases = Cases::new(0x5eed, 1);
    (0..count).map(|_| f64::from_bits(pattern(cases.any_bits()) & !(1 << 63))).collect()
}

/// A group: its inputs, one, two or more to a case, and its answers.
fn group(inputs: &str, name: &str, cases: &[(Vec<String>, String)]) -> String {
    let all: Vec<String> = cases.iter().flat_map(|(inputs, _)| inputs.clone()).collect();
    let answers: Vec<String> = cases.iter().map(|(_, answer)| answer.clone()).collect();
    array(inputs, name, &all) + &array("its answers", &format!("{name}_ANSWERS"), &answers)
}

fn root() -> String {
    let mut list = EDGES.to_vec();
    list.extend([2.0, 3.0, 4.0, 0.25, 0.5, 5.0, 1e-280, 1e308, 2.0f64.next_down(), 2.0f64.next_up(), 4.0f64.next_down(), 4.0f64.next_up()]);
    list.extend([
        1.0f64.next_down(),
        1.0f64.next_up(),
        f64::from_bits(2),
        f64::from_bits(3),
        f64::from_bits(4),
        f64::from_bits(0x8_0000_0000_0000),
    ]);
    // The largest whole number whose square has 53 bits, with its neighbours, and a square among the subnormals.
    let square = 94_906_265.0 * 94_906_265.0;
    list.extend([square, f64::next_down(square), f64::next_up(square), f64::from_bits(0x3ff_ffff * 0x3ff_ffff)]);
    list.extend(root_cases::hardest(16));
    list.extend(drawn(8));
    let cases: Vec<_> = list.iter().map(|&x| (vec![number(x)], number(x.sqrt()))).collect();
    group("root: x", "ROOT", &cases)
}

fn hypot() -> String {
    let mut list = vec![(3.0, 4.0), (-3.0, 4.0), (4.0, -3.0), (0.0, 0.0), (-0.0, -0.0), (-0.0, 0.0), (0.0, 5.0), (-5.0, -0.0), (1.0, 1.0)];
    let specials = [f64::INFINITY, f64::NEG_INFINITY, f64::NAN];
    specials.iter().for_each(|&x| list.extend([(x, 1.0), (0.0, x), (x, f64::INFINITY), (x, f64::NAN)]));
    list.extend([
        (f64::MAX, f64::MAX),
        (f64::MAX, 1.0),
        (f64::MAX, f64::MAX / 1e8),
        (TINY, TINY),
        (TINY, 0.0),
        (TINY, f64::MAX),
        (f64::from_bits(3), f64::from_bits(4)),
    ]);
    list.extend([
        (NORMAL, NORMAL),
        (LARGEST_SUBNORMAL, NORMAL),
        (1e200, 1e200),
        (1e-200, 1e-200),
        (1.0, 1e-8),
        (1.0, 1e-9),
        (0.1, 1.0),
        (0.3, 1.0),
        (5.0, 12.0),
    ]);
    let x = drawn(8);
    list.extend(x.iter().map(|&x| (x, x * 0.7)));
    let cases: Vec<_> = list.iter().map(|&(x, y)| (vec![number(x), number(y)], number(x.hypotenuse(y)))).collect();
    group("hypot: x, y", "HYPOT", &cases)
}

fn powi() -> String {
    let mut list: Vec<(f64, usize)> = EDGES.iter().flat_map(|&x| [(x, 0), (x, 3)]).collect();
    list.extend([
        (2.0, 1),
        (2.0, 2),
        (2.0, 10),
        (2.0, 1023),
        (2.0, 1024),
        (0.5, 1074),
        (0.5, 1075),
        (-2.0, 1023),
        (-0.5, 1075),
        (-1.0, usize::MAX),
    ]);
    list.extend([
        (10.0, 22),
        (10.0, 23),
        (0.1, 2),
        (1.0 / 1.1, 6),
        (6378136.3 / 6878136.3, 96),
        (6378136.3 / 6878136.3, 2700),
        (0.9999, 2701),
    ]);
    list.extend([
        (1.0f64.next_up(), usize::MAX / 2 + 1),
        (1.0f64.next_down(), 1 << 53),
        (1.0f64.next_up(), 4000),
        (1.0f64.next_down(), 4000),
    ]);
    let cases: Vec<_> = list.iter().map(|&(x, n)| (vec![number(x), n.to_string()], number(x.power(n)))).collect();
    group("powi: base, exponent (a whole number)", "POWI", &cases)
}

/// A group of one number to a case.
fn one_number(comment: &str, name: &str, answer: impl Fn(f64) -> f64) -> String {
    let cases: Vec<_> = EDGES.iter().map(|&x| (vec![number(x)], number(answer(x)))).collect();
    group(comment, name, &cases)
}

fn ranks() -> String {
    let falling = [f64::NAN, f64::INFINITY, f64::MAX, 1.0, TINY, 0.0, -0.0, -TINY, -1.0, f64::NEG_INFINITY];
    // Every neighbouring pair of the falling list in either order, each number against itself, and some further apart.
    let mut list: Vec<(f64, f64)> = falling.windows(2).flat_map(|w| [(w[0], w[1]), (w[1], w[0])]).collect();
    list.extend(falling.map(|x| (x, x)));
    list.extend([
        (f64::NAN, 0.0),
        (f64::NEG_INFINITY, f64::NAN),
        (1.0, -1.0),
        (2.0, 3.0),
        (-3.0, -2.0),
        (-2.0, -3.0),
        (1.0, 1.0f64.next_up()),
    ]);
    let cases: Vec<_> = list.iter().map(|&(x, y)| (vec![number(x), number(y)], ranks_before(x, y).to_string())).collect();
    group("ranks_before: x, y; the answer is 1 where x comes strictly before y in the falling order, else 0", "RANKS_BEFORE", &cases)
}

fn patterns() -> String {
    let nans = [
        0x7ff8_0000_0000_0000,
        0x7ff0_0000_0000_0001,
        0x7ff7_ffff_ffff_ffff,
        0x7fff_ffff_ffff_ffff,
        0xfff8_0000_0000_0000,
        0xfff0_dead_beef_0001,
    ];
    let list = EDGES.iter().map(|x| pattern(*x)).chain(nans).chain([0x4009_21fb_5444_2d18, 0x8000_0000_0000_0002]);
    let cases: Vec<_> = list.map(|bits| (vec![hexadecimal(bits)], number(f64::from_bits(bits)))).collect();
    group("patterns: a bit pattern; the answer is the bit pattern of its number (any NaN gives 7ff8000000000000)", "PATTERNS", &cases)
}

/// Short lists with ties, zeros of either sign and NaNs; each with the places of its numbers in the stable falling ranking.
fn rankings() -> String {
    let (inf, nan) = (f64::INFINITY, f64::NAN);
    let lists: [&[f64]; 6] = [
        &[1.0, 2.0],
        &[0.0, -0.0, 0.0, -0.0],
        &[nan, inf, nan, -inf, 0.0],
        &[0.5, 0.25, 0.5, 1.0, 0.25, 0.5],
        &[-1.0, nan, 1.0, -0.0, TINY, -TINY, 0.0, inf, -inf, nan, 1.0, -1.0],
        &[1.0f64.next_down(), 1.0, 1.0f64.next_up(), 1.0, f64::MAX, f64::MIN, NORMAL, LARGEST_SUBNORMAL],
    ];
    let mut text = String::new();
    for (i, list) in lists.iter().enumerate() {
        let mut order: Vec<usize> = (0..list.len()).collect();
        order.sort_by(|&a, &b| falling(list[a], list[b]));
        text += &array("ranking: the list", &format!("RANK_{i}"), &list.iter().map(|&x| number(x)).collect::<Vec<_>>());
        text += &array(
            "its places, first in the ranking first",
            &format!("RANK_{i}_ORDER"),
            &order.iter().map(usize::to_string).collect::<Vec<_>>(),
        );
    }
    text
}

pub fn replay() -> String {
    let mut text = String::from("// The oracle's answers for the crate number, numbers as bit patterns.\n");
    text += "// Written by `compare/run replay number FILE` (see compare/README.md), never by hand.\n";
    text += &root();
    text += &hypot();
    text += &powi();
    text += &one_number("signum: x", "SIGNUM", f64::sign);
    text += &one_number("magnitude: x", "MAGNITUDE", f64::abs);
    text += &ranks();
    text += &patterns();
    text += &rankings();
    text
}
