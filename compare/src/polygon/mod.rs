//! The crate `polygon` against the oracle's `polygon`: the intervals of an outline at a colatitude, and its breaks.

pub mod bench;
pub mod outlines;
pub mod replay;

use oracle::slepian::polygon;

use crate::cases::Cases;
use crate::entries::{geopotential_polygon_breaks, geopotential_polygon_intervals};
use crate::guarded::Guarded;
use crate::lent::flat;
use crate::refusal::{LENGTH, SIZE, SPACE, fault};
use crate::tally::{Report, Tally, shown};
use outlines::{Outline, any, between, colatitude, jagged, smooth};

/// The random outlines, and at how many colatitudes each is cut.
const OUTLINES: u64 = 120_000;
const COLATITUDES: usize = 3;
/// The most vertices.
pub const MAX_VERTICES: usize = 4096;

pub fn compare(report: &mut Report) {
    report.call("polygon", small);
    report.call("polygon, large", large);
    report.call("polygon, refusals", refusals);
}

/// Which of the two calls: the intervals at a colatitude, or the breaks.
#[derive(Clone, Copy, Debug)]
pub enum Asked {
    Intervals(f64),
    Breaks,
}
use Asked::{Breaks, Intervals};

/// What the oracle answers: the numbers, and how many intervals or breaks they are.
pub fn answer(asked: Asked, outline: &[(f64, f64)]) -> (Vec<f64>, usize) {
    let (intervals, breaks) = polygon(outline);
    match asked {
        Intervals(theta) => {
            let at = intervals(theta);
            (flat(&at), at.len())
        }
        Breaks => {
            let count = breaks.len();
            (breaks, count)
        }
    }
}

/// One call: the number of vertices that it is told, and the lengths of the outline, of the working list and of the output.
struct Call<'a> {
    asked: Asked,
    outline: &'a Outline,
    vertices: usize,
    lengths: [usize; 3],
}

impl<'a> Call<'a> {
    /// Lists as long as needed.
    fn new(asked: Asked, outline: &'a Outline) -> Self {
        let vertices = outline.len();
        Call { asked, outline, vertices, lengths: [2 * vertices, vertices, answer(asked, outline).0.len()] }
    }

    /// The refusal due, and the answer of a call that is accepted.
    fn due(&self, lent: &[f64]) -> (u32, Vec<f64>, Option<usize>) {
        let [_, work, out] = self.lengths;
        let refused = |number| (number, vec![], None);
        if self.vertices > MAX_VERTICES {
            return refused(SIZE);
        }
        if lent.len() != 2 * self.vertices {
            return refused(LENGTH);
        }
        let outline: Outline = lent.chunks_exact(2).map(|vertex| (vertex[0], vertex[1])).collect();
        let (numbers, count) = answer(self.asked, &outline);
        if work < self.vertices || out < numbers.len() { refused(SPACE) } else { (0, numbers, Some(count)) }
    }

    fn compare(&self, tally: &mut Tally) {
        let mut lent = Guarded::of(&flat(self.outline), self.lengths[0]);
        let (mut work, mut out) = (Guarded::marked(self.lengths[1]), Guarded::marked(self.lengths[2]));
        let mut count = Guarded::<usize>::marked(1);
        let (due, numbers, many) = self.due(lent.now());
        let ours = unsafe {
            let (l, w, o) = ((lent.pointer(), lent.len()), (work.pointer(), work.len()), (out.pointer(), out.len()));
            let (v, k) = (self.vertices, count.pointer());
            match self.asked {
                Intervals(theta) => geopotential_polygon_intervals(v, l.0, l.1, theta, w.0, w.1, o.0, o.1, k),
                Breaks => geopotential_polygon_breaks(v, l.0, l.1, w.0, w.1, o.0, o.1, k),
            }
        };
        // The first numbers of the working list are free after the intervals of an outline that is accepted.
        let used = if due == 0 && matches!(self.asked, Intervals(_)) { self.vertices } else { 0 };
        let free = work.now()[..used].to_vec();
        let fault = fault(ours, due)
            .or_else(|| count.fault("count", many.as_slice()))
            .or_else(|| out.fault("out", &numbers))
            .or_else(|| work.fault("work", &free))
            .or_else(|| lent.fault("outline", &[]));
        tally.call(fault, || {
            let front: Vec<String> = self.outline.iter().take(6).flat_map(|&(lon, lat)| [shown(lon), shown(lat)]).collect();
            format!("{:?}, {} vertices, lengths {:?}, {front:?}", self.asked, self.vertices, self.lengths)
        });
    }
}

/// Both calls on an outline: the breaks, and the intervals at some colatitudes, with lists that are long enough or not.
fn both(tally: &mut Tally, cases: &mut Cases, outline: &Outline, colatitudes: &[f64]) {
    for asked in colatitudes.iter().map(|&theta| Intervals(theta)).chain([Breaks]) {
        let mut call = Call::new(asked, outline);
        let [lent, work, out] = &mut call.lengths;
        match cases.below(12) {
            0 => *lent = (*lent + cases.below(3) as usize).saturating_sub(1),
            1 => *work = work.saturating_sub(1),
            2 | 3 => *out = out.saturating_sub(1),
            4 => (*work, *out) = (work.saturating_sub(1), out.saturating_sub(1)),
            5..8 => (*work, *out) = (*work + cases.below(3) as usize, *out + cases.below(4) as usize),
            _ => (),
        }
        call.compare(tally);
    }
}

fn small(tally: &mut Tally, cases: &mut Cases) {
    for _ in cases.times(OUTLINES) {
        let most = [4, 8, 14, 14, 40, 110][cases.below(6) as usize];
        let vertices = cases.below(most) as usize;
        let outline = any(cases, vertices);
        let colatitudes: Vec<f64> = (0..COLATITUDES).map(|_| colatitude(cases, &outline)).collect();
        both(tally, cases, &outline, &colatitudes);
    }
}

/// Outlines about the length of the short arrays, and up to the most vertices.
fn large(tally: &mut Tally, cases: &mut Cases) {
    for vertices in [31, 32, 33, 63, 64, 65, 66, 127, 128, 129, 255, 256, 257, 300, 1000, 2048, 4000, 4095, MAX_VERTICES] {
        for turn in cases.times(200) {
            let outline = match turn % 4 {
                0 => smooth(cases, vertices),
                1 => jagged(cases, vertices),
                _ => any(cases, vertices),
            };
            let mut colatitudes = between(cases, &outline, 2);
            colatitudes.push(colatitude(cases, &outline));
            both(tally, cases, &outline, &colatitudes);
        }
    }
}

/// Every mixture of lengths about the right ones, and numbers of vertices that are too large or don't belong to the list.
fn refusals(tally: &mut Tally, cases: &mut Cases) {
    for vertices in [0, 1, 2, 3, 5, 8, 64, 65] {
        for _ in cases.times(8) {
            let outline = jagged(cases, vertices);
            let theta = between(cases, &outline, 1)[0];
            for asked in [Intervals(theta), Breaks] {
                let right = || Call::new(asked, &outline);
                for choice in 0..64 {
                    // Each list two too short, one too short, right, or one too long.
                    let mut call = right();
                    (0..3).for_each(|k| call.lengths[k] = (call.lengths[k] + choice / 4usize.pow(k as u32) % 4).saturating_sub(2));
                    call.compare(tally);
                }
                sizes(tally, right);
            }
        }
    }
}

/// Numbers of vertices at the limit and beyond, of 33 and of 64 bits among them, with the lists of an outline, with shorter ones and with none.
fn sizes<'a>(tally: &mut Tally, right: impl Fn() -> Call<'a>) {
    let vertices = right().vertices;
    let large = [MAX_VERTICES, MAX_VERTICES + 1, 65_535, 65_536, (1 << 32) + vertices, (1 << 63) + vertices, 1 << 63, usize::MAX];
    for count in large.into_iter().chain([vertices + 1, vertices.saturating_sub(1)]) {
        Call { vertices: count, ..right() }.compare(tally);
        Call { vertices: count, lengths: right().lengths.map(|length| length.saturating_sub(1)), ..right() }.compare(tally);
        Call { vertices: count, lengths: [0; 3], ..right() }.compare(tally);
    }
    // As long as the number says, where it is the largest and one more.
    for count in [MAX_VERTICES, MAX_VERTICES + 1] {
        Call { vertices: count, lengths: [2 * count, count, count], ..right() }.compare(tally);
    }
}
