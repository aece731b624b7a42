//! `truncated`: cuts of one field, and that a cut of a cut is the cut at the smaller degree.

use oracle::{Coefficients, TideSystem};

use super::fields::{COUNT, LARGE, Plan, field};
use crate::cases::Cases;
use crate::entries::*;
use crate::guarded::Guarded;
use crate::refusal::{BEYOND, Checks, LENGTH, SPACE, answered, fault, pairs};
use crate::sizes::{beside, table};
use crate::tally::{Tally, pattern};

/// The random fields that are cut twice.
const TWICE: u64 = 100_000;

/// Our call: its refusal and the lists that it was lent, c before s.
struct Cut {
    refusal: u32,
    inputs: [Guarded<f64>; 2],
    outputs: [Guarded<f64>; 2],
    degree: Guarded<usize>,
}

impl Cut {
    /// The call on lists cut or carried on to these lengths, first of the inputs, then of the outputs.
    fn of(nmax: usize, [c, s]: [&[f64]; 2], cut: usize, lengths: &[usize]) -> Self {
        let mut inputs = [Guarded::of(c, lengths[0]), Guarded::of(s, lengths[1])];
        let (mut outputs, mut degree) = ([Guarded::marked(lengths[2]), Guarded::marked(lengths[3])], Guarded::marked(1));
        let [c, s] = inputs.each_mut().map(|list| (list.pointer(), list.len()));
        let [oc, os] = outputs.each_mut().map(|list| (list.pointer(), list.len()));
        let refusal = unsafe { geopotential_truncated(nmax, c.0, c.1, s.0, s.1, cut, oc.0, oc.1, os.0, os.1, degree.pointer()) };
        Cut { refusal, inputs, outputs, degree }
    }

    /// The first thing that is wrong, where this refusal is due, or this field.
    fn fault(&self, due: u32, answer: Option<&Coefficients>) -> Option<String> {
        let kept = answer.map(Coefficients::max_degree);
        let (c, s) = answer.map_or((&[][..], &[][..]), |field| (&field.c, &field.s));
        fault(self.refusal, due)
            .or_else(|| self.degree.fault("degree", kept.as_slice()))
            .or_else(|| self.outputs[0].fault("out c", c))
            .or_else(|| self.outputs[1].fault("out s", s))
            .or_else(|| self.inputs[0].fault("c", &[]))
            .or_else(|| self.inputs[1].fault("s", &[]))
    }

    /// What was written up to a degree.
    fn written(&self, degree: usize) -> [&[f64]; 2] {
        self.outputs.each_ref().map(|list| &list.now()[..table(degree)])
    }
}

/// Cuts below, at and above N, each with its own lengths of the answer.
pub fn once(tally: &mut Tally, cases: &mut Cases) {
    let cuts: [fn(usize) -> usize; 8] = [|_| 0, |n| n.saturating_sub(1), |n| n, |n| n + 1, |_| 2700, |_| 2701, |_| usize::MAX, |n| n / 2];
    for (i, cut) in cuts.into_iter().enumerate() {
        let stated = |n: usize| [vec![table(n); 2], vec![table(cut(n).min(n)); 2]].concat();
        let large = if i == 1 { &LARGE } else { &LARGE[..3] };
        // The cut belongs to the field, whatever N the call is given.
        Plan { count: COUNT / 8, large, ..Plan::new(2, stated) }.carry_out(cases, |_, field, nmax, lengths| {
            truncated(tally, field, nmax, lengths, cut(field.max_degree()));
            // N and the cut both too large: N alone is refused.
            if BEYOND.contains(&nmax) {
                truncated(tally, field, nmax, lengths, nmax);
            }
        });
    }
    // Every cut of every small field.
    for _ in cases.times(COUNT / 100) {
        let nmax = cases.below(41) as usize;
        let field = field(cases, nmax);
        for cut in 0..=nmax + 1 {
            let room = table(cut.min(nmax));
            let lengths = [table(nmax), table(nmax), room + cases.below(2) as usize, room + cases.below(2) as usize];
            truncated(tally, &field, nmax, &lengths, cut);
        }
    }
}

/// The degree kept, and the front part of both lists.
fn truncated(tally: &mut Tally, field: &Coefficients, nmax: usize, lengths: &[usize], cut: usize) {
    let ours = Cut::of(nmax, [&field.c, &field.s], cut, lengths);
    let (given, asked) = (beside(&lengths[..2], pairs(nmax)), beside(&lengths[2..], pairs(cut.min(nmax))));
    let due = Checks { degree: nmax, inputs: &given, outputs: &asked, ..Checks::default() }.due();
    let answer = answered(due, || field.truncated(cut));
    tally.call(ours.fault(due, answer.as_ref()), || format!("truncated to {cut}, N {nmax}, lengths {lengths:?}"));
}

/// Fields cut at A and then at B.
pub fn twice(tally: &mut Tally, cases: &mut Cases) {
    for nmax in 0..=5 {
        let field = tidal_field(cases, nmax);
        let cuts = || (0..=nmax + 2).chain([2700]).chain(BEYOND);
        cuts().for_each(|first| cuts().for_each(|second| both_cuts(tally, cases, &field, [first, second])));
    }
    for nmax in LARGE {
        let field = tidal_field(cases, nmax);
        for cuts in [[nmax / 2, nmax / 3], [nmax / 3, nmax - 1], [nmax - 1, usize::MAX], [2701, nmax - 1]] {
            both_cuts(tally, cases, &field, cuts);
        }
    }
    for _ in cases.times(TWICE) {
        let nmax = cases.below(41) as usize;
        let field = tidal_field(cases, nmax);
        let cuts = [cut_about(cases, nmax), cut_about(cases, nmax)];
        both_cuts(tally, cases, &field, cuts);
    }
}

/// A field whose tide system may be any.
fn tidal_field(cases: &mut Cases, nmax: usize) -> Coefficients {
    let tides = [TideSystem::TideFree, TideSystem::ZeroTide, TideSystem::MeanTide, TideSystem::Unknown];
    let mut field = field(cases, nmax);
    field.tide_system = tides[cases.below(4) as usize];
    field
}

/// A cut: mostly below N, else about it or at any degree.
fn cut_about(cases: &mut Cases, nmax: usize) -> usize {
    match cases.below(8) {
        0 => nmax,
        1 => nmax + 1 + cases.below(4) as usize,
        2 => cases.below(2703) as usize,
        3 => BEYOND[cases.below(BEYOND.len() as u64) as usize],
        _ => cases.below(nmax as u64 + 1) as usize,
    }
}

/// Cut at the first degree, and what was written at the second: in every bit the cut at the smaller, ours and the oracle's. One list of the second cut may
/// be too short for it; then the one cut with such lists is refused by the same number. The oracle by itself keeps the head too.
fn both_cuts(tally: &mut Tally, cases: &mut Cases, field: &Coefficients, [first, second]: [usize; 2]) {
    let (nmax, smaller) = (field.max_degree(), first.min(second));
    let (between, kept) = (first.min(nmax), smaller.min(nmax));
    let mut room = [0; 2].map(|_| table(kept) + cases.below(3) as usize);
    let due = if cases.below(4) == 0 { SPACE } else { 0 };
    if due == SPACE {
        room[cases.below(2) as usize] = if cases.below(2) == 0 { table(kept) - 1 } else { 0 };
    }
    let longer = table(between) + cases.below(3) as usize;
    let ours = Cut::of(nmax, [&field.c, &field.s], first, &[table(nmax), table(nmax), longer, longer]);
    let twice = Cut::of(between, ours.written(between), second, &[table(between), table(between), room[0], room[1]]);
    let once = Cut::of(nmax, [&field.c, &field.s], smaller, &[table(nmax), table(nmax), room[0], room[1]]);
    let (due_first, due_once) = (field.truncated(first), field.truncated(smaller));
    let answer = answered(due, || &due_once);
    let fault = ours
        .fault(0, Some(&due_first))
        .or_else(|| twice.fault(due, answer))
        .or_else(|| once.fault(due, answer))
        .or_else(|| apart(&due_first.truncated(second), &due_once))
        .or_else(|| longer_refused(&ours, between, second));
    tally.call(fault, || format!("truncated to {first}, then to {second}, N {nmax}, room {room:?}"));
}

/// The second cut is lent what was written and no more: longer lists are refused whole.
fn longer_refused(first: &Cut, between: usize, second: usize) -> Option<String> {
    let lists = first.outputs.each_ref().map(Guarded::now);
    let (length, room) = (lists[0].len(), table(between));
    let again = || Cut::of(between, lists, second, &[length, length, room, room]);
    (length > room).then(again)?.fault(LENGTH, None)
}

/// What is not the same in two fields of the oracle, in every bit.
fn apart(some: &Coefficients, other: &Coefficients) -> Option<String> {
    let numbers = |field: &Coefficients| {
        let head = [field.gm, field.radius].into_iter();
        head.chain(field.c.iter().chain(&field.s).copied()).map(pattern).collect::<Vec<u64>>()
    };
    let heads = some.max_degree() == other.max_degree() && some.tide_system == other.tide_system;
    (!heads || numbers(some) != numbers(other)).then(|| "the oracle's two cuts and its one".to_string())
}
