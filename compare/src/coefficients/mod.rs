//! The crate `coefficients` against the oracle's `Coefficients`: what is written, what is left alone, and document 01's refusals.

pub mod bench;
mod cuts;
pub mod fields;
pub mod replay;

use oracle::Coefficients;

use crate::cases::Cases;
use crate::entries::*;
use crate::functional::{NO_FUNCTIONALS, WATER_HEIGHT, functional};
use crate::guarded::Guarded;
use crate::refusal::{Checks, NO_FUNCTIONAL, answered, fault, pairs};
use crate::sizes::{beside, table};
use crate::table_entry::{entry, places};
use crate::tally::{Report, Tally, shown};
use fields::{COUNT, Plan};

pub fn compare(report: &mut Report) {
    report.call("coefficients.zeros", |tally, cases| {
        let plan = Plan::new(0, |n| vec![table(n); 2]);
        plan.carry_out(cases, |cases, _, nmax, lengths| zeros(tally, cases.number(), cases.number(), nmax, lengths));
    });
    report.call("coefficients.c, s, set", |tally, cases| {
        let plan = Plan { count: COUNT / 4, ..Plan::new(2, |n| vec![table(n); 2]) };
        plan.carry_out(cases, |cases, field, nmax, lengths| entries(tally, cases, field, nmax, lengths));
    });
    report.call("coefficients.truncated", cuts::once);
    report.call("coefficients.cut twice", cuts::twice);
    report.call("coefficients.rescaled", |tally, cases| {
        let plan = Plan::new(2, |n| vec![table(n); 4]);
        plan.carry_out(cases, |cases, field, nmax, lengths| rescalings(tally, cases, field, nmax, lengths));
    });
    report.call("coefficients.variances", |tally, cases| {
        let plan = Plan::new(2, |n| vec![table(n), table(n), n + 1]);
        plan.carry_out(cases, |_, field, nmax, lengths| degree_variances(tally, field, nmax, lengths));
    });
    report.call("coefficients.amplitudes", |tally, cases| {
        let plan = Plan::new(2, |n| vec![table(n), table(n), n + 1, n + 1]);
        plan.carry_out(cases, |cases, field, nmax, lengths| amplitudes(tally, cases, field, nmax, lengths));
    });
}

/// The two input lists, of the lengths given.
fn lists(field: &Coefficients, lengths: &[usize]) -> (Guarded<f64>, Guarded<f64>) {
    (Guarded::of(&field.c, lengths[0]), Guarded::of(&field.s, lengths[1]))
}

/// `zeros`, whose gm and radius may be any numbers.
fn zeros(tally: &mut Tally, gm: f64, radius: f64, nmax: usize, lengths: &[usize]) {
    let (mut c, mut s) = (Guarded::marked(lengths[0]), Guarded::marked(lengths[1]));
    let due = Checks { degree: nmax, outputs: &beside(lengths, pairs(nmax)), ..Checks::default() }.due();
    let ours = unsafe { geopotential_zeros(gm, radius, nmax, c.pointer(), c.len(), s.pointer(), s.len()) };
    let answer = answered(due, || Coefficients::zeros(gm, radius, nmax)).map_or((vec![], vec![]), |field| (field.c, field.s));
    let fault = fault(ours, due).or_else(|| c.fault("c", &answer.0)).or_else(|| s.fault("s", &answer.1));
    tally.call(fault, || format!("zeros, N {nmax}, lengths {lengths:?}, gm {}, radius {}", shown(gm), shown(radius)));
}

/// The entries of both tables, and `set`.
fn entries(tally: &mut Tally, cases: &mut Cases, field: &Coefficients, nmax: usize, lengths: &[usize]) {
    for (n, m) in places(cases, nmax, lengths[0]) {
        let due = |lengths: &[usize]| {
            let inputs = beside(lengths, pairs(nmax));
            Checks { degree: nmax, inputs: &inputs, place: Some((n, m)), ..Checks::default() }.due()
        };
        let (due_c, due_s) = (due(&lengths[..1]), due(&lengths[1..]));
        let (c, s) = (answered(due_c, || field.c(n, m)), answered(due_s, || field.s(n, m)));
        entry(tally, ("c", geopotential_coefficient_c), nmax, Guarded::of(&field.c, lengths[0]), (n, m), due_c, c);
        entry(tally, ("s", geopotential_coefficient_s), nmax, Guarded::of(&field.s, lengths[1]), (n, m), due_s, s);
        set(tally, field, nmax, lengths, (n, m), (cases.number(), cases.number()), due(lengths));
    }
}

/// `set` writes one place of each list and leaves the bits of all others, a NaN's too.
fn set(tally: &mut Tally, field: &Coefficients, nmax: usize, lengths: &[usize], (n, m): (usize, usize), new: (f64, f64), due: u32) {
    let (mut c, mut s) = lists(field, lengths);
    let ours = unsafe { geopotential_set(nmax, c.pointer(), c.len(), s.pointer(), s.len(), n, m, new.0, new.1) };
    let place = if due == 0 { n * (n + 1) / 2 + m } else { 0 };
    let written = (due == 0) as usize;
    let fault = fault(ours, due)
        .or_else(|| c.fault_from("c", place, &[new.0][..written]))
        .or_else(|| s.fault_from("s", place, &[new.1][..written]));
    tally.call(fault, || format!("set({n}, {m}), N {nmax}, lengths {lengths:?}, {}, {}", shown(new.0), shown(new.1)));
}

/// To a gm and a radius like the field's, or to any.
fn rescalings(tally: &mut Tally, cases: &mut Cases, field: &Coefficients, nmax: usize, lengths: &[usize]) {
    let near = (field.gm * (0.9 + 0.2 * cases.fraction()), field.radius * (0.9 + 0.2 * cases.fraction()));
    let new = if cases.below(2) == 0 { near } else { (cases.number(), cases.number()) };
    let (mut c, mut s) = lists(field, lengths);
    let (mut out_c, mut out_s) = (Guarded::marked(lengths[2]), Guarded::marked(lengths[3]));
    let (given, asked) = (beside(&lengths[..2], pairs(nmax)), beside(&lengths[2..], pairs(nmax)));
    let due = Checks { degree: nmax, inputs: &given, outputs: &asked, ..Checks::default() }.due();
    let ours = unsafe {
        let (c, s) = ((c.pointer(), c.len()), (s.pointer(), s.len()));
        let (oc, os) = ((out_c.pointer(), out_c.len()), (out_s.pointer(), out_s.len()));
        geopotential_rescaled(field.gm, field.radius, nmax, c.0, c.1, s.0, s.1, new.0, new.1, oc.0, oc.1, os.0, os.1)
    };
    let answer = answered(due, || field.rescaled(new.0, new.1)).map_or((vec![], vec![]), |field| (field.c, field.s));
    let fault = fault(ours, due)
        .or_else(|| out_c.fault("out c", &answer.0))
        .or_else(|| out_s.fault("out s", &answer.1))
        .or_else(|| c.fault("c", &[]))
        .or_else(|| s.fault("s", &[]));
    tally.call(fault, || {
        let heads = [field.gm, field.radius, new.0, new.1].map(shown);
        format!("rescaled, gm and radius, old and new {heads:?}, N {nmax}, lengths {lengths:?}")
    });
}

/// N+1 sums of squares.
fn degree_variances(tally: &mut Tally, field: &Coefficients, nmax: usize, lengths: &[usize]) {
    let (mut c, mut s) = lists(field, lengths);
    let mut out = Guarded::marked(lengths[2]);
    let (given, asked) = (beside(&lengths[..2], pairs(nmax)), [(lengths[2], nmax as u128 + 1)]);
    let due = Checks { degree: nmax, inputs: &given, outputs: &asked, ..Checks::default() }.due();
    let ours = unsafe { geopotential_degree_variances(nmax, c.pointer(), c.len(), s.pointer(), s.len(), out.pointer(), out.len()) };
    let answer = answered(due, || field.degree_variances()).unwrap_or_default();
    let fault = fault(ours, due).or_else(|| out.fault("out", &answer)).or_else(|| c.fault("c", &[])).or_else(|| s.fault("s", &[]));
    tally.call(fault, || format!("degree variances, N {nmax}, lengths {lengths:?}"));
}

/// Every functional where the field is small, else one of them; and a number that is none.
fn amplitudes(tally: &mut Tally, cases: &mut Cases, field: &Coefficients, nmax: usize, lengths: &[usize]) {
    let strange = cases.below(2) == 0;
    let love: Vec<f64> = (0..lengths[2]).map(|_| if strange { cases.number() } else { cases.fraction() - 0.5 }).collect();
    if field.max_degree() <= 5 {
        (0..=WATER_HEIGHT).for_each(|number| degree_amplitudes(tally, field, nmax, lengths, number, &love));
        degree_amplitudes(tally, field, nmax, lengths, NO_FUNCTIONALS[cases.below(8) as usize], &love);
    } else {
        degree_amplitudes(tally, field, nmax, lengths, cases.below(6) as u32, &love);
        degree_amplitudes(tally, field, nmax, lengths, WATER_HEIGHT, &love);
    }
}

/// N+1 amplitudes of the functional with this number; only WaterHeight looks at the Love numbers.
fn degree_amplitudes(tally: &mut Tally, field: &Coefficients, nmax: usize, lengths: &[usize], number: u32, numbers: &[f64]) {
    let (mut c, mut s) = lists(field, lengths);
    let (mut love, mut out) = (Guarded::of(numbers, lengths[2]), Guarded::marked(lengths[3]));
    let (given, asked) = (beside(&lengths[..2], pairs(nmax)), [(lengths[3], nmax as u128 + 1)]);
    let needed = (number == WATER_HEIGHT).then_some(lengths[2]);
    let table = Checks { degree: nmax, inputs: &given, love: needed, outputs: &asked, ..Checks::default() };
    let due = if number > WATER_HEIGHT { NO_FUNCTIONAL } else { table.due() };
    let ours = unsafe {
        let (c, s) = ((c.pointer(), c.len()), (s.pointer(), s.len()));
        let (k, o) = ((love.pointer(), love.len()), (out.pointer(), out.len()));
        geopotential_degree_amplitudes(field.gm, field.radius, nmax, c.0, c.1, s.0, s.1, number, k.0, k.1, o.0, o.1)
    };
    let answer = answered(due, || field.degree_amplitudes(&functional(number, numbers))).unwrap_or_default();
    let fault = fault(ours, due)
        .or_else(|| out.fault("out", &answer))
        .or_else(|| love.fault("love", &[]))
        .or_else(|| c.fault("c", &[]))
        .or_else(|| s.fault("s", &[]));
    tally.call(fault, || {
        let head = [field.gm, field.radius].map(shown);
        format!("degree amplitudes, functional {number}, gm and radius {head:?}, N {nmax}, lengths {lengths:?}")
    });
}
