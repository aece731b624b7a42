//! Coefficients and factors.

use geopotential::{Coefficients, TideSystem, model_file};

use crate::cases::Cases;
use crate::inputs::{Field, Functionals, LARGE, date, degrees, fault, field_fault, love, radius};
use crate::tally::{Report, Tally};

/// The random fields of a call.
const COUNT: u64 = 4_000;

pub fn compare(report: &mut Report) {
    report.call("factor", factor);
    report.call("zeros, set, c, s", made);
    report.call("truncated", |tally, cases| fields(tally, cases, truncated));
    report.call("truncated twice", |tally, cases| fields(tally, cases, truncated_twice));
    report.call("rescaled", |tally, cases| fields(tally, cases, rescaled));
    report.call("degree_variances", |tally, cases| fields(tally, cases, degree_variances));
    report.call("degree_amplitudes", |tally, cases| fields(tally, cases, degree_amplitudes));
    report.call("model_file, there, back", |tally, cases| fields(tally, cases, model_file));
}

/// A field newly made has no date, and its tide system is the oracle's.
fn made(tally: &mut Tally, cases: &mut Cases) {
    for nmax in degrees(cases, COUNT, &LARGE) {
        let field = Field::random(cases, nmax);
        tally.call(field_fault(&field.ours, &field.oracle, None), || format!("degree {nmax}"));
    }
}

/// One call on each of the random fields, with dates and without.
fn fields(tally: &mut Tally, cases: &mut Cases, call: fn(&mut Cases, &Field) -> Option<String>) {
    for nmax in degrees(cases, COUNT, &LARGE) {
        let mut field = Field::random(cases, nmax);
        (field.ours.tide_system, field.ours.date) = (TideSystem::MeanTide, date(cases));
        field.oracle.tide_system = oracle::TideSystem::MeanTide;
        tally.call(call(cases, &field), || format!("degree {nmax}, date {:?}", field.ours.date));
    }
}

fn factor(tally: &mut Tally, cases: &mut Cases) {
    for _ in cases.times(20 * COUNT) {
        let n = cases.below(2701) as usize;
        let love = vec![cases.fraction() - 0.5; n + 1];
        let functional = Functionals::random(cases, &love);
        let [gm, radius] = [cases.number(), cases.number()];
        let r = if cases.below(2) == 0 { cases.number() } else { radius * (1.0 + 0.1 * cases.fraction()) };
        let (ours, oracle) = (functional.ours.factor(n, gm, radius, r), functional.oracle.factor(n, gm, radius, r));
        tally.numbers(ours, oracle, || format!("{:?}, n {n}, gm, radius, r {:?}", functional.ours, [gm, radius, r]));
    }
}

/// A degree to cut a field at: below its own, at it or above.
fn cut(cases: &mut Cases, field: &Field) -> usize {
    let nmax = field.oracle.max_degree();
    let any = cases.below(nmax as u64 + 1) as usize;
    [0, nmax / 2, nmax.saturating_sub(1), nmax, nmax + 1, usize::MAX, any][cases.below(7) as usize]
}

fn truncated(cases: &mut Cases, field: &Field) -> Option<String> {
    let cut = cut(cases, field);
    field_fault(&field.ours.truncated(cut), &field.oracle.truncated(cut), field.ours.date)
}

/// Our field cut twice: the oracle's cut twice, and the oracle's cut once, at the smaller degree.
fn truncated_twice(cases: &mut Cases, field: &Field) -> Option<String> {
    let [first, second] = [0; 2].map(|_| cut(cases, field));
    let ours = field.ours.truncated(first).truncated(second);
    let oracle = [field.oracle.truncated(first).truncated(second), field.oracle.truncated(first.min(second))];
    let fault = oracle.iter().find_map(|oracle| field_fault(&ours, oracle, field.ours.date))?;
    Some(format!("cuts {first}, {second}: {fault}"))
}

fn rescaled(cases: &mut Cases, field: &Field) -> Option<String> {
    let (gm, radius) = (cases.number(), radius(cases, field));
    field_fault(&field.ours.rescaled(gm, radius), &field.oracle.rescaled(gm, radius), field.ours.date)
}

fn degree_variances(_: &mut Cases, field: &Field) -> Option<String> {
    fault("variances", &field.ours.degree_variances(), &field.oracle.degree_variances())
}

fn degree_amplitudes(cases: &mut Cases, field: &Field) -> Option<String> {
    let love = love(cases, field.oracle.max_degree());
    let functional = Functionals::random(cases, &love);
    fault("amplitudes", &field.ours.degree_amplitudes(&functional.ours), &field.oracle.degree_amplitudes(&functional.oracle))
}

/// The published crate has no model file: what is written must be read as the same field, and written again as the same bytes.
fn model_file(_: &mut Cases, field: &Field) -> Option<String> {
    there_and_back(field).err()
}

fn there_and_back(field: &Field) -> Result<(), String> {
    let written = |field: &Coefficients| model_file::write(field).map_err(|refusal| format!("written: {refusal}"));
    let (ours, mut undated) = (&field.ours, field.ours.clone());
    undated.date = None;
    let (bytes, plain) = (written(ours)?, written(&undated)?);
    let again = model_file::read(&bytes).map_err(|refusal| format!("read: {refusal}"))?;
    let (kind, days) = ours.date.map_or((1, vec![]), |days| (4, days.to_le_bytes().to_vec()));
    // A field with a NaN equals nothing, not even itself. The published `==` looks at all that a field has, so ours looks at the date too.
    let equal = field.oracle == field.oracle.clone();
    let checks = [
        (bytes == [&[kind][..], &plain[1..20], &days, &plain[20..]].concat(), "the file has more than the date beside the undated one"),
        (written(&again)? == bytes, "other bytes where it is written again"),
        ((again == *ours) == equal, "== with what is read"),
        ((undated == *ours) == (equal && ours.date.is_none()), "== with its copy without a date"),
    ];
    match checks.iter().find(|(holds, _)| !holds) {
        Some((_, what)) => Err(what.to_string()),
        None => field_fault(&again, &field.oracle, ours.date).map_or(Ok(()), Err),
    }
}
