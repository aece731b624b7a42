//! The crate `model_file` against a plain reader and writer (`format.rs`), which stand in for an oracle: the Rust has no model file.

pub mod bench;
mod damage;
mod dates;
pub mod format;
mod ours;
pub mod replay;

use crate::cases::Cases;
use crate::entries::*;
use crate::guarded::Guarded;
use crate::refusal::{BEYOND, Checks, SPACE, TIDE, answered, fault, pairs};
use crate::tally::{Report, Tally};
use format::{HEAD_WORDS, Model, file, file_length, head_length};

/// Degrees of large files.
const LARGE: [usize; 3] = [96, 360, 2700];
/// Numbers that are no tide system's; the low bits of some are.
const NO_TIDES: [u32; 8] = [4, 5, 255, 256, 259, 65_536, 1 << 31, u32::MAX];

pub fn compare(report: &mut Report) {
    report.call("model_file.read", reading);
    report.call("model_file.write", writing);
    report.call("model_file dates", dates::compare);
    report.call("model_file round trips", round_trips);
}

/// A random model with this date: any bits, or numbers of strange shapes, NaNs with payloads among them.
fn model(cases: &mut Cases, nmax: usize, date: Option<i32>) -> Model {
    let count = pairs(nmax) as usize;
    let strange = cases.below(2) == 0;
    let mut draw = || if strange { cases.number().to_bits() } else { cases.bits() };
    let (gm, radius) = (draw(), draw());
    let (c, s) = (0..count).map(|_| (draw(), draw())).unzip();
    Model { gm, radius, tide: cases.below(4) as u8, nmax, date, c, s }
}

/// One that is dated or not.
fn any_model(cases: &mut Cases, nmax: usize) -> Model {
    let date = dates::any(cases);
    model(cases, nmax, date)
}

/// The first of the bytes in hexadecimal, for a message.
fn excerpt(bytes: &[u8]) -> String {
    let front: String = bytes.iter().take(64).map(|byte| format!("{byte:02x}")).collect();
    format!("{} bytes {front}{}", bytes.len(), if bytes.len() > 64 { ".." } else { "" })
}

/// Read one file by both, into lists of the lengths given for c, s and head.
fn read(tally: &mut Tally, bytes: &[u8], lengths: [usize; 3]) {
    let mut model = Model::default();
    let due = match format::read(bytes, &mut model) {
        Ok(()) if lengths[0] < model.c.len() || lengths[1] < model.s.len() || lengths[2] < HEAD_WORDS => SPACE,
        Ok(()) => 0,
        Err(refusal) => refusal,
    };
    let mut lent = Guarded::of(bytes, bytes.len());
    let [mut c, mut s, mut head] = lengths.map(Guarded::<u64>::marked);
    let ours = unsafe {
        let (c, s, head) = ((c.pointer(), c.len()), (s.pointer(), s.len()), (head.pointer(), head.len()));
        geopotential_model_read(lent.pointer(), bytes.len(), c.0, c.1, s.0, s.1, head.0, head.1)
    };
    let words = model.words();
    let answer: [&[u64]; 3] = if due == 0 { [&model.c, &model.s, &words] } else { [&[]; 3] };
    let fault = fault(ours, due)
        .or_else(|| head.fault("head", answer[2]))
        .or_else(|| c.fault("c", answer[0]))
        .or_else(|| s.fault("s", answer[1]))
        .or_else(|| lent.fault("bytes", &[]));
    tally.call(fault, || format!("read, lengths {lengths:?}, {}", excerpt(bytes)));
}

/// Lengths of c, s and head for T pairs: mostly enough, else one of them too short.
fn room(cases: &mut Cases, count: usize) -> [usize; 3] {
    let stated = [count, count, HEAD_WORDS];
    let mut lengths = stated.map(|length| length + cases.below(3) as usize);
    let place = cases.below(12) as usize;
    if place < 3 {
        lengths[place] = stated[place] - 1 - cases.below(2).min(count as u64 - 1) as usize;
    }
    lengths
}

/// A whole file, with every mixture of lengths about the needed ones.
fn whole(tally: &mut Tally, model: &Model) {
    let count = model.c.len();
    let about = [0, count - 1, count, count + 1];
    for lengths in about.iter().flat_map(|&c| about.iter().flat_map(move |&s| (0..HEAD_WORDS + 2).map(move |head| [c, s, head]))) {
        let mut bytes = file(model);
        read(tally, &bytes, lengths);
        // The file's own refusals come before SPACE.
        bytes.push(0);
        read(tally, &bytes, lengths);
        bytes.truncate(bytes.len() - 2);
        read(tally, &bytes, lengths);
        bytes[17] = 4;
        read(tally, &bytes, lengths);
    }
}

fn reading(tally: &mut Tally, cases: &mut Cases) {
    for nmax in [0, 1, 2, 5] {
        for date in dates::both(cases) {
            whole(tally, &model(cases, nmax, date));
        }
    }
    damage::systematic(cases, |bytes| read(tally, bytes, [12, 12, HEAD_WORDS + 1]));
    for _ in cases.times(600_000) {
        let bytes = damage::random(cases);
        let lengths = room(cases, 28);
        read(tally, &bytes, lengths);
        let nmax = cases.below(7) as usize;
        let lengths = room(cases, pairs(nmax) as usize);
        read(tally, &file(&any_model(cases, nmax)), lengths);
    }
    for _ in cases.times(8_000) {
        let nmax = cases.below(41) as usize;
        let lengths = room(cases, pairs(nmax) as usize);
        read(tally, &file(&any_model(cases, nmax)), lengths);
    }
    for nmax in LARGE {
        for date in dates::both(cases) {
            let model = model(cases, nmax, date);
            large(tally, cases, &model);
        }
    }
}

/// A large file, whole with lists about the needed ones, and damaged.
fn large(tally: &mut Tally, cases: &mut Cases, model: &Model) {
    let (bytes, count) = (file(model), model.c.len());
    for [c, s, head] in [[0, 0, 0], [1, 0, 0], [0, 1, 0], [0, 0, 1]] {
        read(tally, &bytes, [count - c, count - s, HEAD_WORDS - head]);
    }
    // Short lists are enough to see that the file's own refusals come first.
    damage::large(cases, model, |bytes| read(tally, bytes, [3, 3, HEAD_WORDS]));
}

/// What the writer is told of a head beside gm and radius: any numbers, right or wrong.
#[derive(Clone, Copy, Debug)]
struct Told {
    tide: u32,
    dated: u32,
    days: i32,
    nmax: usize,
}

impl Told {
    fn of(model: &Model) -> Self {
        let (dated, days) = (model.date.is_some() as u32, model.date.unwrap_or(0));
        Told { tide: model.tide as u32, dated, days, nmax: model.nmax }
    }
}

/// Write one model by both, with what is told of its head, and the lengths of c, s and out, as given.
fn write(tally: &mut Tally, model: &Model, told: Told, lengths: [usize; 3]) {
    let Told { tide, dated, days, nmax } = told;
    let (stated, date) = (pairs(nmax), (dated != 0).then_some(days));
    let inputs = [(lengths[0], stated), (lengths[1], stated)];
    let room = [(lengths[2], head_length(date.is_some()) as u128 + 17 * stated.min(1 << 100) + 1)];
    let due = if tide > 3 { TIDE } else { Checks { degree: nmax, inputs: &inputs, outputs: &room, ..Checks::default() }.due() };
    let (mut c, mut s) = (Guarded::of(&model.c, lengths[0]), Guarded::of(&model.s, lengths[1]));
    let mut out = Guarded::<u8>::marked(lengths[2]);
    let ours = unsafe {
        let (c, s, out) = ((c.pointer(), c.len()), (s.pointer(), s.len()), (out.pointer(), out.len()));
        geopotential_model_write(model.gm, model.radius, tide, dated, days, nmax, c.0, c.1, s.0, s.1, out.0, out.1)
    };
    let answer = answered(due, || file(&Model { tide: tide as u8, date, ..model.clone() })).unwrap_or_default();
    let fault = fault(ours, due).or_else(|| out.fault("out", &answer)).or_else(|| c.fault("c", &[])).or_else(|| s.fault("s", &[]));
    tally.call(fault, || format!("write, {told:?}, lengths {lengths:?}, gm {:016x}, radius {:016x}", model.gm, model.radius));
}

/// One model with every mixture of lengths about the needed ones, of tides, and of degrees.
fn mixtures(tally: &mut Tally, model: &Model) {
    let (told, count) = (Told::of(model), model.c.len());
    let [undated, length] = [false, model.date.is_some()].map(|dated| file_length(model.nmax, dated));
    let about = [0, count - 1, count, count + 1];
    let room = [0, 20, 24, length - 17, undated - 1, undated, length - 1, length, length + 1, length + 17];
    for lengths in about.iter().flat_map(|&c| about.iter().flat_map(move |&s| room.map(|out| [c, s, out]))) {
        (0..4).chain(NO_TIDES).for_each(|tide| write(tally, model, Told { tide, ..told }, lengths));
        for nmax in BEYOND.into_iter().chain([2700, model.nmax + 1]) {
            (3..5).for_each(|tide| write(tally, model, Told { tide, nmax, ..told }, lengths));
        }
    }
}

fn writing(tally: &mut Tally, cases: &mut Cases) {
    for nmax in [0, 1, 2, 5] {
        for date in dates::both(cases) {
            mixtures(tally, &model(cases, nmax, date));
        }
    }
    for _ in cases.times(300_000) {
        let nmax = cases.below(7) as usize;
        let model = any_model(cases, nmax);
        let [c, s, out] = [model.c.len(), model.s.len(), file_length(nmax, model.date.is_some())];
        write(tally, &model, Told::of(&model), [c, s, out + cases.below(20) as usize]);
        let off = |cases: &mut Cases, length: usize| (length + cases.below(3) as usize).saturating_sub(1);
        let lengths = [off(cases, c), off(cases, s), off(cases, out)];
        write(tally, &model, Told { tide: cases.below(5) as u32, ..Told::of(&model) }, lengths);
    }
    for nmax in (0..=40).chain(LARGE) {
        for date in dates::both(cases) {
            let model = model(cases, nmax, date);
            let [c, s, out] = [model.c.len(), model.s.len(), file_length(nmax, date.is_some())];
            for lengths in
                [[c, s, out], [c, s, out + 3], [c, s, out - 1], [c - 1, s, out], [c, s - 1, out], [c + 1, s, out], [c, s + 1, out]]
            {
                write(tally, &model, Told::of(&model), lengths);
            }
        }
    }
}

/// Our reader on what our writer wrote, and our writer on what our reader read.
fn round_trips(tally: &mut Tally, cases: &mut Cases) {
    let turns = cases.times(100_000).end as usize;
    for nmax in (0..turns).map(|turn| turn % 25).chain(LARGE).chain(LARGE) {
        let model = any_model(cases, nmax);
        let (count, length) = (model.c.len(), file_length(nmax, model.date.is_some()));
        let (mut out, mut c, mut s, mut head) = (vec![0xa5; length], vec![!0; count], vec![!0; count], [!0; HEAD_WORDS]);
        let refusals = [ours::write(&model.words(), &model.c, &model.s, &mut out), ours::read(&out, &mut c, &mut s, &mut head)];
        let same = head == model.words() && c == model.c && s == model.s;
        let what = || format!("N {nmax}, date {:?}", model.date);
        tally.call((refusals != [0, 0] || !same).then(|| format!("refusals {refusals:?}")), || format!("written and read, {}", what()));

        let mut again = vec![0x5a; length];
        let refusal = ours::write(&head, &c, &s, &mut again);
        tally.call((refusal != 0 || again != out).then(|| format!("refusal {refusal}")), || format!("read and written, {}", what()));
    }
}
