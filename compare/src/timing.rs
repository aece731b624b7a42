//! Timing of ours against the Rust's, in one run.

use std::hint::black_box;
use std::time::Instant;

const ROUNDS: usize = 21;
/// Work of more than half a second is timed fewer times.
const LONG: f64 = 0.5e9;
const FEW_ROUNDS: usize = 3;
/// Rounds of differences.
const MORE_ROUNDS: usize = 5;

pub fn header() {
    println!("{:<42}{:>16}{:>16}{:>11}", "ns a call, median", "ours", "Rust", "ours/Rust");
}

/// Two times of so many calls, and their ratio.
fn print_row(name: &str, ours: f64, rust: f64, calls: f64) {
    println!("{name:<42}{:>16.2}{:>16.2}{:>11.2}", ours / calls, rust / calls, ours / rust);
}

fn median(mut times: Vec<f64>) -> f64 {
    times.sort_by(f64::total_cmp);
    times[times.len() / 2]
}

/// The median times of two pieces of work in nanoseconds, timed turn by turn.
fn medians<A>(mut ours: impl FnMut() -> A, mut rust: impl FnMut() -> A) -> (f64, f64) {
    let time = |work: &mut dyn FnMut() -> A| {
        let start = Instant::now();
        black_box(work());
        start.elapsed().as_nanos() as f64
    };
    let first = time(&mut ours).max(time(&mut rust));
    let rounds = if first > LONG { FEW_ROUNDS } else { ROUNDS };
    let (ours, rust): (Vec<f64>, Vec<f64>) = (0..rounds).map(|_| (time(&mut ours), time(&mut rust))).unzip();
    (median(ours), median(rust))
}

/// Time two pieces of work of `calls` calls each and print the time of a call.
pub fn race<A>(name: &str, calls: usize, ours: impl FnMut() -> A, rust: impl FnMut() -> A) {
    let (ours, rust) = medians(ours, rust);
    print_row(name, ours, rust, calls as f64);
}

/// Time work on `many` things and on one of them, both sides turn by turn, and print the time that one more takes: what every call does
/// whatever the number of things is left out.
pub fn race_more<S>(name: &str, state: &mut S, many: usize, ours: impl Fn(&mut S, usize) -> u32, rust: impl Fn(&mut S, usize) -> u32) {
    let mut more = |work: &dyn Fn(&mut S, usize) -> u32| {
        let mut time = |things: usize| {
            let start = Instant::now();
            black_box(work(state, things));
            start.elapsed().as_nanos() as f64
        };
        (time(many) - time(1)) / (many - 1) as f64
    };
    let (ours, rust): (Vec<f64>, Vec<f64>) = (0..MORE_ROUNDS).map(|_| (more(&ours), more(&rust))).unzip();
    print_row(name, median(ours), median(rust), 1.0);
}

/// Time two pieces of work on so many bytes and print how many go through in a nanosecond; the ratio is that of the times.
pub fn race_bytes<A>(name: &str, bytes: usize, ours: impl FnMut() -> A, rust: impl FnMut() -> A) {
    let (ours, rust) = medians(ours, rust);
    println!("{name:<42}{:>16.2}{:>16.2}{:>11.2}", bytes as f64 / ours, bytes as f64 / rust, ours / rust);
}

/// An answer as a word, so that a loop can use it.
pub trait Answer {
    fn word(self) -> u64;
}

impl Answer for f64 {
    fn word(self) -> u64 {
        self.to_bits()
    }
}

impl Answer for u64 {
    fn word(self) -> u64 {
        self
    }
}

impl Answer for u32 {
    fn word(self) -> u64 {
        self as u64
    }
}

/// Throughput: independent inputs of a list. The answers are folded into a word, not into a sum of floats, which would lie in
/// memory over each call and cost more than the call.
pub fn throughput<T: Copy, A: Answer>(name: &str, inputs: &[T], passes: usize, ours: impl Fn(T) -> A, rust: impl Fn(T) -> A) {
    fn fold<T: Copy, A: Answer>(inputs: &[T], passes: usize, f: impl Fn(T) -> A) -> u64 {
        let mut word = 0u64;
        for _ in 0..passes {
            for &x in black_box(inputs) {
                word = word.rotate_left(1) ^ f(x).word();
            }
        }
        word
    }
    race(name, inputs.len() * passes, || fold(inputs, passes, &ours), || fold(inputs, passes, &rust));
}

/// Latency: every input is a number of a list plus the answer before it, so the time has one addition in it.
pub fn latency(name: &str, inputs: &[f64], passes: usize, ours: impl Fn(f64) -> f64, rust: impl Fn(f64) -> f64) {
    fn chain(inputs: &[f64], passes: usize, f: impl Fn(f64) -> f64) -> f64 {
        let mut answer = 0.0;
        for _ in 0..passes {
            for &x in black_box(inputs) {
                answer = f(x + answer);
            }
        }
        answer
    }
    race(name, inputs.len() * passes, || chain(inputs, passes, &ours), || chain(inputs, passes, &rust));
}

/// An answer that the Rust has allocated, looked at and given back.
pub fn allocated<T>(answer: T) -> u32 {
    black_box(&answer);
    0
}

/// The refusals of all calls, so that none is left out.
pub fn repeat(calls: usize, mut call: impl FnMut() -> u32) -> u32 {
    (0..calls).map(|_| black_box(call())).fold(0, |all, refusal| all | refusal)
}
